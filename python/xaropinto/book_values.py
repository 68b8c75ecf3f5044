"""A book's values and lists, chain by chain: between tables and the calls Write and Read."""

from array import array
from typing import NamedTuple, Sequence

from xaropinto.calls import Values
from xaropinto.layout import CHAINS, NO_CLASS


class Chain(NamedTuple):
    """The lists of one chain from its first class to 120; a chain without records starts at 121."""

    first_class: int
    counts: tuple[int, ...]
    lapses: tuple[int, ...]
    premiums: tuple[int, ...]
    claims: tuple[int, ...]

    def lists(self) -> tuple[tuple[int, ...], ...]:
        """Its four lists, in the order of the calls."""
        return self.counts, self.lapses, self.premiums, self.claims


class BookValues(NamedTuple):
    """The header's values, and 14 chains in head order."""

    edition: int
    percentages: tuple[int, int]
    year: int
    cost_rates: tuple[int, ...]
    curve: tuple[int, ...]
    mortality: tuple[int, ...]
    chains: tuple[Chain, ...]

    def header(self) -> Values:
        """As the calls take them."""
        first_classes = tuple(chain.first_class for chain in self.chains)
        return Values(
            self.edition,
            self.percentages,
            self.year,
            self.cost_rates,
            self.curve,
            self.mortality,
            first_classes,
        )

    def lists(self) -> tuple["array[int]", "array[int]", "array[int]", "array[int]"]:
        """Counts, lapses, premiums and claims, the chains end to end."""
        counts, lapses, premiums, claims = (
            array("Q", [number for chain in self.chains for number in chain.lists()[kind]])
            for kind in range(4)
        )
        return counts, lapses, premiums, claims

    def records(self) -> int:
        """How many records its book has."""
        return sum(NO_CLASS - chain.first_class for chain in self.chains)


def taken_apart(values: Values, lists: Sequence["array[int]"]) -> BookValues:
    """The chains of the lists that stand end to end."""
    chains, at = [], 0
    for first_class in values.first_classes[: len(CHAINS)]:
        until = at + NO_CLASS - first_class
        chains.append(Chain(first_class, *(tuple(each[at:until]) for each in lists)))
        at = until
    men, women = values.percentages
    return BookValues(
        values.edition,
        (men, women),
        values.year,
        values.cost_rates,
        values.curve,
        values.mortality,
        tuple(chains),
    )
