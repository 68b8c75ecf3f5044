"""What a slip of the age class does to a filing: the totals with every class one lower or higher.

The totals of each moved book are those of the proved call; the moves and the differences are not
proved. A book of age basis 2 that is read as basis 1 is one class too high, so its own figures are
those of `records.lower`.
"""

from dataclasses import dataclass
from typing import Callable, Optional

from xaropinto import answers
from xaropinto.book_values import BookValues, Chain
from xaropinto.layout import CHAINS, LAST_CLASS, NO_CLASS
from xaropinto.number_format import swiss
from xaropinto.plausibility import MOST_CONTRACTS

EMPTY = Chain(NO_CLASS, (), (), (), ())


@dataclass(frozen=True)
class MovedTotals:
    """The eight totals of a moved book; none, and why, where no book holds what was moved."""

    totals: Optional[tuple[int, ...]]
    why_not: str
    left_out: int


@dataclass(frozen=True)
class Move:
    """What is moved, one class lower and one class higher."""

    lower: MovedTotals
    higher: MovedTotals


@dataclass(frozen=True)
class AgeShift:
    """The book's own totals; those with whole records moved; those with counts alone moved."""

    totals: tuple[int, ...]
    records: Move
    counts: Move


def age_shift(book: bytes) -> AgeShift:
    """The totals of an accepted book and of the four moved ones."""
    values = answers.read(book)
    return AgeShift(answers.totals(book).totals,
                    Move(moved(values, record_lower), moved(values, record_higher)),
                    Move(moved(values, count_lower), moved(values, count_higher)))


def moved(values: BookValues, move: Callable[[Chain], Chain]) -> MovedTotals:
    """The totals with every chain moved."""
    chains = tuple(move(chain) if chain.counts else chain for chain in values.chains)
    left_out = contracts_of(values.chains) - contracts_of(chains)
    why_not = too_many(chains)
    if why_not:
        return MovedTotals(None, why_not, left_out)
    return MovedTotals(answers.totals(answers.write(values._replace(chains=chains))).totals, "",
                       left_out)


def contracts_of(chains: tuple[Chain, ...]) -> int:
    """All contracts."""
    return sum(sum(chain.counts) for chain in chains)


def too_many(chains: tuple[Chain, ...]) -> str:
    """Which class would hold more contracts than a record can; empty where none does."""
    for name, chain in zip(CHAINS, chains):
        for offset, count in enumerate(chain.counts):
            if count > MOST_CONTRACTS:
                return (f"class {chain.first_class + offset} of {name} would hold {swiss(count)} "
                        f"contracts, more than the {swiss(MOST_CONTRACTS)} of a record")
    return ""


def record_lower(chain: Chain) -> Chain:
    """Every record one class lower; those of class 0 join it, and class 120 keeps its amounts."""
    lapses, premiums, claims = ((*each, each[-1]) for each in chain[2:])
    if chain.first_class > 0:
        return Chain(chain.first_class - 1, (*chain.counts, 0), lapses, premiums, claims)
    return Chain(0, (chain.counts[0] + chain.counts[1], *chain.counts[2:], 0), lapses[1:],
                 premiums[1:], claims[1:])


def record_higher(chain: Chain) -> Chain:
    """Every record one class higher; that of class 120 has no class left and is left out."""
    if chain.first_class == LAST_CLASS:
        return EMPTY
    counts, lapses, premiums, claims = (each[:-1] for each in chain[1:])
    return Chain(chain.first_class + 1, counts, lapses, premiums, claims)


def count_lower(chain: Chain) -> Chain:
    """Every count one class lower; those of class 0 stay. A new class takes the next's amounts."""
    if chain.first_class == 0:
        return chain._replace(counts=(sum(chain.counts[:2]), *chain.counts[2:], 0))
    lapses, premiums, claims = ((each[0], *each) for each in chain[2:])
    return Chain(chain.first_class - 1, (*chain.counts, 0), lapses, premiums, claims)


def count_higher(chain: Chain) -> Chain:
    """Every count one class higher; those of class 120 stay, as the oldest do in the valuation."""
    if chain.first_class == LAST_CLASS:
        return chain
    return chain._replace(counts=(0, *chain.counts[:-2], chain.counts[-2] + chain.counts[-1]))
