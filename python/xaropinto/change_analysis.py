"""Analysis of change: from last year's totals to this year's, step by step, in centimes.

A step takes over one part of this year's book and keeps what the steps before it took. Its book is
written by the proved Write and valued by the proved Totals, so the steps add up exactly. A chain
or class that one book alone has stays as it is until the last step, contracts.
"""

from dataclasses import dataclass
from typing import Iterator, Sequence

from xaropinto import answers
from xaropinto.book_values import BookValues, Chain
from xaropinto.layout import CHAINS, LAST_CLASS

CONTRACTS = "contracts"


@dataclass(frozen=True)
class Figures:
    """Eight totals and four differences: of a book, or what a step adds to them."""

    totals: tuple[int, ...]
    differences: tuple[int, ...]


@dataclass(frozen=True)
class Step:
    """A part of the book that changed, and what it adds."""

    name: str
    adds: Figures


@dataclass(frozen=True)
class ChangeAnalysis:
    """Last year's figures, the steps in their order, and this year's figures."""

    last: Figures
    steps: tuple[Step, ...]
    this: Figures
    remarks: tuple[str, ...]


def analyse_change(last: bytes, this: bytes) -> ChangeAnalysis:
    """The analysis of two accepted books."""
    old, new = answers.read(last), answers.read(this)
    first, end = figures_of(last), figures_of(this)
    steps, remarks, names, before = [], list(one_sided(old, new)), [], first
    for name, values in steps_between(old, new):
        names.append(name)
        try:
            after = figures_of(answers.write(values))
        except answers.RefusedError as refused:
            remarks.append(f"The book of the step '{name}' cannot be written ({refused.words}): "
                           "it is joined with the next step.")
            continue
        steps.append(Step(" and ".join(names), less(after, before)))
        names, before = [], after
    steps.append(Step(" and ".join([*names, CONTRACTS]), less(end, before)))
    return ChangeAnalysis(first, tuple(steps), end, tuple(remarks))


def figures_of(book: bytes) -> Figures:
    """What Totals says."""
    reply = answers.totals(book)
    return Figures(reply.totals, reply.differences)


def less(one: Figures, other: Figures) -> Figures:
    """What is between two books."""
    return Figures(subtracted(one.totals, other.totals),
                   subtracted(one.differences, other.differences))


def subtracted(one: Sequence[int], other: Sequence[int]) -> tuple[int, ...]:
    """Number by number."""
    return tuple(a - b for a, b in zip(one, other))


def steps_between(old: BookValues, new: BookValues) -> Iterator[tuple[str, BookValues]]:
    """Each step but the last, with the values of its book."""
    values = old._replace(curve=new.curve)
    yield "curve", values
    values = values._replace(edition=new.edition, percentages=new.percentages,
                             mortality=new.mortality)
    yield "mortality", values
    values = values._replace(cost_rates=new.cost_rates)
    yield "cost rates", values
    values = values._replace(chains=tuple(map(with_lapses, values.chains, new.chains)))
    yield "lapse", values
    values = values._replace(chains=tuple(map(with_amounts, values.chains, new.chains)))
    yield "premiums and claims", values


def with_lapses(old: Chain, new: Chain) -> Chain:
    """A chain with this year's lapse, where both books have the class."""
    return old._replace(lapses=taken_over(old.lapses, new.lapses))


def with_amounts(old: Chain, new: Chain) -> Chain:
    """A chain with this year's premiums and claims, where both books have the class."""
    return old._replace(premiums=taken_over(old.premiums, new.premiums),
                        claims=taken_over(old.claims, new.claims))


def taken_over(old: tuple[int, ...], new: tuple[int, ...]) -> tuple[int, ...]:
    """The new numbers for the classes that both lists have: each ends at class 120."""
    common = min(len(old), len(new))
    return (*old[:len(old) - common], *new[len(new) - common:])


def one_sided(old: BookValues, new: BookValues) -> Iterator[str]:
    """Chains and classes that one book alone has."""
    for name, before, now in zip(CHAINS, old.chains, new.chains):
        if before.first_class == now.first_class:
            continue
        book = "last year's" if before.first_class < now.first_class else "this year's"
        first, until = sorted((before.first_class, now.first_class))
        what = "the chain is" if until > LAST_CLASS else (
            f"classes {first} to {until - 1} are" if until - 1 > first else f"class {first} is")
        yield f"{name}: {what} in {book} book alone, part of the step '{CONTRACTS}'."
