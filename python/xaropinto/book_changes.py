"""What changed between two years' books: chains, means of the groups, rates, mortality, curve."""

from dataclasses import dataclass
from typing import Optional

from xaropinto import answers
from xaropinto.book_values import BookValues
from xaropinto.layout import CHAINS, GROUPS, SEXES
from xaropinto.plausibility import GroupMeans, Unlinked, group_means, mortality_of, unlinked_of

# The percentages of edition 1.
PERCENTAGES = (87, 86)
# Mortality is listed where it moved by more than one part in so many.
TENTH = 10


@dataclass(frozen=True)
class GroupChange:
    """A product group in both years, and this year's means over last year's."""

    last: GroupMeans
    this: GroupMeans
    premium_ratio: Optional[float]
    claims_ratio: Optional[float]
    lapse_ratio: Optional[float]


@dataclass(frozen=True)
class NumberChange:
    """A number in both years."""

    name: str
    last: int
    this: int


@dataclass(frozen=True)
class BookChanges:
    """All that changed; `mortality` has the classes where it moved by more than a tenth."""

    vanished: tuple[str, ...]
    appeared: tuple[str, ...]
    unlinked_last: Unlinked
    unlinked_this: Unlinked
    groups: tuple[GroupChange, ...]
    cost_rates: tuple[NumberChange, ...]
    percentages: tuple[NumberChange, ...]
    mortality: tuple[NumberChange, ...]
    curve: tuple[NumberChange, ...]


def changes_between(last: bytes, this: bytes) -> BookChanges:
    """The changes of two accepted books."""
    old, new = answers.read(last), answers.read(this)
    held = [(name, bool(before.counts), bool(now.counts))
            for name, before, now in zip(CHAINS, old.chains, new.chains)]
    return BookChanges(
        tuple(name for name, before, now in held if before and not now),
        tuple(name for name, before, now in held if now and not before),
        unlinked_of(last), unlinked_of(this),
        tuple(map(group_change, group_means(old), group_means(new))),
        tuple(map(NumberChange, GROUPS, old.cost_rates, new.cost_rates)),
        tuple(map(NumberChange, SEXES, percentages_of(old), percentages_of(new))),
        mortality_changes(old, new),
        tuple(NumberChange(str(year), before, now)
              for year, (before, now) in enumerate(zip(old.curve, new.curve), start=1)))


def group_change(last: GroupMeans, this: GroupMeans) -> GroupChange:
    """A group's means with their ratios."""
    return GroupChange(last, this, ratio(this.premium, last.premium),
                       ratio(this.claims, last.claims), ratio(this.lapse, last.lapse))


def ratio(this: Optional[float], last: Optional[float]) -> Optional[float]:
    """One over the other, where both are there and the second is not 0."""
    return this / last if this is not None and last else None


def percentages_of(values: BookValues) -> tuple[int, int]:
    """The mortality percentages that the valuation takes."""
    return values.percentages if values.edition == 2 else PERCENTAGES


def mortality_changes(old: BookValues, new: BookValues) -> tuple[NumberChange, ...]:
    """Where mortality moved by more than a tenth of last year's."""
    found = []
    for sex, people in enumerate(SEXES):
        pairs = zip(mortality_of(old, sex), mortality_of(new, sex))
        for age_class, (before, now) in enumerate(pairs):
            if TENTH * abs(now - before) > before:
                found.append(NumberChange(f"{people} {age_class}", before, now))
    return tuple(found)
