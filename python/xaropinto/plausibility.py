"""Warnings about a book that is accepted: it can be valued, and something about it is unusual.

A warning is no refusal. Each has a name, a threshold and a reason, all in `RULES`.
"""

from dataclasses import dataclass
from datetime import date
from typing import Callable, Iterator, Optional

from xaropinto import answers
from xaropinto.book_values import BookValues
from xaropinto.layout import (GROUPS, HEADER_BYTES, LAST_CLASS, RECORD_BYTES, SEXES, SUBGROUPS,
                              Record, heads)
from xaropinto.number_format import counted, francs, percent, swiss
from xaropinto.portfolio import GROUP_OF, contracts_by_class

# The most that a record holds.
MOST_CONTRACTS = 100_000
LEAST_PREMIUM, MOST_PREMIUM = 5_000, 5_000_000
CLAIMS_FACTOR = 5
HALF = 500_000
RISING_FROM, RISING_TO, RISING_STEP = 40, 100, 10
OLD_CLASS, OLD_PERCENT = 110, 1


@dataclass(frozen=True)
class Note:
    """A warning: its name, and what was found."""

    name: str
    text: str


@dataclass(frozen=True)
class GroupMeans:
    """A product group's contracts, and their means: centimes a year, and millionths of lapse."""

    group: str
    contracts: int
    premium: Optional[float]
    claims: Optional[float]
    lapse: Optional[float]


@dataclass(frozen=True)
class Unlinked:
    """Records that no chain links and whose count is one that a record may have."""

    records: int
    contracts: int


@dataclass(frozen=True)
class Facts:
    """What the rules read."""

    book: bytes
    values: BookValues
    means: tuple[GroupMeans, ...]
    today: date


def notes_of(book: bytes, today: Optional[date] = None) -> tuple[Note, ...]:
    """The warnings about an accepted book; `today` is the clock's day unless given."""
    values = answers.read(book)
    facts = Facts(book, values, group_means(values), today or date.today())
    return tuple(Note(rule.name, text) for rule in RULES for text in rule.find(facts))


def group_means(values: BookValues) -> tuple[GroupMeans, ...]:
    """Contracts and means of the five product groups; no means where there are no contracts."""
    sums = {group: [0, 0, 0, 0] for group in GROUPS}
    for number, chain in enumerate(values.chains):
        row = sums[GROUP_OF[SUBGROUPS[number // 2]]]
        for count, lapse, premium, claims in zip(*chain[1:]):
            for place, amount in enumerate((1, premium, claims, lapse)):
                row[place] += count * amount
    return tuple(GroupMeans(group, count, *means_of(count, rest))
                 for group, (count, *rest) in sums.items())


def means_of(count: int, sums: list[int]) -> tuple[Optional[float], ...]:
    """Sums over so many contracts as means."""
    return tuple(each / count if count else None for each in sums)


def linked_records(book: bytes) -> set[int]:
    """The numbers of the records that a chain of an accepted book links."""
    found = set()
    for head in heads():
        number = head.read(book)
        while number:
            found.add(number)
            start = HEADER_BYTES + RECORD_BYTES * (number - 1)
            number = int.from_bytes(book[start + 4:start + 6], "little")
    return found


def unlinked_of(book: bytes) -> Unlinked:
    """The records with contracts that are in no chain."""
    linked = linked_records(book)
    counts = []
    for number in range(1, (len(book) - HEADER_BYTES) // RECORD_BYTES + 1):
        if number not in linked:
            record = Record(number, HEADER_BYTES + RECORD_BYTES * (number - 1))
            counts.append(record.fields()[0].read(book))
    held = [count for count in counts if 0 < count <= MOST_CONTRACTS]
    return Unlinked(len(held), sum(held))


def find_unlinked(facts: Facts) -> Iterator[str]:
    """Contracts that no figure counts."""
    unlinked = unlinked_of(facts.book)
    if unlinked.records:
        records = counted(unlinked.records, "record", "records")
        contracts = counted(unlinked.contracts, "contract", "contracts")
        yield (f"{records} with {contracts} {'is' if unlinked.records == 1 else 'are'} in no chain")


def find_premium(facts: Facts) -> Iterator[str]:
    """Francs written as centimes, or the other way round."""
    for each in facts.means:
        if each.premium is not None and not LEAST_PREMIUM <= each.premium <= MOST_PREMIUM:
            yield f"{each.group}: mean premium {francs(each.premium)} francs a year"


def find_claims(facts: Facts) -> Iterator[str]:
    """Claims in another unit than premiums, or of other contracts."""
    for each in facts.means:
        if each.premium is None or each.claims is None:
            continue
        if CLAIMS_FACTOR * each.claims < each.premium or each.claims > CLAIMS_FACTOR * each.premium:
            yield (f"{each.group}: mean claims {francs(each.claims)} francs a year, mean premium "
                   f"{francs(each.premium)}")


def find_lapse(facts: Facts) -> Iterator[str]:
    """No lapse at all, or percent written as millionths."""
    for each in facts.means:
        if each.lapse is not None and not 0 < each.lapse <= HALF:
            yield f"{each.group}: mean lapse {percent(each.lapse)} percent a year"


def find_cost_rate(facts: Facts) -> Iterator[str]:
    """A rate of another unit."""
    for group, rate in zip(GROUPS, facts.values.cost_rates):
        if rate > HALF:
            yield f"{group}: cost rate {percent(rate)} percent of the premium"


def mortality_of(values: BookValues, sex: int) -> tuple[int, ...]:
    """The mortality of men (0) or women (1) by class."""
    return tuple(values.mortality[sex * (LAST_CLASS + 1):(sex + 1) * (LAST_CLASS + 1)])


def find_mortality_rise(facts: Facts) -> Iterator[str]:
    """A table that is empty, upside down or cut short."""
    for sex, people in enumerate(SEXES):
        table = mortality_of(facts.values, sex)
        flat = [age for age in range(RISING_FROM, RISING_TO, RISING_STEP)
                if table[age + RISING_STEP] <= table[age]]
        if flat:
            yield (f"mortality of {people} does not rise from class {flat[0]} "
                   f"({swiss(table[flat[0]])} millionths) to class {flat[0] + RISING_STEP} "
                   f"({swiss(table[flat[0] + RISING_STEP])})")


def find_mortality_sexes(facts: Facts) -> Iterator[str]:
    """The two columns exchanged."""
    men, women = (mortality_of(facts.values, sex) for sex in range(len(SEXES)))
    above = sum(her > his for his, her in zip(men, women))
    if 2 * above > len(men):
        yield f"mortality of women is above that of men in {above} of {len(men)} classes"


def find_curve(facts: Facts) -> Iterator[str]:
    """Rates that were not filled in."""
    if not any(facts.values.curve):
        yield "every rate of the curve is 0"


def find_old(facts: Facts) -> Iterator[str]:
    """Classes that are no ages."""
    by_class = contracts_by_class(facts.values)
    old, total = sum(by_class[OLD_CLASS + 1:]), sum(by_class)
    if 100 * old > OLD_PERCENT * total:
        yield (f"contracts above class {OLD_CLASS}: {swiss(old)} of {swiss(total)}, "
               f"{100 * old / total:.1f} percent")


def find_one_sex(facts: Facts) -> Iterator[str]:
    """The other sex's chains forgotten."""
    men, women = (sum(contracts_by_class(facts.values, sex=people)) for people in SEXES)
    if bool(men) != bool(women):
        yield f"all contracts are of {SEXES[0 if men else 1]}: {swiss(men + women)}"


def find_year(facts: Facts) -> Iterator[str]:
    """A book of another year."""
    if abs(facts.values.year - facts.today.year) > 1:
        yield f"SST year {facts.values.year}; today is {facts.today.isoformat()}"


@dataclass(frozen=True)
class Rule:
    """A warning's name, when it is given, why, and how it is found."""

    name: str
    threshold: str
    reason: str
    find: Callable[[Facts], Iterator[str]]


RULES = (
    Rule("unlinked-contracts", "a record in no chain has a count of 1 to 100'000",
         "its contracts are in no figure; a head may have been lost", find_unlinked),
    Rule("premium-unit", "a group's mean premium is under 50 or above 50'000 francs a year",
         "francs and centimes exchanged", find_premium),
    Rule("claims-ratio", "a group's claims are under a fifth or above five times its premium",
         "one of the two is in another unit or of other contracts", find_claims),
    Rule("lapse-unit", "a group's mean lapse is 0 or above 50 percent a year",
         "lapse left out, or in another unit than millionths", find_lapse),
    Rule("cost-rate", "a cost rate is above 50 percent of the premium",
         "a rate in another unit than millionths", find_cost_rate),
    Rule("mortality-rise", "mortality does not rise over each ten classes from 40 to 100",
         "a table that is empty, cut short or in the wrong order", find_mortality_rise),
    Rule("mortality-sexes", "women's mortality is above men's in more than half of the classes",
         "the columns of men and women exchanged", find_mortality_sexes),
    Rule("curve-zero", "every rate of the curve is 0",
         "the curve was not filled in: nothing is discounted", find_curve),
    Rule("old-contracts", "more than 1 percent of the contracts are above class 110",
         "a birth year that is missing is often read as 1900", find_old),
    Rule("one-sex", "all contracts are of one sex",
         "the chains of the other sex were left out", find_one_sex),
    Rule("sst-year", "the SST year is not last, this or next year of the clock",
         "a book of another year, or a year that was not changed", find_year),
)
