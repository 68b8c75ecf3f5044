"""The book maker: valid books from values and back, at random, full, empty, the paper's own."""

from dataclasses import dataclass, field, replace
from typing import NamedTuple

from reference.layout import (AGE_BASIS, CHAINS, CLASSES, COST_RATES, CURVE, EDITION, MORTALITY,
                              MOST_RECORDS, OLDEST_CLASS, PERCENTAGES, RECORD_COUNT, RECORD_SIZE,
                              SST_YEAR, record, record_start)

PG2_MEN = 6


class Cell(NamedTuple):
    """What one class of a chain holds."""

    count: int
    lapse: int
    premium: int
    claims: int


class Portfolio(NamedTuple):
    """One chain's first class and its cells, one a class up to 120."""

    first_class: int
    cells: tuple


class Slot(NamedTuple):
    """Which class of which chain a record holds."""

    chain: int
    age_class: int


@dataclass
class Values:
    """All that a book says: `portfolios` maps a chain's index to its portfolio.

    The percentages are those that edition 2 carries, of men and of women; edition 1 carries none.
    """

    edition: int = 1
    percentages: tuple = (0, 0)
    sst_year: int = 2021
    cost_rates: list = field(default_factory=lambda: [0] * len(COST_RATES))
    curve: list = field(default_factory=lambda: [0] * len(CURVE))
    mortality: list = field(default_factory=lambda: [[0] * CLASSES, [0] * CLASSES])
    portfolios: dict = field(default_factory=dict)


def put_checked(book, place, number):
    """Write a number that must keep its range."""
    if not place.low <= number <= place.high:
        raise ValueError(f"{place.name}: {number} is out of range")
    place.put(book, number)


def slots_in_chain_order(values):
    """A slot for every cell, chain by chain in head order, by rising class."""
    return [Slot(chain, portfolio.first_class + step)
            for chain, portfolio in sorted(values.portfolios.items())
            for step in range(len(portfolio.cells))]


def shuffled(slots, chooser):
    """The same slots in a random order."""
    return chooser.sample(slots, len(slots))


def with_junk(slots, junk_count, chooser):
    """Unlinked records of random bytes mixed in anywhere, first and last included."""
    mixed = list(slots)
    for _ in range(junk_count):
        mixed.insert(chooser.randint(0, len(mixed)), chooser.randbytes(RECORD_SIZE))
    return mixed


def make_book(values, order=None):
    """The bytes of a valid book; `order` lists slots and, as bytes, unlinked records."""
    if order is None:
        order = slots_in_chain_order(values)
    if sorted(slot for slot in order if isinstance(slot, Slot)) != slots_in_chain_order(values):
        raise ValueError("the order must hold every cell just once")
    book = bytearray(record_start(len(order) + 1))
    put_header(book, values, len(order))
    numbers = {slot: number for number, slot in enumerate(order, start=1)
               if isinstance(slot, Slot)}
    for number, slot in enumerate(order, start=1):
        if not isinstance(slot, Slot):
            book[record_start(number):record_start(number + 1)] = slot
    for chain, portfolio in values.portfolios.items():
        put_chain(book, chain, portfolio, numbers)
    return bytes(book)


def put_header(book, values, record_count):
    """Everything before the records but the heads."""
    mortality = values.mortality[0] + values.mortality[1]
    tables = ((COST_RATES, values.cost_rates), (CURVE, values.curve), (MORTALITY, mortality))
    put_checked(book, EDITION, values.edition)
    if values.edition == 2:
        for place, number in zip(PERCENTAGES, values.percentages, strict=True):
            put_checked(book, place, number)
    elif values.percentages != (0, 0):
        raise ValueError("edition 1 carries no percentages")
    put_checked(book, AGE_BASIS, 1)
    put_checked(book, SST_YEAR, values.sst_year)
    put_checked(book, RECORD_COUNT, record_count)
    for places, numbers in tables:
        for place, number in zip(places, numbers, strict=True):
            put_checked(book, place, number)


def put_chain(book, chain, portfolio, numbers):
    """One chain's records, linked from its head up to class 120."""
    if not portfolio.cells or portfolio.first_class + len(portfolio.cells) != CLASSES:
        raise ValueError(f"{CHAINS[chain].name}: the cells must end at class {OLDEST_CLASS}")
    link = CHAINS[chain].head
    for age_class, cell in enumerate(portfolio.cells, start=portfolio.first_class):
        linked = record(numbers[Slot(chain, age_class)])
        put_checked(book, link, linked.number)
        put_checked(book, linked.code, CHAINS[chain].code)
        put_checked(book, linked.sex, CHAINS[chain].sex)
        put_checked(book, linked.age_class, age_class)
        for place, number in zip(linked.amounts, cell, strict=True):
            put_checked(book, place, number)
        link = linked.next


def read_values(book):
    """What an accepted book says, unlinked records left out: the way back from `make_book`."""
    def numbers(places):
        return [place.read(book) for place in places]

    portfolios = {chain: read_portfolio(book, link.head.read(book))
                  for chain, link in enumerate(CHAINS) if link.head.read(book) != 0}
    return Values(EDITION.read(book), tuple(numbers(PERCENTAGES)), SST_YEAR.read(book),
                  numbers(COST_RATES), numbers(CURVE),
                  [numbers(MORTALITY[:CLASSES]), numbers(MORTALITY[CLASSES:])], portfolios)


def read_portfolio(book, number):
    """The chain that starts at the record of this number."""
    first_class = record(number).age_class.read(book)
    cells = []
    while number != 0:
        linked = record(number)
        cells.append(Cell(*(amount.read(book) for amount in linked.amounts)))
        number = linked.next.read(book)
    return Portfolio(first_class, tuple(cells))


def realistic_cell(chooser):
    """A cell as an insurer might report it; some classes have no contracts."""
    count = 0 if chooser.random() < 0.2 else chooser.randint(1, 5_000)
    return Cell(count, chooser.randint(0, 150_000),
                chooser.randint(10_000, 900_000), chooser.randint(10_000, 900_000))


def extreme_cell(chooser):
    """A cell with every amount at one end of its range."""
    return Cell(*(chooser.choice((amount.low, amount.high)) for amount in record(1).amounts))


def realistic_tables(chooser):
    """Tables of believable size: deaths rise with the class, rates are small."""
    return Values(
        sst_year=chooser.randint(2017, 2035),
        cost_rates=[chooser.randint(50_000, 250_000) for _ in COST_RATES],
        curve=[chooser.randint(-9_000, 35_000) for _ in CURVE],
        mortality=[[min(1_000_000, 60 + age ** 3 // 2 + chooser.randint(0, 40))
                    for age in range(CLASSES)] for _ in range(2)])


def extreme_tables(chooser):
    """Tables with every number at one end of its range."""
    def ends(places):
        return [chooser.choice((place.low, place.high)) for place in places]

    return Values(
        sst_year=chooser.choice((SST_YEAR.low, SST_YEAR.high)),
        cost_rates=ends(COST_RATES),
        curve=ends(CURVE),
        mortality=[ends(MORTALITY[:CLASSES]), ends(MORTALITY[CLASSES:])])


def with_random_edition(values, chooser):
    """The values in edition 1, or in edition 2 with percentages near 87 and 86 or anywhere."""
    if chooser.random() < 0.4:
        return values
    ranges = chooser.choice((((84, 90), (83, 89)), ((1, 100),) * 2, ((1, 1), (100, 100)),
                             ((100, 100), (1, 1))))
    return replace(values, edition=2, percentages=tuple(chooser.randint(*ends) for ends in ranges))


def random_values(chooser, chain_count, least_class, extreme=False):
    """Values of either edition for so many chains, each from a class at or above the least."""
    values = extreme_tables(chooser) if extreme else realistic_tables(chooser)
    cell = extreme_cell if extreme else realistic_cell
    for chain in chooser.sample(range(len(CHAINS)), chain_count):
        first_class = chooser.randint(least_class, OLDEST_CLASS)
        cells = tuple(cell(chooser) for _ in range(first_class, CLASSES))
        values.portfolios[chain] = Portfolio(first_class, cells)
    return with_random_edition(values, chooser)


def random_book(chooser, least_class=117, most_chains=4, most_junk=3):
    """A random valid book, in chain order or shuffled, with or without junk."""
    chain_count = chooser.randint(0, most_chains)
    values = random_values(chooser, chain_count, least_class, chooser.random() < 0.25)
    slots = slots_in_chain_order(values)
    if chooser.random() < 0.6:
        slots = shuffled(slots, chooser)
    free = MOST_RECORDS - len(slots)
    return make_book(values, with_junk(slots, min(free, chooser.randint(0, most_junk)), chooser))


def full_book(chooser, shuffle=False):
    """All 14 chains from class 0: 1,694 records."""
    values = realistic_tables(chooser)
    for chain in range(len(CHAINS)):
        cells = tuple(realistic_cell(chooser) for _ in range(CLASSES))
        values.portfolios[chain] = Portfolio(0, cells)
    values = with_random_edition(values, chooser)
    slots = slots_in_chain_order(values)
    return make_book(values, shuffled(slots, chooser) if shuffle else slots)


def empty_book():
    """No records, all tables zero."""
    return make_book(Values())


def one_record_book():
    """The book behind the paper's listing: ten contracts of PG2 men at class 120."""
    cell = Cell(count=10, lapse=0, premium=100_000, claims=80_000)
    return make_book(Values(cost_rates=[0, 100_000, 0, 0, 0],
                            portfolios={PG2_MEN: Portfolio(OLDEST_CLASS, (cell,))}))
