"""The stream of cell projections: how many years the first cell of a chain is computed."""

import random
from typing import NamedTuple

from reference.book import (PG2_MEN, Cell, Portfolio, Values, empty_book, make_book, read_values,
                            realistic_cell, realistic_tables)
from reference.check import check
from reference.layout import CHAINS, CLASSES, OLDEST_CLASS, SETTINGS
from reference.valuation import YEARS, years_in_force
from tests.fixtures.trial_books import contract, in_force_book
from tests.vectors.check_cases_order import BOOK_REFUSALS, spoiled
from tests.vectors.files import book_frame, stream_output

PG2_WOMEN = PG2_MEN + 1
NO_CELL = "none"
# No year, the first alone, up to where the shifts end and one past it, all but the last, all.
ENDS = (0, 1, 4, 5, 49, YEARS)
RANDOM_BOOKS_A_CHAIN = 3


class Case(NamedTuple):
    """A call, and its years as worked by hand; None where nobody worked them."""

    name: str
    setting: int
    chain: int
    book: bytes
    worked: int | str | None


class Entry(NamedTuple):
    """A case and its years."""

    case: Case
    years: int | str

    @property
    def name(self):
        return self.case.name

    def frame(self):
        """The call as it stands in the stream."""
        _, setting, chain, book, _ = self.case
        return setting.to_bytes(8, "little") + chain.to_bytes(8, "little") + book_frame(book)


def one_cell_book(first_class, count=1, lapses=None, chain=PG2_MEN):
    """Contracts of one class; nobody dies, and `lapses` maps a year to the lapse of its class."""
    cells = [Cell(0, (lapses or {}).get(k, 0), 7, 5) for k in range(CLASSES - first_class)]
    cells[0] = cells[0]._replace(count=count)
    return make_book(Values(portfolios={chain: Portfolio(first_class, tuple(cells))}))


def cases_by_lapse():
    """All leave in one year, so that nothing is in force in the next; or in none."""
    for chain, setting in ((PG2_MEN, 0), (PG2_WOMEN, 3)):
        for years in ENDS:
            lapses = {years - 1: 1_000_000} if years else None
            book = one_cell_book(40, min(years, 1), lapses, chain)
            yield Case(f"chain_{chain}_all_have_left_by_year_{years}", setting, chain, book, years)
    yield Case("nobody_leaves", 0, PG2_MEN, one_cell_book(40), YEARS)
    yield Case("a_later_cell_has_contracts", 0, PG2_MEN,
               make_book(Values(portfolios={PG2_MEN: Portfolio(119,
                                                               (Cell(0, 0, 7, 5),
                                                                Cell(9, 0, 7, 5)))})), 0)


def cases_by_age():
    """Who comes to class 120 stays there: for good, or until all leave it."""
    for first_class, years in ((120, 1), (117, 4), (116, 5), (72, 49), (71, 50), (0, 50)):
        all_leave = one_cell_book(first_class, 100_000, {OLDEST_CLASS - first_class: 1_000_000})
        yield Case(f"from_class_{first_class}_until_all_leave_class_120", 0, PG2_MEN, all_leave,
                   years)
        yield Case(f"from_class_{first_class}_for_good", 0, PG2_MEN,
                   one_cell_book(first_class, 100_000), YEARS)


def cases_of_remnants():
    """Less than one contract is still something in force: the last billionth counts."""
    tenths = one_cell_book(40, 1, {k: 900_000 for k in range(YEARS)})
    # One contract is 10^9 billionths: a tenth of it stays each year, one billionth in year 9.
    yield Case("a_tenth_stays_each_year", 0, PG2_MEN, tenths, 10)
    # 1,300 thousandths of 900,000 millionths is all of them; of 700 thousandths 37 in a hundred
    # stay.
    yield Case("lapse_up_takes_all", 3, PG2_MEN, tenths, 1)
    yield Case("lapse_down_takes_less", 4, PG2_MEN, tenths, None)
    last = {8: 0} | {k: 900_000 for k in range(8)}
    yield Case("ten_billionths_stay_for_good", 0, PG2_MEN, one_cell_book(40, 1, last), YEARS)
    yield Case("a_billionth_stays_for_good", 0, PG2_MEN, one_cell_book(40, 1, last | {8: 900_000}),
               YEARS)


def cases_by_death():
    """Certain death is weighted: in the base 13 men in 100 live on, in setting 1 none at first."""
    for setting in SETTINGS:
        yield Case(f"certain_death_in_setting_{setting}", setting, PG2_MEN,
                   in_force_book(1_000_000, 0), 1 if setting == 1 else None)
    for k, setting, years in ((4, 0, YEARS), (4, 1, 5), (5, 1, YEARS)):
        man = contract([(7, 5)] * 20)
        mortality = [[0] * CLASSES, [0] * CLASSES]
        mortality[0][man.first_class + k] = 1_000_000
        book = make_book(Values(mortality=mortality, portfolios={PG2_MEN: man}))
        yield Case(f"certain_death_in_year_{k}_in_setting_{setting}", setting, PG2_MEN, book, years)


def cases_without_a_cell():
    """No such setting, no such chain, an empty chain, a refused book."""
    book = one_cell_book(117)
    for setting in (8, 2**32, 2**64 - 1):
        yield Case(f"setting_{setting}", setting, PG2_MEN, book, NO_CELL)
    for chain in (14, 2**32 + PG2_MEN, 2**64 - 1):
        yield Case(f"chain_{chain}", 0, chain, book, NO_CELL)
    yield Case("empty_chain", 0, PG2_WOMEN, book, NO_CELL)
    yield Case("empty_book", 0, PG2_MEN, empty_book(), NO_CELL)
    for refusal in BOOK_REFUSALS:
        yield Case(f"refusal_{refusal}", 0, 0, spoiled((refusal,)), NO_CELL)


def random_cases():
    """Every chain in any setting, lapse from slight to heavy."""
    chooser = random.Random(203)
    for number in range(RANDOM_BOOKS_A_CHAIN * len(CHAINS)):
        chain, first_class = number % len(CHAINS), chooser.randint(70, OLDEST_CLASS)
        heavy = chooser.choice((0, 300_000, 700_000, 850_000))
        cells = [realistic_cell(chooser) for _ in range(first_class, CLASSES)]
        values = realistic_tables(chooser)
        values.portfolios[chain] = Portfolio(
            first_class, tuple(cell._replace(lapse=cell.lapse + heavy) for cell in cells))
        yield Case(f"random_{number}", chooser.choice(SETTINGS), chain, make_book(values), None)


def years_of(case):
    """The years of a case by the reference."""
    asked = case.setting in SETTINGS and case.chain < len(CHAINS)
    if not asked or check(case.book)[0] == "refused":
        return NO_CELL
    values = read_values(case.book)
    if case.chain not in values.portfolios:
        return NO_CELL
    return years_in_force(values, case.chain, case.setting)


def build():
    """All entries, and the bytes of the two files."""
    cases = (*cases_by_lapse(), *cases_by_age(), *cases_of_remnants(), *cases_by_death(),
             *cases_without_a_cell(), *random_cases())
    entries = [Entry(case, years_of(case)) for case in cases]
    stdin = b"".join(entry.frame() for entry in entries)
    return entries, stdin, stream_output(str(entry.years) for entry in entries)
