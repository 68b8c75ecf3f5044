"""Compares the library's replies on pairs of funds with the reference: by hand and at random."""

import ctypes
import random
import sys
from array import array
from typing import NamedTuple

from reference.book import full_book, random_book
from reference.funds import funds, joined_book
from reference.layout import LONGEST_BOOK
from tests.api.funds_cases import (BOTH, CASES, DEADLY_TABLE, DEADLY_TOTALS, LONGEST_FUND, MEN,
                                   MEN_TOTALS, MORE, TABLE, WOMEN, WOMEN_TOTALS, after_of, fund_of,
                                   marks, table_of)
from tests.fixtures.damage import damaged
from tests.fixtures.trial_books import without_rates_below_zero
from tests.support.differential import Differential, Tally, keep_book
from tests.support.distance import Shares, totals_share
from tests.support.library import LibraryCase
from tests.support.report import run_unit_tests

LEAST_TIMES = 3
LEAST_BOTH_ACCEPTED = 100
# One fund with contracts in so many is compared with its exact values; so many of each curve.
FUNDS_FOR_FRACTIONS = 8
LEAST_OF_A_CURVE = 20
# What one fund can be refused for while the other is valued; 7 and 8 are the table file's, and
# refuse both.
OWN_REFUSALS = (1, 2, 3, 4, 5, 6, 9, 10, 11, 12, 13, 23)
COMMON_REFUSALS = (7, 8, 16, 24)
# How many numbers are passed, and how many behind them are watched.
ENOUGH = (16, 17, 40)
TOO_FEW = (0, 1, 8, 15)
WATCHED = 5
SHORT_FILES = (0, 1, 55, 56, 57)
HALVES = (slice(0, 8), slice(8, 16))


class Pair(NamedTuple):
    """What one call is passed; the numbers as a count."""

    table: bytes
    funds: tuple
    numbers: int


class WorkedByHand(LibraryCase):
    """Pairs worked by hand, and what the Python module takes or rejects."""

    def test_by_hand(self):
        for case in CASES:
            numbers = marks(16 + MORE)
            due = (case.due, after_of(case, numbers))
            second = funds(case.table, case.first, case.second, numbers)
            given = self.library.funds(case.table, case.first, case.second, numbers)
            self.check(case.rule, (given, list(numbers)) == due == second, (given, second))

    def test_15_numbers_come_first(self):
        for case in CASES:
            short = marks(15)
            given = self.library.funds(case.table, case.first, case.second, short)
            self.check(case.rule, given == ((16, 0, 0),) * 2 and short == marks(15), given)

    def test_mortality_is_that_of_both_funds(self):
        numbers = marks(16)
        given = self.library.funds(DEADLY_TABLE, WOMEN, WOMEN, numbers)
        self.assertEqual((given, list(numbers)), (BOTH, 2 * DEADLY_TOTALS))

    def test_accepted_arguments(self):
        due = MEN_TOTALS + WOMEN_TOTALS
        for words, numbers in (("an array", marks(16)),
                               ("an array of ctypes", (ctypes.c_int64 * 16)()),
                               ("a view of a bytearray", memoryview(bytearray(128)).cast("l"))):
            given = self.library.funds(TABLE, MEN, WOMEN, numbers)
            self.check(f"{words} takes the totals", given == BOTH and list(numbers) == due, given)
        forms = self.library.funds(bytearray(TABLE), memoryview(MEN), bytearray(WOMEN), marks(16))
        self.check("files of every form are taken", forms == BOTH, forms)
        empty = self.library.funds(TABLE, MEN, WOMEN, array("q"))
        self.check("an empty array has no numbers", empty == ((16, 0, 0),) * 2, empty)

    def test_rejected_arguments(self):
        misaligned = memoryview(bytearray(136))[1:129].cast("q")
        for words, error, numbers in (
                ("unsigned numbers", TypeError, array("Q", bytes(128))),
                ("numbers of 32 bits", TypeError, array("i", bytes(64))),
                ("two rows", TypeError, memoryview(bytearray(128)).cast("q", (2, 8))),
                ("numbers that cannot be written", TypeError, memoryview(bytes(128)).cast("q")),
                ("numbers that start at no multiple of 8 bytes", ValueError, misaligned)):
            self.rejects(words, error, self.library.funds, TABLE, MEN, WOMEN, numbers)

    def test_longest_fund_file_on_either_side(self):
        """By Totals of the joined book."""
        chooser = random.Random(RandomPairs.seed)
        full, small = full_book(chooser), small_book(chooser)
        table, by_setting = table_of(full), self.library.totals(full)
        for side in (0, 1):
            files = [fund_of(small), fund_of(small)]
            files[side] = fund_of(full)
            verdicts, numbers = call(self.library, Pair(table, tuple(files), 16))
            self.check(f"the longest fund file is valued as number {side + 1}",
                       verdicts[side] == (0, 0, by_setting.n)
                       and tuple(numbers[HALVES[side]]) == by_setting.totals, verdicts)


def small_book(chooser):
    """A random valid book, mostly of a few records."""
    return random_book(chooser, chooser.choice((100, 117, 118, 119)), chooser.choice((1, 3, 6)),
                       chooser.choice((0, 2)))


def long_file(chooser):
    """A file longer than a book's, or as long as the longest; its header may be damaged."""
    book = small_book(chooser)
    fund = fund_of(damaged(book, chooser) if chooser.random() < 0.7 else book)
    length = chooser.choice((LONGEST_FUND, LONGEST_FUND + 1, LONGEST_BOOK, 2 * LONGEST_BOOK))
    return fund.ljust(length, b"\7")


def random_fund(chooser):
    """A fund file: sound, damaged, short, or too long."""
    kind = chooser.choices(("sound", "damaged", "short", "long"), weights=(9, 9, 1, 1))[0]
    if kind == "long":
        return long_file(chooser)
    book = small_book(chooser)
    if kind == "damaged":
        return fund_of(damaged(book, chooser))
    return fund_of(book)[:chooser.choice(SHORT_FILES)] if kind == "short" else fund_of(book)


def random_table(chooser):
    """A table file: sound, with a damaged rate, or of another length."""
    book = small_book(chooser)
    table = table_of(without_rates_below_zero(book) if chooser.random() < 0.5 else book)
    kind = chooser.choices(("sound", "rate", "length"), weights=(16, 2, 1))[0]
    if kind == "length":
        return (table + b"\0" * 2_000)[:chooser.choice((0, 1_163, 1_165, 1_220, 3_000))]
    if kind == "rate":
        at = 4 * chooser.randrange(len(table) // 4)
        rate = chooser.choice((b"\xff\xff\xff\x7f", b"\x41\x42\x0f\0"))
        return table[:at] + rate + table[at + 4:]
    return table


def random_pair(chooser):
    """What a call is passed."""
    numbers = chooser.choice(ENOUGH if chooser.random() < 0.95 else TOO_FEW)
    return Pair(random_table(chooser), (random_fund(chooser), random_fund(chooser)), numbers)


def call(library, pair):
    """Both verdicts, and all numbers of a marked array, also those that are not passed."""
    numbers = marks(pair.numbers + WATCHED)
    verdicts = library.funds(pair.table, *pair.funds, memoryview(numbers)[:pair.numbers])
    return tuple(map(tuple, verdicts)), list(numbers)


def due_of(pair):
    """The same by the reference."""
    before = marks(pair.numbers + WATCHED)
    verdicts, after = funds(pair.table, *pair.funds, array("q", before[:pair.numbers]))
    return verdicts, after + list(before[pair.numbers:])


class PairTally(Tally):
    """Counts refusals by the fund's side too, and keeps all three files of a difference."""

    def __init__(self, test, seed):
        super().__init__(test, seed)
        self.with_contracts = 0
        self.shares = Shares()

    def keep(self, number, pair):
        files = zip(("table", "first", "second"), (pair.table, *pair.funds))
        return [keep_book(file, f"{self.test}-{part}", self.seed, number) for part, file in files]

    def count(self, first, second):
        """The refusals of a pair: those of both, and of either beside one that is accepted."""
        self.seen["both", first, second] += 1
        self.seen["first", first] += second == 0
        self.seen["second", second] += first == 0

    def measure(self, name, pair, verdicts, numbers):
        """What share of its distance a fund's total uses at most."""
        for (_, _, n), fund, half in zip(verdicts, pair.funds, HALVES, strict=True):
            self.with_contracts += n != 0
            if n != 0 and self.with_contracts % FUNDS_FOR_FRACTIONS == 0:
                book = joined_book(pair.table, fund)
                self.shares.add(book, totals_share(book, n, numbers[half]), name)


class RandomPairs(LibraryCase, Differential):
    """Random pairs, and for each that neither fund bears on the other."""

    number, seed, for_coverage, kept_as = 1_000, 1_164, 1_000, "funds"
    make_tally = PairTally

    @classmethod
    def draw(cls, chooser):
        for number in range(cls.number):
            pair = random_pair(chooser)
            given, due = call(cls.library, pair), due_of(pair)
            cls.tally.compare("funds", given, due,
                              f"with {pair.numbers} numbers gives {given[0]}, due is {due[0]}",
                              (number, pair))
            cls.tally.count(*(verdict[0] for verdict in due[0]))
            cls.tally.measure(number, pair, *given)
            cls.change_one(number, pair, given, chooser)

    @classmethod
    def change_one(cls, number, pair, given, chooser):
        """One fund's file changed, its length too: the other's verdict and half are alike."""
        for side, kept in ((0, 1), (1, 0)):
            files = list(pair.funds)
            files[side] = random_fund(chooser)
            verdicts, numbers = call(cls.library, pair._replace(funds=tuple(files)))
            cls.tally.compare("funds", (verdicts[kept], numbers[HALVES[kept]]),
                              (given[0][kept], given[1][HALVES[kept]]),
                              f"a change of fund {side + 1} shows in the other", (number, pair))

    def test_agreement(self):
        self.check_agreement()
        self.tally.shares.check(self, "totals of funds")

    def test_coverage(self):
        self.require_coverage()
        self.check_rare("pairs with both funds accepted", [("both", 0, 0)], LEAST_BOTH_ACCEPTED)
        for side in ("first", "second"):
            self.check_rare(f"every refusal of the {side} fund beside an accepted one",
                            [(side, number) for number in OWN_REFUSALS], LEAST_TIMES)
        self.check_rare("every refusal of both funds",
                        [("both", number, number) for number in COMMON_REFUSALS], LEAST_TIMES)
        self.tally.shares.check_times(self, "totals of funds", LEAST_OF_A_CURVE)


if __name__ == "__main__":
    sys.exit(run_unit_tests(sys.modules[__name__]))
