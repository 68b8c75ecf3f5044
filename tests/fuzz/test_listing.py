"""Compares the built program's listing of random inputs with the reference and the fractions."""

import hashlib
import sys
from collections import Counter

from reference.book import full_book, make_book, random_book, random_values, read_values
from reference.layout import (COST_RATES, CURVE, FIRST_RECORD_PLACE, LONGEST_BOOK, MORTALITY,
                              MOST_BYTES_TAKEN, changed)
from reference.valuation import cells_by_group, listing_of, totals
from tests.fixtures.damage import damaged
from tests.fixtures.insurers import dense_full_book
from tests.fixtures.trial_books import without_rates_below_zero
from tests.fuzz.verdicts import cover_verdicts
from tests.support.differential import Differential
from tests.support.distance import Shares, totals_share
from tests.support.program import ProgramFailed, run_program
from tests.support.report import run_unit_tests
from tests.vectors.check_cases_header import base_book
from tests.vectors.check_cases_order import spoiled

LEAST_DIFFERENT = 400
LEAST_TIMES = 1
LEAST_WITH_SEVERAL_GROUPS = 40
# Of accepted books with contracts, with a rate below zero and without.
LEAST_OF_A_CURVE = 40
# One line of progress for so many inputs.
INPUTS_A_LINE = 500


def small_book(chooser):
    """A few short chains."""
    least_class = chooser.choice((100, 112, 117))
    return random_book(chooser, least_class, chooser.choice((1, 3, 6)), chooser.choice((0, 2, 9)))


def damaged_book(chooser):
    """A small book with bytes, fields, links or its length damaged."""
    return damaged(small_book(chooser), chooser)


def spoiled_book(chooser):
    """Each refusal as likely as another, in a book with rates from their whole ranges."""
    rates = [(rate, chooser.randint(rate.low, rate.high))
             for rate in (*COST_RATES, *CURVE, *MORTALITY)]
    return spoiled((chooser.randint(1, 13),), changed(base_book(), *rates))


def mixed_book(chooser):
    """Chains of several groups, from any class."""
    return random_book(chooser, chooser.choice((50, 80, 100)), 14)


def extreme_book(chooser):
    """Every number at one end of its range."""
    return make_book(random_values(chooser, chooser.randint(1, 14), 60, extreme=True))


def large_book(chooser):
    """As many records as a book can have."""
    if chooser.random() < 0.5:
        return full_book(chooser, shuffle=True)
    return dense_full_book(chooser.randrange(2**32))


def short_input(chooser):
    """A book that breaks off before its first record."""
    return small_book(chooser)[:chooser.randrange(FIRST_RECORD_PLACE)]


def long_input(chooser):
    """A book that runs on, to the last byte that is taken or beyond it."""
    book = large_book(chooser) if chooser.random() < 0.5 else small_book(chooser)
    more = chooser.choice((1, 2, 3, 24, 25, 100_000))
    return book + chooser.randbytes(LONGEST_BOOK - len(book) + more)


# Of a hundred inputs so many are made in each way.
MIX = {damaged_book: 40, spoiled_book: 12, small_book: 10, mixed_book: 22, extreme_book: 6,
       large_book: 1, short_input: 4, long_input: 5}


def random_inputs(chooser, count):
    """So many inputs; every second that has a curve is rid of rates below zero."""
    for number, make in enumerate(chooser.choices(list(MIX), weights=MIX.values(), k=count)):
        book = make(chooser)
        has_curve = len(book) >= FIRST_RECORD_PLACE
        yield without_rates_below_zero(book) if number % 2 and has_curve else book


class RandomInputs(Differential):
    """Each listing to the byte, and each total's distance from its exact value."""

    number, seed, for_coverage, kept_as = 450, 41_877, 450, "listing"

    @classmethod
    def draw(cls, chooser):
        # Digests, since all inputs together may be long.
        cls.different, cls.longest = set(), 0
        # Accepted books by how many product groups have contracts.
        cls.groups, cls.shares, cls.with_contracts = Counter(), Shares(), Shares()
        for number, book in enumerate(random_inputs(chooser, cls.number)):
            if number % INPUTS_A_LINE == 0 and number != 0:
                print(f"{number} inputs, {cls.tally.differences.total()} differ", flush=True)
            cls.try_input(number, book)

    @classmethod
    def try_input(cls, number, book):
        """One run of the program: what it writes, and its exit code."""
        reply = totals(book[:MOST_BYTES_TAKEN])
        cls.different.add(hashlib.sha256(book).digest())
        cls.longest = max(cls.longest, len(book))
        cls.tally.seen[reply[0]] += 1
        due = (listing_of(reply), 0)
        try:
            found = run_program("listing_main", book)
        except ProgramFailed as trouble:
            found = str(trouble)
        cls.tally.compare("listing", found, due, f"is {found}, due is {due}", (number, book))
        if reply[0] == 0:
            cls.groups[sum(map(bool, cells_by_group(read_values(book))))] += 1
            cls.measure(number, book, reply)

    @classmethod
    def measure(cls, number, book, reply):
        """What share of its distance an accepted book uses."""
        _, _, n, by_setting, _ = reply
        share = totals_share(book, n, by_setting)
        if cls.shares.add(book, share, number):
            cls.tally.differs("listing", f"uses {float(100 * share):.2f} percent of the distance",
                              (number, book))
        if n != 0:
            cls.with_contracts.add(book, share, number)

    def test_agreement(self):
        self.check_agreement()
        self.shares.check(self, "books' totals")

    def test_coverage_of_verdicts(self):
        self.require_coverage()
        cover_verdicts(self, LEAST_TIMES)

    def test_coverage_of_inputs(self):
        self.require_coverage()
        inputs, accepted = self.tally.seen.total(), self.tally.seen[0]
        self.check(f"{len(self.different)} different inputs",
                   len(self.different) >= LEAST_DIFFERENT)
        self.check(f"{accepted} books of {inputs} accepted", 4 * accepted >= inputs)
        several = accepted - self.groups[0] - self.groups[1]
        self.check(f"{several} books with contracts in several groups",
                   several >= LEAST_WITH_SEVERAL_GROUPS)
        self.covers("contracts in any number of groups", range(6), self.groups)
        self.check("inputs longer than what is taken", self.longest > MOST_BYTES_TAKEN)
        self.with_contracts.check_times(self, "books with contracts", LEAST_OF_A_CURVE)


if __name__ == "__main__":
    sys.exit(run_unit_tests(sys.modules[__name__]))
