"""Compares Check, Record, Group and Totals with the reference, some figures with fractions."""

import random
import sys
from array import array
from itertools import product
from typing import NamedTuple, Optional

from reference.book import empty_book, random_book
from reference.check import check, view
from reference.layout import PRODUCT_GROUPS, RECORD_COUNT, SETTINGS, record_start
from reference.valuation import group, totals
from tests.fixtures.damage import any_book
from tests.fixtures.insurers import (MANY_PRODUCTS, dense_full_book, highest_full_book,
                                     insurer_book)
from tests.fixtures.trial_books import without_rates_below_zero
from tests.support.differential import Differential, Tally
from tests.support.distance import Shares, liability_share
from tests.support.library import LibraryCase
from tests.support.report import run_unit_tests

LEAST_TIMES = 3
LEAST_TOTALS_WITH_CONTRACTS = 100
# Numbers out of range, and some that would be in range if they lost their high bits.
ODD_NUMBERS = (8, 0, 6, 2**32 + 1, 2**63, 2**64 - 1)
FAR_RECORDS = (2**16 + 1, 2**32 + 1, 2**61 + 1, 2**64 - 1)
ODD_TABLES = (0, 199, 200, 201, 300)
LONG_TABLES = (200, 201, 300)
# Longer than any table passed, so that a number written past its end shows.
TABLE_LENGTH = 320
# How a book can be passed.
BOOK_FORMS = (bytes, bytearray, memoryview)
# One book in so many, for what takes the reference long; both are even, as the numbers of valid
# books are.
BOOKS_FOR_TOTALS = 8
BOOKS_FOR_ALL_GROUPS = 60
# One liability in so many is compared with its exact value, and at least so many of each curve.
LIABILITIES_FOR_FRACTIONS = 4
LEAST_OF_A_CURVE = 100


class Call(NamedTuple):
    """A call on one book: its name, what else was asked, the reply due, and the library's.

    A call of Group has its setting and product group as a pair too.
    """

    name: str
    asked: str
    due: tuple
    given: tuple
    pair: Optional[tuple] = None

    def words(self):
        """What differs."""
        if self.name != "group":
            return f"{self.asked} gives {self.given}, due is {self.due}"
        numbers = [at for at, (one, other) in enumerate(zip(self.due[4], self.given[4]))
                   if one != other]
        return (f"{self.asked} gives {self.given[:4]}, due is {self.due[:4]};"
                f" in the table differ {numbers[:8]}")


class CallTally(Tally):
    """Counts refusals by call, and figures of groups and totals that have contracts."""

    def __init__(self, test, seed):
        super().__init__(test, seed)
        self.liabilities = 0
        self.shares = Shares()

    def add(self, name, book, call):
        """One call."""
        self.seen[call.name, call.due[0]] += 1
        self.compare(call.name, call.given, call.due, call.words(), (name, book))
        # No refusal has an n.
        if call.name == "group" and call.due[3] != 0:
            self.seen[call.pair] += 1
            self.liabilities += 1
            if self.liabilities % LIABILITIES_FOR_FRACTIONS == 0:
                _, _, liability, n, _ = call.given
                self.shares.add(book, liability_share(book, *call.pair, liability, n), name)
        if call.name == "totals" and call.due[2] != 0:
            self.seen["totals with contracts"] += 1


class RandomBooks(LibraryCase, Differential):
    """Valid and mostly damaged books in turn, and books that no random one comes near."""

    number, seed, for_coverage, kept_as = 2_000, 1_694, 2_000, "calls"
    make_tally = CallTally

    @classmethod
    def draw(cls, chooser):
        for number in range(cls.number):
            book = any_book(chooser) if number % 2 else valid_book(chooser)
            for call in cls.calls_on(book, number, chooser):
                cls.tally.add(number, book, call)
        for name, book, call in cls.named_calls(random.Random(cls.seed)):
            cls.tally.add(name, book, call)

    @classmethod
    def check_calls(cls, book):
        """Check, however the book is passed."""
        verdict = check(book)
        due = (0, 0, verdict[1]) if verdict[0] == "accepted" else (*verdict[1:], 0)
        for form in BOOK_FORMS:
            yield Call("check", f"of {form.__name__}", due, tuple(cls.library.check(form(book))))

    @classmethod
    def record_call(cls, book, number):
        """The view of one record."""
        refusal, place, part = view(book, number)
        start = 0 if refusal else record_start(number)
        return Call("record", str(number), (refusal, place, start, len(part)),
                    tuple(cls.library.record(book, number)))

    @classmethod
    def totals_call(cls, book):
        """Totals."""
        refusal, place, n, by_setting, differences = totals(book)
        due = (refusal, place, n, tuple(by_setting), tuple(differences))
        return Call("totals", "of the book", due, tuple(cls.library.totals(book)))

    @classmethod
    def group_call(cls, book, pair, length, chooser):
        """Group, with every number of a marked table, also those that are not passed."""
        marks = [chooser.getrandbits(64) for _ in range(TABLE_LENGTH)]
        table = array("Q", marks)
        reply = cls.library.group(book, *pair, memoryview(table)[:length])
        *due, numbers = group(book, *pair, length)
        if numbers is not None:
            marks[:len(numbers)] = numbers
        asked = f"{pair[1]} in setting {pair[0]} with {length} numbers"
        return Call("group", asked, (*due, marks), (*reply, table.tolist()), pair)

    @classmethod
    def random_group_call(cls, book, chooser):
        """Group as it is mostly called, and now and then with an odd setting, group or table."""
        setting = chooser.choice(SETTINGS if chooser.random() < 0.9 else ODD_NUMBERS)
        product_group = chooser.choice(PRODUCT_GROUPS if chooser.random() < 0.9 else ODD_NUMBERS)
        length = chooser.choice(LONG_TABLES if chooser.random() < 0.8 else ODD_TABLES)
        return cls.group_call(book, (setting, product_group), length, chooser)

    @classmethod
    def calls_on(cls, book, number, chooser):
        """All that is called on a random book."""
        yield from cls.check_calls(book)
        for each in random_record_numbers(book, chooser):
            yield cls.record_call(book, each)
        for _ in range(2):
            yield cls.random_group_call(book, chooser)
        if number % BOOKS_FOR_TOTALS == 0 or check(book)[0] == "refused":
            yield cls.totals_call(book)
        if number % BOOKS_FOR_ALL_GROUPS == 0:
            for pair in product(SETTINGS, PRODUCT_GROUPS):
                yield cls.group_call(book, pair, chooser.choice(LONG_TABLES), chooser)

    @classmethod
    def named_calls(cls, chooser):
        """(name, book, call) for large books, and for odd numbers on small ones."""
        for name, book in (("insurer", insurer_book(MANY_PRODUCTS, cls.seed)),
                           ("dense", dense_full_book(cls.seed)), ("highest", highest_full_book())):
            yield name, book, cls.totals_call(book)
            yield name, book, cls.group_call(book, (chooser.choice(SETTINGS), 1), 300, chooser)
        for name, book in (("empty", empty_book()), ("zeros", bytes(1_220)), ("nothing", b"")):
            yield name, book, cls.totals_call(book)
            yield name, book, cls.record_call(book, 1)
            for call in cls.check_calls(book):
                yield name, book, call
            for *pair, length in product((0, 7, *ODD_NUMBERS), (1, 5, *ODD_NUMBERS), ODD_TABLES):
                yield name, book, cls.group_call(book, tuple(pair), length, chooser)

    def test_agreement(self):
        self.check_agreement()
        self.tally.shares.check(self, "liabilities")

    def test_coverage(self):
        self.require_coverage()
        for name, last in (("check", 13), ("record", 13), ("group", 16), ("totals", 13)):
            self.check_rare(f"every refusal of {name} is seen",
                            [(name, number) for number in (*range(last + 1), 23)], LEAST_TIMES)
        self.check_rare("every setting with every group, with contracts",
                        product(SETTINGS, PRODUCT_GROUPS), 1)
        self.check_seen({"totals with contracts": LEAST_TOTALS_WITH_CONTRACTS})
        self.tally.shares.check_times(self, "liabilities", LEAST_OF_A_CURVE)


def valid_book(chooser):
    """A book that has now and then long chains, or no rate below zero."""
    least_class = chooser.choices((0, 60, 100, 117), weights=(1, 2, 5, 12))[0]
    book = random_book(chooser, least_class, chooser.choice((1, 4, 14)))
    return without_rates_below_zero(book) if chooser.random() < 0.5 else book


def random_record_numbers(book, chooser):
    """Some of the book's record numbers, both ends, and numbers that it does not have."""
    count = RECORD_COUNT.read(book)
    return {0, 1, count, count + 1, chooser.randint(0, count), chooser.choice(FAR_RECORDS)}


if __name__ == "__main__":
    sys.exit(run_unit_tests(sys.modules[__name__]))
