"""Compares Write and Read with the reference: values and lists written, and read back."""

import random
import sys
from array import array
from itertools import combinations

from reference.book import full_book, one_record_book, random_book
from reference.layout import CHAINS, CLASSES, LONGEST_BOOK, MOST_RECORDS, changed, record
from reference.write_read import KINDS, NO_CLASS, in_order, list_sizes, read, write
from tests.api.write_read_inputs import (WAYS_TO_22, WAYS_TO_4, Input, break_rule, input_of,
                                         random_input, refused_books)
from tests.fixtures.damage import any_book
from tests.support.differential import Differential
from tests.support.library import LibraryCase
from tests.support.report import run_unit_tests

LEAST_TIMES = 3
# The order in which the rules of writing are tested.
WRITE_ORDER = (11, 22, 2, 4, 23, 6, 7, 8, 12)
PAIRS = list(combinations(WRITE_ORDER, 2))
CHAIN_SIZES = ("none", "one", "some", "all classes")
# The refusals of a book that Read can meet, and the buffers that are too short beside each.
BOOK_REFUSALS = (*range(1, 14), 23)
SHORT = (*KINDS, "all four")
# One input in so many has its book broken in every way and read into short buffers.
INPUTS_PER_REFUSED = 100
# How far past the buffers the tests watch.
BEYOND = 40
# What a refusal has in place of values.
NO_VALUES = (0, (0, 0), 0, (0,) * 5, (0,) * 49, (0,) * 242, (0,) * 14)
# What the random inputs must show.
DUE = {
    "every refusal of write is seen": [("write", number) for number in (0, *WRITE_ORDER)],
    "every two refusals of write are seen in their order":
        [("order", numbers) for numbers in PAIRS],
    "4 and 22 of write are seen for each reason":
        [("way", way) for way in (*WAYS_TO_4, *WAYS_TO_22)],
    "both editions are written and read":
        [(call, edition) for call in ("edition written", "edition read") for edition in (1, 2)],
    "chains of every size are written": [("chain", size) for size in CHAIN_SIZES],
    "every refusal of read is seen": [("read", number) for number in (0, *BOOK_REFUSALS, 22)],
    "22 of read is seen for each buffer": [("short", kind) for kind in KINDS],
    "every refusal of a book is seen before 22, for each buffer that is too short":
        [("short beside", number, short) for number in BOOK_REFUSALS for short in SHORT],
    "books in order and out of it are read": [("read", "in order"), ("read", "out of order")],
}


def size_name(size):
    """What the coverage counts of a chain with so many records."""
    return {0: "none", 1: "one", CLASSES: "all classes"}.get(size, "some")


class WorkedByHand(LibraryCase):
    """Ten contracts of PG2 men at class 120, and what the module takes for no input at all."""

    def values(self, **changes):
        """The values of the paper's book, changed."""
        first_classes = [NO_CLASS] * len(CHAINS)
        first_classes[6] = 120
        values = self.library.Values(1, (0, 0), 2021, (0, 100_000, 0, 0, 0), (0,) * 49, (0,) * 242,
                                     tuple(first_classes))
        return values._replace(**changes)

    def written(self, **changes):
        """The reply, and the bytes of a buffer for the longest book."""
        out = bytearray(LONGEST_BOOK)
        lists = (array("Q", [number]) for number in (10, 0, 100_000, 80_000))
        return self.library.write(self.values(**changes), *lists, out), bytes(out)

    def test_the_papers_book_is_written(self):
        reply, out = self.written()
        self.assertEqual((tuple(reply), out[:1_244]), ((0, 0, 1_244), one_record_book()))

    def test_edition_2_stands_in_byte_0_and_its_percentages_in_bytes_6_and_7(self):
        _, out = self.written(edition=2, percentages=(100, 1))
        self.assertEqual((out[0], out[6], out[7]), (2, 100, 1))

    def test_refusals_of_read(self):
        """The paper's book with another count, and its own, into buffers for no number."""
        for words, count, due in (("12 of a book comes before 22", 100_001, (12, 1_228)),
                                  ("22 comes next", 10, (22, 0))):
            book = changed(one_record_book(), (record(1).amounts[0], count))
            reply = self.library.read(book, *(array("Q") for _ in KINDS))
            self.check(words, (reply.refusal, reply.place) == due, reply[:2])

    def test_rates_below_zero(self):
        _, out = self.written(curve=(-1, -10_000) + (0,) * 47)
        self.assertEqual(list(out[56:64]), [255, 255, 255, 255, 240, 216, 255, 255])

    def test_rejected_values(self):
        values = self.values(first_classes=(NO_CLASS,) * 14)
        rows, out = [array("Q", [0] * 4) for _ in KINDS], bytearray(1_220)
        for words, changes in (
                ("a year above 64 bits", {"year": 2**64}),
                ("a rate below 64 bits", {"curve": (-2**63 - 1,) + (0,) * 48}),
                ("a cost rate below 0", {"cost_rates": (-1,) + (0,) * 4}),
                ("an edition above 64 bits", {"edition": 2**64}),
                ("a percentage below 0", {"percentages": (-1, 0)}),
                ("one percentage alone", {"percentages": (87,)}),
                ("a mortality too few", {"mortality": (0,) * 241})):
            self.rejects(words, ValueError, self.library.write, values._replace(**changes), *rows,
                         out)

    def test_rejected_lists(self):
        values, out = self.values(first_classes=(NO_CLASS,) * 14), bytearray(1_220)
        rows = [array("Q", [0] * 4) for _ in KINDS]
        write_call, shared = self.library.write, bytearray(1_280)
        self.rejects("signed numbers", TypeError, write_call, values, array("q", [0]), *rows[1:],
                     out)
        self.rejects("bytes that cannot be written", TypeError, write_call, values, *rows,
                     bytes(1_220))
        self.rejects("one row passed twice to be filled", ValueError, self.library.read,
                     one_record_book(), rows[0], rows[0], rows[2], rows[3])
        self.rejects("a list in the buffer for the book", ValueError, write_call, values,
                     memoryview(shared)[:64].cast("Q"), *rows[1:], shared)

    def test_one_row_may_be_passed_twice_to_be_read(self):
        values = self.values(first_classes=(NO_CLASS,) * 14)
        reply = self.library.write(values, *[array("Q")] * 4, bytearray(1_220))
        self.assertEqual(tuple(reply), (0, 0, 1_220))


class RandomInputs(LibraryCase, Differential):
    """Inputs that keep every rule, break one, break two; and books."""

    number, seed, for_coverage, kept_as = 800, 205, 800, "write_read"

    @classmethod
    def draw(cls, chooser):
        for number in range(cls.number):
            case = f"input {number}"
            cls.round_trip(random_input(cls.library, chooser), case, chooser)
            cls.broken((chooser.choice(WRITE_ORDER),), case, chooser, first=True)
            cls.broken(PAIRS[number % len(PAIRS)], case, chooser)
            cls.try_book(random_book(chooser, 112, 4, chooser.choice((0, 2))) if number % 3
                         else any_book(chooser), f"book-{number}", chooser)
            if number % INPUTS_PER_REFUSED == 0:
                cls.refused(random_input(cls.library, chooser), case, chooser)
        cls.draw_named(random.Random(cls.seed))

    @classmethod
    def draw_named(cls, chooser):
        """Inputs and books that no random one comes near."""
        for name, first_class in (("empty", NO_CLASS), ("full", 0), ("oldest", NO_CLASS - 1)):
            given = input_of(cls.library, [first_class] * len(CHAINS), chooser)
            cls.round_trip(given, name, chooser)
        for name, book in (("one record", one_record_book()), ("full book", full_book(chooser)),
                           ("no bytes", b""), ("shuffled", full_book(chooser, shuffle=True)),
                           ("zeros", bytes(1_220))):
            cls.try_book(book, name, chooser)

    @classmethod
    def compare(cls, call, case, given, due, kept=()):
        """One call: what it gave, and what is due."""
        cls.tally.compare(call, given, due,
                          f"of {case} gives {str(given)[:300]}, due is {str(due)[:300]}", kept)

    @classmethod
    def write(cls, given, case, chooser):
        """Write, with bytes past the buffer; the book, or None where refused."""
        refusal, book = write(given.values, given.lists, given.length)
        marks = chooser.randbytes(given.length + BEYOND)
        out, lists = bytearray(marks), [array("Q", numbers) for numbers in given.lists]
        reply = cls.library.write(given.values, *lists, memoryview(out)[:given.length])
        cls.compare("write", case,
                    (tuple(reply), bytes(out), [numbers.tolist() for numbers in lists]),
                    ((refusal, 0, len(book)), book + marks[len(book):], given.lists))
        cls.tally.seen["write", refusal] += 1
        return None if refusal else book

    @classmethod
    def read(cls, book, lengths, case, chooser):
        """Read, with numbers past the buffers; values and lists, or None where refused."""
        refusal, place, values, lists = read(book, lengths)
        marks = [[chooser.getrandbits(64) for _ in range(length + BEYOND)] for length in lengths]
        buffers = [array("Q", numbers) for numbers in marks]
        reply = cls.library.read(book, *(memoryview(numbers)[:length]
                                         for numbers, length in zip(buffers, lengths)))
        due = marks if refusal else [found + kept[len(found):]
                                     for found, kept in zip(lists, marks)]
        cls.compare("read", case, (reply.refusal, reply.place, tuple(reply.values),
                                   [row.tolist() for row in buffers]),
                    (refusal, place, NO_VALUES if refusal else values, due))
        cls.tally.seen["read", refusal] += 1
        return None if refusal else (reply.values, lists)

    @classmethod
    def round_trip(cls, given, case, chooser):
        """Write, check with n the counts that are not 0, and read back what went in."""
        book = cls.write(given, case, chooser)
        cls.tally.seen["edition written", given.values.edition] += 1
        for size in list_sizes(given.values.first_classes):
            cls.tally.seen["chain", size_name(size)] += 1
        n = sum(count != 0 for count in given.lists[0])
        cls.compare("check of what was written", case, tuple(cls.library.check(book)), (0, 0, n))
        lengths = [len(given.lists[0]) + chooser.choice((0, 1, 5)) for _ in KINDS]
        cls.compare("reading of what was written", case, cls.read(book, lengths, case, chooser),
                    (given.values, given.lists))

    @classmethod
    def broken(cls, numbers, case, chooser, first=False):
        """Break these rules, the later in the order first, and write: the first is given."""
        given = random_input(cls.library, chooser)
        ways = [break_rule(given, number, chooser) for number in reversed(numbers)]
        cls.write(given, case, chooser)
        cls.tally.seen[("way", ways[0]) if first else ("order", numbers)] += 1

    @classmethod
    def try_book(cls, book, case, chooser):
        """Read any bytes, at times into a short buffer, and write a book in order again."""
        lengths, seen = [MOST_RECORDS] * len(KINDS), cls.tally.seen
        taken = cls.read(book, lengths, case, chooser)
        if taken is None:
            # The book's own refusal is given, and not 22.
            cls.read(book, [0] * len(KINDS), case, chooser)
            return
        values, lists = taken
        seen["read", "in order" if in_order(book) else "out of order"] += 1
        seen["edition read", values.edition] += 1
        if lists[0]:
            short = chooser.randrange(len(KINDS))
            lengths[short] = chooser.choice((0, len(lists[0]) - 1))
            cls.read(book, lengths, case, chooser)
            seen["short", KINDS[short]] += 1
        if in_order(book):
            again = cls.write(Input(values, lists, len(book)), case, chooser)
            cls.compare("writing of what was read", case, again, book, (case, book))

    @classmethod
    def refused(cls, given, case, chooser):
        """Break an input's book in each way, and read it where one buffer, or each, is short."""
        too_short = (0, len(given.lists[0]) - 1)
        whole = write(given.values, given.lists, given.length)[1]
        for number, book in refused_books(whole).items():
            for short in SHORT:
                lengths = [chooser.choice(too_short) if short in (kind, "all four")
                           else MOST_RECORDS for kind in KINDS]
                words = f"{case}, refused with {number}, short: {short}"
                cls.read(book, lengths, words, chooser)
                cls.tally.seen["short beside", read(book, lengths)[0], short] += 1

    def test_agreement(self):
        self.check_agreement()

    def test_coverage(self):
        self.require_coverage()
        for words, kinds in DUE.items():
            self.check_rare(words, kinds, LEAST_TIMES)


if __name__ == "__main__":
    sys.exit(run_unit_tests(sys.modules[__name__]))
