"""Compares the library's conversions of age basis 2 with the reference: by hand and at random."""

import ctypes
import random
import sys
from array import array
from collections import Counter

from reference.book import empty_book, full_book, random_book
from reference.age_basis import convert, linked_records
from reference.layout import LONGEST_BOOK, changed, record
from tests.api.age_basis_cases import CASES, pair_book
from tests.fixtures.age_basis_2 import on_basis_2
from tests.fixtures.damage import damaged
from tests.fixtures.insurers import MANY_PRODUCTS, insurer_book
from tests.support.differential import Differential
from tests.support.library import LibraryCase
from tests.support.report import run_unit_tests

LEAST_TIMES = 10
LEAST_CONVERSIONS = 500
BOOK_REFUSALS = (*range(1, 14), 21, 23)
# How much longer than the book a buffer is, and how many bytes behind it are watched.
LONGER = (-1, 0, 7)
WATCHED = 40


class Conversions(LibraryCase):
    """Conversions worked by hand, and the buffers that the Python module takes or rejects."""

    def test_by_hand(self):
        for rule, book, due in CASES:
            given = tuple(self.library.convert(book, bytearray(len(book))))
            second = convert(book, len(book))[:3]
            self.check(rule, given == due == second, (given, second))

    def test_a_buffer_one_byte_short_comes_first(self):
        for rule, book, _ in CASES:
            short = bytearray(b"\xa5" * (len(book) - 1))
            reply = self.library.convert(book, short)
            self.check(rule, reply == (16, 0, 0) and set(short) == {0xA5}, reply)

    def test_byte_1_and_the_linked_classes_change_and_nothing_else(self):
        book = pair_book(120, 121, (record(3).age_class, 7))
        out = bytearray(book)
        self.library.convert(book, out)
        changes = {place: byte for place, (byte, before) in enumerate(zip(out, book))
                   if byte != before}
        self.assertEqual(changes, {1: 1, 1_222: 119, 1_246: 120})

    def test_buffers(self):
        book = pair_book(120, 121)
        due = convert(book, len(book))[3]
        shared = bytearray(book)
        for words, out in (("a bytearray", bytearray(len(book))),
                           ("an array", array("B", bytes(len(book)))),
                           ("an array of ctypes", (ctypes.c_uint8 * len(book))()),
                           ("a view", memoryview(bytearray(len(book)))),
                           ("the book's own memory", shared)):
            passed = shared if out is shared else book
            reply = self.library.convert(passed, out)
            self.check(f"{words} is written", reply == (0, 0, 1) and bytes(out) == due, reply)

    def test_empty_buffers(self):
        reply = self.library.convert(pair_book(120, 121), bytearray())
        self.check("an empty buffer is too short", reply == (16, 0, 0), reply)
        reply = self.library.convert(b"", bytearray())
        self.check("an empty buffer takes no bytes", reply == (1, 0, 0), reply)

    def test_rejected_buffers(self):
        book = pair_book(120, 121)
        two_rows = memoryview(bytearray(2 * len(book))).cast("B", (2, len(book)))
        for words, out in (("bytes that cannot be written", bytes(len(book))),
                           ("an array of two bytes each", array("H", bytes(len(book)))),
                           ("a buffer of two rows", two_rows)):
            self.rejects(words, TypeError, self.library.convert, book, out)


def with_class_0(book, chooser):
    """The book with class 0 in one of its linked records."""
    linked = list(linked_records(book))
    return changed(book, (record(chooser.choice(linked)).age_class, 0)) if linked else book


class RandomBooks(LibraryCase, Differential):
    """Books made of the book of basis 1 that they must become; most of them then damaged."""

    number, seed, for_coverage, kept_as = 2_000, 121, 2_000, "convert"

    @classmethod
    def draw(cls, chooser):
        cls.behind_16 = Counter()
        for number in range(cls.number):
            least_class = chooser.choices((0, 60, 100, 117), weights=(1, 2, 5, 12))[0]
            older = random_book(chooser, least_class, chooser.choice((1, 4, 14)),
                                chooser.choice((0, 3)))
            newer = on_basis_2(older)
            kind = number % 5
            if kind == 0:
                cls.compare("random books", number, newer, chooser)
                out = bytearray(len(newer))
                cls.library.convert(newer, out)
                cls.tally.compare("random books", bytes(out), older,
                                  "does not become the book that it was made of", (number, newer))
            elif kind == 1:
                cls.compare("random books", number, with_class_0(newer, chooser), chooser)
            else:
                cls.compare("random books", number, damaged(newer, chooser), chooser)
        cls.draw_named()

    @classmethod
    def draw_named(cls):
        """Books that no random one comes near."""
        chooser = random.Random(cls.seed)
        full = full_book(chooser, shuffle=True)
        insurer = insurer_book(MANY_PRODUCTS, cls.seed)
        for name, book in (("full", on_basis_2(full)),
                           ("full-and-a-byte", on_basis_2(full) + b"\0"), ("full-on-basis-1", full),
                           ("insurer", on_basis_2(insurer)), ("empty", on_basis_2(empty_book())),
                           ("nothing", b""), ("zeros", bytes(1_220)),
                           ("twice-the-longest", bytes(2 * LONGEST_BOOK))):
            cls.compare(name, name, book, chooser)

    @classmethod
    def compare(cls, call, name, book, chooser):
        """Convert a book into buffers of every length; compare reply and memory."""
        refusal, _, _, converted = convert(book, len(book))
        for length in (len(book) + more for more in LONGER if len(book) + more >= 0):
            marks = chooser.randbytes(length + WATCHED)
            memory = bytearray(marks)
            given = tuple(cls.library.convert(book, memoryview(memory)[:length]))
            *due, _ = convert(book, length)
            written = converted if due[0] == 0 else b""
            cls.tally.compare(call, (given, bytes(memory)),
                              (tuple(due), written + marks[len(written):]),
                              f"with {length} bytes gives {given}, due is {tuple(due)}",
                              (name, book))
            if due[0] == 0:
                cls.tally.compare(call, tuple(cls.library.check(written)), (0, 0, due[2]),
                                  "is not accepted with the same n", (name, book))
            cls.tally.seen[due[0]] += 1
            cls.behind_16[refusal] += due[0] == 16

    def test_agreement(self):
        self.check_agreement()

    def test_coverage(self):
        self.require_coverage()
        self.check_rare("conversions", [0], LEAST_CONVERSIONS)
        self.check_rare("every refusal of the book is seen", BOOK_REFUSALS, LEAST_TIMES)
        rare = [each for each in BOOK_REFUSALS if self.behind_16[each] < LEAST_TIMES]
        self.check("every refusal of the book stands behind a 16", not rare, f"rare: {rare}")


if __name__ == "__main__":
    sys.exit(run_unit_tests(sys.modules[__name__]))
