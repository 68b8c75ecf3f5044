"""Compares the call Listing with the reference, byte for byte, on random books and buffers."""

import sys

from reference.book import empty_book, one_record_book, random_book
from reference.layout import COST_RATES, changed
from reference.valuation import listing_of, totals
from tests import ROOT
from tests.api.buffers import Buffer, TextTally, call_with_marks, due_with_marks
from tests.fixtures.damage import any_book
from tests.fixtures.insurers import MANY_PRODUCTS, highest_full_book, insurer_book
from tests.fixtures.trial_books import PAPER_LISTING
from tests.support.differential import Differential
from tests.support.library import LibraryCase
from tests.support.report import run_unit_tests

LEAST_TIMES = 3
LEAST_ACCEPTED = 100
# No listing is longer.
MOST_BYTES = 512
# Longer than any buffer, so that a byte written past its end shows.
MEMORY_BYTES = MOST_BYTES + 64
BOOK_REFUSALS = (*range(1, 14), 23)
SAMPLES = sorted((ROOT / "samples").glob("*.book"))


def buffers(length):
    """Buffers around the listing's length; where there is no listing, around the longest one."""
    length = length or MOST_BYTES
    return [Buffer("none", 0), Buffer("one byte", 1), Buffer("one byte short", length - 1),
            Buffer("exact", length), Buffer("one byte more", length + 1),
            Buffer("longest", MOST_BYTES)]


class WorkedByHand(LibraryCase):
    """Replies and buffers worked by hand, and what the module takes as a buffer."""

    def test_by_hand(self):
        book, length = one_record_book(), len(PAPER_LISTING)
        for words, book, size, due, left in (
                ("the listing of one record", book, length, (0, 0, length), PAPER_LISTING),
                ("a byte past the listing stays", book, length + 1, (0, 0, length),
                 PAPER_LISTING + b"\7"),
                ("a buffer one byte short is 20, and stays", book, length - 1, (20, 0, 0), None),
                ("no buffer at all is 20", book, 0, (20, 0, 0), None),
                ("1,220 zero bytes are refused with 2 at 0", bytes(1_220), MOST_BYTES, (2, 0, 0),
                 None),
                ("1,219 bytes are refused with 1 at 1,219", bytes(1_219), MOST_BYTES,
                 (1, 1_219, 0), None),
                ("the refusal of a book comes before 20", bytes(1_219), 0, (1, 1_219, 0), None)):
            marks = bytes([7] * size)
            memory = bytearray(marks)
            given = (self.library.listing(book, memory), bytes(memory))
            self.check(words, given == (due, marks if left is None else left), given)

    def test_rejected_buffers(self):
        numbers = memoryview(bytearray(8 * MOST_BYTES)).cast("Q")
        for words, out in (("bytes", bytes(MOST_BYTES)), ("numbers", numbers)):
            self.rejects(words, TypeError, self.library.listing, one_record_book(), out)

    def test_a_buffer_in_the_books_own_memory_does_no_harm(self):
        shared = bytearray(one_record_book())
        reply = self.library.listing(shared, shared)
        self.assertEqual((reply.refusal, bytes(shared[:reply.length])), (0, PAPER_LISTING))


class RandomBooks(LibraryCase, Differential):
    """Damaged books, one valid one in four, and books that no random one comes near."""

    number, seed, for_coverage, kept_as = 600, 512, 600, "listing-call"
    make_tally = TextTally

    @classmethod
    def draw(cls, chooser):
        for number in range(cls.number):
            valid = number % 4 == 0
            cls.try_book(number, random_book(chooser, chooser.choice((112, 117)),
                                             chooser.choice((1, 4))) if valid
                         else any_book(chooser), chooser)
        for name, book in (
                ("insurer", insurer_book(MANY_PRODUCTS, cls.seed)),
                ("highest", highest_full_book()), ("empty", empty_book()),
                ("one_record", one_record_book()), ("zeros", bytes(1_220)),
                ("damaged", changed(one_record_book(), (COST_RATES[4], 1_000_001))),
                ("nothing", b""), *((path.stem, path.read_bytes()) for path in SAMPLES)):
            cls.try_book(name, book, chooser)

    @classmethod
    def try_book(cls, name, book, chooser):
        """The call with every buffer."""
        reply = totals(book)
        refusal, place = reply[:2]
        text = b"" if refusal else listing_of(reply)
        for buffer in buffers(len(text)):
            given, marks = call_with_marks(cls.library.listing, (book,), buffer, MEMORY_BYTES,
                                           chooser)
            short = not refusal and buffer.length < len(text)
            due = due_with_marks(20 if short else refusal, place, text, marks)
            cls.tally.compare_text("listing", f"with {buffer.length} bytes", due, given,
                                   (name, book))
            cls.tally.seen["too short", due[0]] += buffer.length <= 1
            cls.tally.seen["accepted into", buffer.name] += refusal == 0

    def test_agreement(self):
        self.check_agreement()

    def test_coverage(self):
        self.require_coverage()
        self.check_rare("every refusal is seen",
                        [("listing", number) for number in (*BOOK_REFUSALS, 20)], LEAST_TIMES)
        self.check_rare("every refusal of a book is seen before 20",
                        [("too short", number) for number in BOOK_REFUSALS], LEAST_TIMES)
        self.check_rare("every kind of buffer is passed with accepted books",
                        [("accepted into", buffer.name) for buffer in buffers(0)], LEAST_ACCEPTED)


if __name__ == "__main__":
    sys.exit(run_unit_tests(sys.modules[__name__]))
