"""Compares the library's practice books, and their listings, with the reference."""

import sys
from itertools import islice

from reference.check import check
from reference.layout import LONGEST_BOOK
from reference.practice_book import draws, practice
from reference.valuation import listing
from tests.support.differential import Differential
from tests.support.library import LibraryCase
from tests.support.program import run_program
from tests.support.report import run_unit_tests

NAMED = (1, 2, 2**32, 2**63, 2**64 - 1)
# Each listing takes the reference about a second.
LISTED = (1, 2**63, 2**64 - 1)
SHORT = (0, 1, 200, 1_220, LONGEST_BOOK - 1)
LONG = (LONGEST_BOOK, LONGEST_BOOK + 1, LONGEST_BOOK + 700)
# How far past the buffer the tests watch.
BEYOND = 40
# The lowest start number with a record of count 0.
WITH_A_COUNT_OF_0 = 32


class WorkedByHand(LibraryCase):
    """First draws, and the fields that they become."""

    def test_draws(self):
        # 1, shifted: 1 ^ 8,192 is 8,193; ^ 64 is 8,257; ^ 8,257 times 131,072 is 1,082,269,761.
        # The counter is 362,437.
        first = next(draws(1))
        self.check("the first draw of 1", first == 1_082_269_761 + 362_437, first)
        # The highest bit alone: both shifts to the left lose it, the one to the right puts bit 56
        # beside it.
        high = next(draws(2**63))
        self.check("the first draw of 2^63", high == 2**63 + 2**56 + 362_437, high)
        # All ones: left 13 leaves the lowest 13; right 7 takes the lowest 6 of these away; left 17
        # puts the rest there too.
        ones = next(draws(2**64 - 1))
        low = 2**13 - 1 ^ 2**6 - 1
        self.check("the first draw of 2^64 - 1", ones == (low ^ low << 17) + 362_437, ones)
        second = list(islice(draws(1), 2))[1]
        self.check("the second draw of 1", second == 1_152_992_998_834_578_379, second)

    def test_fields(self):
        out = bytearray(LONGEST_BOOK)
        self.library.practice(1, out)
        fields = [int.from_bytes(out[place:place + 4], "little", signed=True)
                  for place in (36, 40, 56, 1_228, 1_240)]
        self.check("fields of start number 1",
                   fields == [631_116, 732_537, 67_683, 80_487, 8_126_851], fields)
        self.check("the header: edition 1, basis 1, year 2021, 1,694 records",
                   out[:8] == bytes((1, 1, 229, 7, 158, 6, 0, 0)), list(out[:8]))

    def test_a_count_of_0_is_left_out_of_n(self):
        out = bytearray(LONGEST_BOOK)
        self.library.practice(WITH_A_COUNT_OF_0, out)
        self.assertEqual(self.library.check(bytes(out)).n, 1_693)

    def test_rejected_arguments(self):
        out, practice_call = bytearray(LONGEST_BOOK), self.library.practice
        self.rejects("a start number above 64 bits", ValueError, practice_call, 2**64, out)
        self.rejects("a start number below 0", ValueError, practice_call, -1, out)
        self.rejects("bytes that cannot be written", TypeError, practice_call, 1, bytes(out))
        self.check("nothing was written", not any(out))

    def test_listings(self):
        """The built program's listing is the reference's of the reference's own book."""
        for start in LISTED:
            out = bytearray(LONGEST_BOOK)
            self.library.practice(start, out)
            written = run_program("listing_main", bytes(out))
            due = (listing(practice(start, LONGEST_BOOK)[1]), 0)
            self.check(f"the listing of start number {start}", written == due, written)


class RandomStartNumbers(LibraryCase, Differential):
    """Named start numbers and random ones; buffers too short and longer; the number 0."""

    number, seed, kept_as = 150, 214, "practice"

    @classmethod
    def draw(cls, chooser):
        cls.books, cls.starts = set(), set()
        for start in (0, *NAMED):
            for length in (*SHORT, *LONG):
                cls.call(start, length, chooser)
        for _ in range(cls.number):
            cls.call(chooser.randrange(1, 2**chooser.randint(1, 64)), chooser.choice(LONG), chooser)
            cls.call(chooser.choice((0, chooser.getrandbits(64))), chooser.choice(SHORT), chooser)

    @classmethod
    def call(cls, start, length, chooser):
        """One call, with bytes past the buffer."""
        refusal, book = practice(start, length)
        marks = chooser.randbytes(length + BEYOND)
        out = bytearray(marks)
        reply = cls.library.practice(start, memoryview(out)[:length])
        cls.tally.seen[refusal] += 1
        cls.tally.compare("practice", (tuple(reply), bytes(out)),
                          ((refusal, 0, len(book)), book + marks[len(book):]),
                          f"of {start}, {length} bytes: gives {tuple(reply)}, due is {refusal}",
                          (start, bytes(out)))
        if not refusal:
            cls.books.add(book)
            cls.starts.add(start)
            verdict = cls.library.check(book)
            cls.tally.compare("check, accepted with the reference's n",
                              (verdict.refusal, ("accepted", verdict.n)), (0, check(book)),
                              f"of start {start}", (start, book))

    def test_agreement(self):
        self.check_agreement()

    def test_every_start_number_gives_another_book(self):
        self.assertEqual(len(self.books), len(self.starts))

    def test_coverage(self):
        self.check_seen({16: 2 * len(SHORT), 32: len(LONG)})


if __name__ == "__main__":
    sys.exit(run_unit_tests(sys.modules[__name__]))
