"""The stream of record views: its files are as built, and its calls cover every number."""

import sys

from reference.book import empty_book
from reference.layout import LONGEST_BOOK, RECORD_COUNT, RECORD_SIZE, record_start
from tests.fixtures.defects import without_unlinked
from tests.support.case import Case
from tests.support.report import run_unit_tests
from tests.vectors import record_view_stream
from tests.vectors.check_cases_order import BOOK_REFUSALS
from tests.vectors.stream_tests import StreamTests


class Stream(StreamTests, Case):
    """What the stream covers, counted from its books and replies."""

    crate, build = "test_record_view", record_view_stream.build

    def test_a_small_book(self):
        small = record_view_stream.shuffled_book()
        count = RECORD_COUNT.read(small)
        seen = {entry.number: entry.reply for entry in self.entries if entry.book == small}
        self.covers("every record of a small book", range(1, count + 1), seen)
        self.covers("numbers 0, N + 1, 2^32, 2^63 and 2^64 - 1 are 9 at 0",
                    {0, count + 1, 2**32, 2**63, 2**64 - 1},
                    {number for number, reply in seen.items() if reply == (9, 0, b"")})
        linked = without_unlinked(small)
        unlinked = [number for number in range(1, count + 1)
                    if linked[record_start(number):][:RECORD_SIZE] != seen[number][2]]
        self.check("unlinked records are viewed too", len(unlinked) == 4, unlinked)

    def test_full_and_empty_books(self):
        full = {entry.number for entry in self.entries
                if len(entry.book) == LONGEST_BOOK and entry.reply[0] == 0}
        self.covers("first, middle and last of the full book", {1, 847, 1_694}, full)
        empty = {entry.number for entry in self.entries
                 if entry.book == empty_book() and entry.reply == (9, 0, b"")}
        self.covers("an empty book has no record", {0, 1, 2**64 - 1}, empty)

    def test_a_part_is_the_records_bytes_and_a_refusal_has_none(self):
        wrong = []
        for entry in self.entries:
            refusal, place, part = entry.reply
            start = 1_220 + 24 * (entry.number - 1)
            due = (entry.book[start:start + 24], 24, 0) if refusal == 0 else (b"", 0, place)
            if (part, len(part), place) != due:
                wrong.append(entry.name)
        self.assertEqual(wrong, [])

    def test_the_refusal_of_the_book_comes_before_that_of_the_number(self):
        refused = [entry for entry in self.entries if entry.refused_book]
        for words, holds in (("in range", lambda number, count: 1 <= number <= count),
                             ("0", lambda number, count: number == 0),
                             ("above N", lambda number, count: number > count)):
            numbers = {entry.reply[0] for entry in refused
                       if holds(entry.number, RECORD_COUNT.read(entry.book))}
            self.covers(f"each book refusal with a number {words}", BOOK_REFUSALS, numbers)


if __name__ == "__main__":
    sys.exit(run_unit_tests(sys.modules[__name__]))
