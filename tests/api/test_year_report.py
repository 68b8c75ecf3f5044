"""Compares the calls Report and Report length with the reference on random books and buffers."""

import sys
from itertools import product

from reference.book import empty_book, one_record_book, random_book
from reference.layout import COST_RATES, SETTINGS, changed
from reference.year_report import (HEADING, MOST_BYTES, report_length, report_refusal, report_text)
from tests import ROOT
from tests.api.buffers import Buffer, TextTally, call_with_marks, due_with_marks
from tests.fixtures.damage import any_book
from tests.fixtures.insurers import MANY_PRODUCTS, highest_full_book, insurer_book
from tests.fixtures.trial_books import richer_than_the_group_book, sixth_year_book
from tests.support.differential import Differential
from tests.support.library import LibraryCase
from tests.support.report import run_unit_tests

LEAST_TIMES = 3
LEAST_ACCEPTED = 100
LEAST_LENGTHS = 100
# Without figures: 25 bytes of heading, and five groups with ten lines of 8 bytes and forty of 9.
SHORTEST = 25 + 5 * (10 * 8 + 40 * 9)
# Settings out of range, and some that would be in range if they lost their high bits.
ODD_SETTINGS = (8, 9, 2**32, 2**32 + 1, 2**63, 2**64 - 1)
BOOK_REFUSALS = (*range(1, 14), 23)
# Longer than any buffer, so that a byte written past its end shows.
MEMORY_BYTES = MOST_BYTES + 600
SAMPLES = sorted((ROOT / "samples").glob("*.book"))


def buffers(length):
    """Buffers around the report's length; where there is no report, around the largest one."""
    length = length or MOST_BYTES
    return [Buffer("none", 0), Buffer("heading", len(HEADING) + 1),
            Buffer("one byte short", length - 1), Buffer("exact", length),
            Buffer("one byte more", length + 1), Buffer("more", length + 500),
            Buffer("largest", MOST_BYTES)]


class WorkedByHand(LibraryCase):
    """Lines and lengths worked by hand, and what the module takes as a buffer."""

    def lines_of(self, book, setting=0):
        """The lines of a report, their ends cut off."""
        out = bytearray(MOST_BYTES)
        length = self.library.report(book, setting, out).length
        return bytes(out[:length]).decode("ascii").split("\n")

    def test_lines(self):
        lines = self.lines_of(one_record_book())
        self.check("the heading comes first", lines[0] == "group,year,premium,outgo", lines[0])
        self.check("the last of 251 lines has its end", len(lines) == 252 and lines[251] == "",
                   len(lines))
        self.check("group by group, in each year 0 to 49",
                   [line.split(",")[:2] for line in lines[1:251]]
                   == [[str(group), str(k)] for group, k in product(range(1, 6), range(50))])
        self.check("PG2 has ten premiums, eight in ten of them claims and one in ten costs",
                   lines[51:53] == ["2,0,1000000,900000", "2,1,1000000,900000"], lines[51:53])

    def test_cap(self):
        capped = self.lines_of(sixth_year_book())[55:57]
        self.check("the premium is that after the cap", capped == ["2,4,0,0", "2,5,1000,900"],
                   capped)
        # 1,600 of premium in all and 1,100 of claims in every year: from the sixth on ten ninths
        # of 1,100 count.
        shared = self.lines_of(richer_than_the_group_book())[5:7]
        self.check("the cap is on PG1 as one", shared == ["1,4,1600,1100", "1,5,1222,1100"],
                   shared)

    def test_lengths(self):
        samples = {path.stem: (path.read_bytes(), path.with_suffix(".report").read_bytes())
                   for path in SAMPLES}
        for words, book, length in (
                ("the shortest report has 2,225 bytes", empty_book(), 2_225),
                ("seven digits and six in place of two zeros, fifty times", one_record_book(),
                 2_225 + 50 * (6 + 5)),
                ("six lines of the worked example have 40 bytes more", samples["worked_example"][0],
                 2_225 + 2 * (5 + 5 + 4 + 3 + 2 + 1))):
            given, second = self.library.report_room(book, 0), report_length(book, 0)
            self.check(words, given == second == (0, 0, length), (given, second))
        differing = [name for name, (book, page) in samples.items()
                     if self.library.report_room(book, 0).length
                     != (0 if page.startswith(b"refused") else len(page))]
        self.check(f"the lengths of {len(SAMPLES)} samples are their reports' sizes",
                   samples and not differing, differing)

    def test_rejected_arguments(self):
        book, report = one_record_book(), self.library.report
        two_rows = memoryview(bytearray(2 * MOST_BYTES)).cast("B", (2, MOST_BYTES))
        for words, out in (("bytes", bytes(MOST_BYTES)),
                           ("numbers", memoryview(bytearray(8 * MOST_BYTES)).cast("Q")),
                           ("two rows", two_rows)):
            self.rejects(f"a buffer of {words}", TypeError, report, book, 0, out)
        self.rejects("a setting above 64 bits", ValueError, self.library.report_room, book, 2**64)
        self.rejects("a setting below 0", ValueError, report, book, -1, bytearray(1))

    def test_a_buffer_in_the_books_own_memory_does_no_harm(self):
        book = one_record_book()
        shared = bytearray(book.ljust(MOST_BYTES, b"\0"))
        reply = self.library.report(memoryview(shared)[:len(book)], 0, shared)
        self.assertEqual((reply.refusal, bytes(shared[:reply.length])), (0, report_text(book, 0)))


class RandomBooks(LibraryCase, Differential):
    """Damaged and valid books in turn, some in odd settings; every sample in every setting."""

    number, seed, for_coverage, kept_as = 600, 9_525, 600, "report"
    make_tally = TextTally

    @classmethod
    def draw(cls, chooser):
        cls.lengths = set()
        for number in range(cls.number):
            setting = chooser.choice(SETTINGS if chooser.random() < 0.9 else ODD_SETTINGS)
            book = any_book(chooser) if number % 3 else random_book(
                chooser, chooser.choice((100, 112, 117)), chooser.choice((1, 4, 14)))
            cls.try_book(number, book, setting, chooser)
        for name, book, setting in cls.named_books():
            cls.try_book(name, book, setting, chooser)

    @classmethod
    def named_books(cls):
        """Books that no random one comes near, and both ends of a report's length."""
        damaged = changed(one_record_book(), (COST_RATES[4], 1_000_001))
        for name, book in (("insurer", insurer_book(MANY_PRODUCTS, cls.seed)),
                           ("highest", highest_full_book())):
            yield name, book, 0
            yield name, book, 7
        books = (("empty", empty_book()), ("one_record", one_record_book()),
                 ("zeros", bytes(1_220)), ("damaged", damaged), ("nothing", b""),
                 ("sixth_year", sixth_year_book()), ("richer", richer_than_the_group_book()))
        for (name, book), setting in product(books, (*SETTINGS, *ODD_SETTINGS)):
            yield name, book, setting
        for path, setting in product(SAMPLES, SETTINGS):
            yield path.stem, path.read_bytes(), setting

    @classmethod
    def try_book(cls, name, book, setting, chooser):
        """Both calls, the second with every buffer: the length is that of the reference's text."""
        seen, due = cls.tally.seen, report_length(book, setting)
        text = report_text(book, setting) if due[0] == 0 else b""
        cls.tally.compare_text("length", f"in setting {setting}", due,
                               tuple(cls.library.report_room(book, setting)), (name, book))
        for buffer in buffers(due[2]):
            given, marks = call_with_marks(cls.library.report, (book, setting), buffer,
                                           MEMORY_BYTES, chooser)
            reply = due_with_marks(*report_refusal(due, buffer.length), text, marks)
            cls.tally.compare_text("report", f"in setting {setting} with {buffer.length} bytes",
                                   reply, given, (name, book))
            seen["accepted into", buffer.name] += due[0] == 0
            seen["no buffer", reply[0]] += buffer.length == 0
        if due[0] == 0:
            cls.lengths.add(len(text))
            seen["setting", setting] += len(text) > SHORTEST

    def test_agreement(self):
        self.check_agreement()

    def test_coverage_of_refusals(self):
        self.require_coverage()
        for call, last in (("length", (14,)), ("report", (14, 20))):
            self.check_rare(f"every refusal of {call} is seen",
                            [(call, number) for number in (*BOOK_REFUSALS, *last)], LEAST_TIMES)
            self.check_rare(f"{call} accepts", [(call, 0)], LEAST_ACCEPTED)
        self.check_rare("every refusal of report is seen before 20",
                        [("no buffer", number) for number in (*BOOK_REFUSALS, 14)], LEAST_TIMES)

    def test_coverage_of_buffers_and_lengths(self):
        self.require_coverage()
        self.check_rare("every kind of buffer is passed with accepted books",
                        [("accepted into", buffer.name) for buffer in buffers(0)], LEAST_ACCEPTED)
        self.check_rare("every setting has reports with figures",
                        [("setting", setting) for setting in SETTINGS], LEAST_TIMES)
        self.check(f"{len(self.lengths)} different lengths", len(self.lengths) >= LEAST_LENGTHS)
        self.check("every length lies between the shortest report and 9,525",
                   SHORTEST == min(self.lengths) and max(self.lengths) <= MOST_BYTES,
                   sorted(self.lengths))


if __name__ == "__main__":
    sys.exit(run_unit_tests(sys.modules[__name__]))
