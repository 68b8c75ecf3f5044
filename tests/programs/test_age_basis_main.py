"""Tests of the built convert program: what it writes, and what docs/FILE_FORMAT shows of it."""

import random
import sys
import unittest

from reference.book import Portfolio, empty_book, full_book, make_book, read_values
from reference.age_basis import convert
from reference.layout import AGE_BASIS, LONGEST_BOOK, changed, record
from reference.valuation import totals
from tests import ROOT
from tests.fixtures.age_basis_2 import on_basis_2
from tests.programs.test_listing_main import cut, run_in_pieces
from tests.support.program import run_with_errors
from tests.support.report import run_unit_tests

SAMPLES = ROOT / "samples"


def one_class_too_high(book):
    """The accepted book with every class one too high; who would be in class 121 is left out."""
    values = read_values(book)
    values.portfolios = {chain: Portfolio(portfolio.first_class + 1, portfolio.cells[:-1])
                         for chain, portfolio in values.portfolios.items()
                         if len(portfolio.cells) > 1}
    return make_book(values)


class Conversions(unittest.TestCase):
    """The converted book on standard output, or the refusal on standard error; exit code 0."""

    def compare(self, sent, written, reported=b""):
        """The program writes just this."""
        self.assertEqual(run_with_errors("age_basis_main", sent), (written, reported, 0))

    def test_sample_becomes_the_worked_example(self):
        self.compare((SAMPLES / "newer_basis.book").read_bytes(),
                     (SAMPLES / "worked_example.book").read_bytes())

    def test_small_insurer_as_the_reference_has_it(self):
        book = on_basis_2((SAMPLES / "small_insurer.book").read_bytes())
        self.compare(book, convert(book, len(book))[3])

    def test_no_records(self):
        self.compare(on_basis_2(empty_book()), empty_book())

    def test_a_refusal_is_one_line_on_standard_error(self):
        self.compare(b"", b"", b"refused 1 0\n")
        self.compare(bytes(1_220), b"", b"refused 2 0\n")
        self.compare((SAMPLES / "one_record.book").read_bytes(), b"", b"refused 3 1\n")

    def test_class_0_is_refused_at_its_place(self):
        book = changed((SAMPLES / "newer_basis.book").read_bytes(), (record(1).age_class, 0))
        self.compare(book, b"", b"refused 21 1222\n")


class Input(unittest.TestCase):
    """How much is taken, and in which pieces it may come."""

    def test_largest_book_is_taken_whole(self):
        older = full_book(random.Random(121), shuffle=True)
        newer = on_basis_2(older)
        self.assertEqual(run_with_errors("age_basis_main", newer), (older, b"", 0))
        pieces = cut(newer, 7, 1_219, 4_096, LONGEST_BOOK - 1)
        self.assertEqual(run_in_pieces(pieces, "age_basis_main"), (older, 0))

    def test_41877_bytes_are_taken_and_no_more(self):
        book = on_basis_2(full_book(random.Random(121)))
        for more in (1, 100_000):
            self.assertEqual(run_with_errors("age_basis_main", book + bytes(more)),
                             (b"", b"refused 5 41877\n", 0))


class Shown(unittest.TestCase):
    """What docs/FILE_FORMAT shows of the two age bases."""

    def is_shown(self, words):
        """The page has these words."""
        self.assertTrue(words in (ROOT / "docs" / "FILE_FORMAT.md").read_text(encoding="utf-8"),
                        f"not shown: {words}")

    def test_classes_of_basis_2_in_a_book_of_basis_1(self):
        book = changed((SAMPLES / "newer_basis.book").read_bytes(), (AGE_BASIS, 1))
        self.assertEqual(totals(book)[:2], (13, 1_248))
        self.is_shown("`refused 13 1248`")

    def test_one_class_too_high(self):
        book = (SAMPLES / "small_insurer.book").read_bytes()
        figures = [totals(each) for each in (book, one_class_too_high(book))]
        for _, _, n, by_setting, _ in figures:
            self.is_shown(f"| {by_setting[0]:,} | {n} |")
        missing = figures[0][3][0] - figures[1][3][0]
        self.is_shown(f"{missing // 100:,}.{missing % 100:02} francs")


if __name__ == "__main__":
    sys.exit(run_unit_tests(sys.modules[__name__]))
