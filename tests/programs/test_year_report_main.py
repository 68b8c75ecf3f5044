"""Tests of the built report program: the setting that its words name, input, the samples."""

import random
import sys
import unittest

from reference.book import empty_book, full_book, one_record_book
from reference.layout import SETTINGS
from reference.year_report import report_page
from tests import ROOT
from tests.support.program import run_program
from tests.support.report import run_unit_tests

NO_SETTING = b"refused 14 0\n"


class Words(unittest.TestCase):
    """The setting is the one word that the program is started with; 0 where there is none."""

    def compare(self, words, due, book=one_record_book()):
        """The program writes just this, and its exit code is 0 for a refusal too."""
        self.assertEqual(run_program("year_report_main", book, *words), (due, 0), words)

    def test_no_word_is_the_base(self):
        self.compare([], report_page(one_record_book(), 0))

    def test_every_setting(self):
        pages = {report_page(one_record_book(), setting) for setting in SETTINGS}
        self.assertEqual(len(pages), 4)
        for setting in SETTINGS:
            self.compare([str(setting)], report_page(one_record_book(), setting))

    def test_any_other_word_is_no_setting(self):
        for word in ("8", "9", "a", "-1", "00", "07", "", " ", "/", ":", "7" * 7, "7" * 8, "7" * 9,
                     "0" * 99):
            self.compare([word], NO_SETTING)

    def test_two_words_are_no_setting(self):
        self.compare(["0", "0"], NO_SETTING)
        self.compare(["0", ""], NO_SETTING)

    def test_the_setting_comes_before_the_book(self):
        self.compare(["8"], NO_SETTING, b"")
        self.compare(["7"], b"refused 1 0\n", b"")


class Input(unittest.TestCase):
    """How much is taken."""

    def test_no_records_give_zeros(self):
        page, code = run_program("year_report_main", empty_book())
        self.assertEqual((page, code), (report_page(empty_book(), 0), 0))
        self.assertEqual(len(page), 2_225)

    def test_refused_books_t11_t12(self):
        self.assertEqual(run_program("year_report_main", bytes(1_220)), (b"refused 2 0\n", 0))
        self.assertEqual(run_program("year_report_main", bytes(1_219)), (b"refused 1 1219\n", 0))

    def test_41877_bytes_are_taken_and_no_more(self):
        book = full_book(random.Random(1_694), shuffle=True)
        self.assertEqual(run_program("year_report_main", book, "3"), (report_page(book, 3), 0))
        for more in (1, 2, 100_000):
            self.assertEqual(run_program("year_report_main", book + bytes(more)),
                             (b"refused 5 41877\n", 0))


class Samples(unittest.TestCase):
    """Every sample book has its report beside it."""

    def test_samples(self):
        books = sorted((ROOT / "samples").glob("*.book"))
        self.assertTrue(books)
        for path in books:
            due = path.with_suffix(".report").read_bytes()
            self.assertEqual(run_program("year_report_main", path.read_bytes()), (due, 0),
                             path.name)


if __name__ == "__main__":
    sys.exit(run_unit_tests(sys.modules[__name__]))
