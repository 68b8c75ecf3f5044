"""Tests of the built listing program: the paper's figures, input in pieces, the samples."""

import random
import subprocess
import sys
import time
import unittest
from contextlib import suppress

from reference.book import empty_book, full_book, one_record_book
from reference.layout import CURVE, LONGEST_BOOK, changed
from reference.valuation import listing
from tests import ROOT
from tests.fixtures.trial_books import PAPER_LISTING
from tests.support.program import MOST_SECONDS, program_path, run_program
from tests.support.report import run_unit_tests

PAUSE_SECONDS = 0.02
NOTHING_LISTED = b"0 0 0\n1 0 0\n2 0 0\n3 0 0\n4 0 0\n5 0 0\n6 0 0\n7 0 0\n"


def send(pipe, piece):
    """Write a piece and give the program time to read it; it may have ended already."""
    with suppress(BrokenPipeError):
        pipe.write(piece)
        pipe.flush()
    time.sleep(PAUSE_SECONDS)


def run_in_pieces(pieces, program="listing_main"):
    """What the program writes and the exit code where the input comes piece by piece."""
    with subprocess.Popen([program_path(program)], stdin=subprocess.PIPE,
                          stdout=subprocess.PIPE) as run:
        try:
            for piece in pieces:
                send(run.stdin, piece)
            written, _ = run.communicate(timeout=MOST_SECONDS)
        finally:
            run.kill()
    return written, run.returncode


def cut(book, *places):
    """The pieces of a book between these places."""
    return [book[start:end] for start, end in zip((0, *places), (*places, len(book)))]


class Listings(unittest.TestCase):
    """Each is the whole output, and the exit code is 0 for a refusal too."""

    def compare(self, sent, due):
        """The program writes just this."""
        self.assertEqual(run_program("listing_main", sent), (due, 0))

    def test_paper_listing(self):
        self.compare(one_record_book(), PAPER_LISTING)

    def test_no_records_give_zeros(self):
        self.compare(empty_book(), NOTHING_LISTED)

    def test_refused_books_t11_t12(self):
        self.compare(bytes(1_220), b"refused 2 0\n")
        self.compare(bytes(1_219), b"refused 1 1219\n")

    def test_no_input(self):
        self.compare(b"", b"refused 1 0\n")

    def test_rate_200000_passes(self):
        self.compare(changed(empty_book(), (CURVE[3], 200_000)), NOTHING_LISTED)
        self.compare(changed(empty_book(), (CURVE[3], 200_001)), b"refused 7 68\n")


class Input(unittest.TestCase):
    """How much is taken, and in which pieces it may come."""

    def test_largest_book_is_taken_whole(self):
        book = full_book(random.Random(1_694), shuffle=True)
        self.assertEqual(len(book), 41_876)
        self.assertEqual(run_program("listing_main", book), (listing(book), 0))
        pieces = cut(book, 7, 1_219, 4_096, LONGEST_BOOK - 1)
        self.assertEqual(run_in_pieces(pieces), (listing(book), 0))

    def test_41877_bytes_are_taken_and_no_more(self):
        book = full_book(random.Random(1_694))
        for more in (1, 2, 100_000):
            sent = book + bytes(more)
            self.assertEqual(run_program("listing_main", sent), (b"refused 5 41877\n", 0))
            pieces = cut(sent, 7, LONGEST_BOOK)
            self.assertEqual(run_in_pieces(pieces), (b"refused 5 41877\n", 0))

    def test_pieces_make_no_difference(self):
        for book, due in ((one_record_book(), PAPER_LISTING), (bytes(1_220), b"refused 2 0\n"),
                          (bytes(1_219), b"refused 1 1219\n")):
            self.assertEqual(run_in_pieces(cut(book, 7)), (due, 0))
            self.assertEqual(run_in_pieces(cut(book, *range(7, len(book), 100))), (due, 0))


class Samples(unittest.TestCase):
    """Every sample book has its listing beside it."""

    def test_samples(self):
        books = sorted((ROOT / "samples").glob("*.book"))
        self.assertTrue(books)
        for path in books:
            due = path.with_suffix(".listing").read_bytes()
            self.assertEqual(run_program("listing_main", path.read_bytes()), (due, 0), path.name)


if __name__ == "__main__":
    sys.exit(run_unit_tests(sys.modules[__name__]))
