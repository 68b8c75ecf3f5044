"""Compares the built program's verdicts on random books with the reference."""

import sys
from itertools import zip_longest

from reference.check import check
from tests.fixtures.damage import any_book
from tests.fuzz.verdicts import cover_verdicts
from tests.support.differential import Differential
from tests.support.program import verdict_lines
from tests.support.report import run_unit_tests
from tests.vectors.files import verdict_line

LEAST_TIMES = 3


class RandomBooks(Differential):
    """All books in one run of the program."""

    number, seed, for_coverage, kept_as = 1_000, 41_876, 1_000, "check"

    @classmethod
    def draw(cls, chooser):
        books = [any_book(chooser) for _ in range(cls.number)]
        due = [check(book) for book in books]
        lines, cls.code = verdict_lines(books)
        for number, (verdict, line) in enumerate(zip_longest(map(verdict_line, due), lines)):
            kept = (number, books[number]) if number < len(books) else ()
            cls.tally.compare("verdict", line, verdict, f"is {line!r}, due is {verdict!r}", kept)
        cls.tally.seen.update(each[1] if each[0] == "refused" else 0 for each in due)

    def test_agreement(self):
        self.check_agreement()

    def test_the_program_ends_with_code_0(self):
        self.assertEqual(self.code, 0)

    def test_coverage(self):
        self.require_coverage()
        cover_verdicts(self, LEAST_TIMES)


if __name__ == "__main__":
    sys.exit(run_unit_tests(sys.modules[__name__]))
