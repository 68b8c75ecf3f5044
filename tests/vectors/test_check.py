"""The stream of the check: its files are as built, and its books cover every rule."""

import sys

from tests.support.case import Case
from tests.support.report import run_unit_tests
from tests.vectors import check_stream
from tests.vectors.check_coverage_chains import ChainCoverage
from tests.vectors.check_coverage_fields import FieldCoverage
from tests.vectors.check_coverage_order import OrderCoverage
from tests.vectors.stream_tests import StreamTests

MOST_STREAM_BYTES = 3_000_000
LEAST_DAMAGED = 150


class Stream(StreamTests, FieldCoverage, ChainCoverage, OrderCoverage, Case):
    """What the stream covers, counted from its books and not from their names."""

    crate, build = "test_check", check_stream.build

    def test_size(self):
        self.assertLess(len(self.stdin), MOST_STREAM_BYTES)

    def test_the_first_defect_is_the_refusal(self):
        """Two readings of the paper: the check, and the first of all defects."""
        differing = [entry.name for entry in self.entries
                     if entry.refusal != next(((d.number, d.place) for d in entry.defects), None)]
        self.assertEqual(differing[:5], [])

    def test_random_damaged_books_that_are_refused(self):
        damaged = {entry.book for entry in self.entries if entry.is_random and not entry.accepted}
        self.assertGreaterEqual(len(damaged), LEAST_DAMAGED)


if __name__ == "__main__":
    sys.exit(run_unit_tests(sys.modules[__name__]))
