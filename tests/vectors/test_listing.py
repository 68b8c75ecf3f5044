"""The stream of listings: its files are as built, and its totals near their exact values."""

import sys

from tests.support.case import Case
from tests.support.distance import Shares, totals_share
from tests.support.report import run_unit_tests
from tests.vectors import listing_stream
from tests.vectors.group_coverage import cover_ends
from tests.vectors.listing_coverage import ListingCoverage
from tests.vectors.stream_tests import StreamTests


class Stream(StreamTests, ListingCoverage, Case):
    """What the stream covers, counted from its books and replies, and every distance in it."""

    crate, build = "test_listing", listing_stream.build

    @classmethod
    def setUpClass(cls):
        super().setUpClass()
        cls.accepted = [entry for entry in cls.entries if entry.accepted]

    def test_ends_of_ranges(self):
        cover_ends(self, [entry.book for entry in self.accepted],
                   [cell for entry in self.accepted
                    for portfolio in entry.values.portfolios.values()
                    for cell in portfolio.cells])

    def test_distances(self):
        """Every total against its exact value."""
        shares = Shares()
        for entry in self.accepted:
            shares.add(entry.book, totals_share(entry.book, entry.n, entry.totals), entry.name)
        self.assertTrue(all(shares.times[below] for below in (True, False)))
        shares.check(self, "books' totals")


if __name__ == "__main__":
    sys.exit(run_unit_tests(sys.modules[__name__]))
