"""The stream of Group: its files are as built, and its figures near their exact values."""

import sys

from tests.support.case import Case
from tests.support.distance import Shares, liability_share
from tests.support.report import run_unit_tests
from tests.vectors import group_stream
from tests.vectors.group_coverage import GroupCoverage
from tests.vectors.stream_tests import StreamTests

MOST_STDIN_BYTES, MOST_STDOUT_BYTES = 3_000_000, 1_000_000


class Stream(StreamTests, GroupCoverage, Case):
    """What the stream covers, counted from its calls and replies, and every distance in it."""

    crate, build = "test_group", group_stream.build

    @classmethod
    def setUpClass(cls):
        super().setUpClass()
        cls.accepted = [entry for entry in cls.entries if entry.accepted]

    def test_sizes(self):
        self.check("stdin stays under 3 MB", len(self.stdin) < MOST_STDIN_BYTES)
        self.check("stdout stays under 1 MB", len(self.stdout) < MOST_STDOUT_BYTES)

    def test_distances(self):
        """Every liability against its exact value."""
        shares = Shares()
        for entry in self.accepted:
            call, (_, _, liability, n, _) = entry
            share = liability_share(call.book, call.setting, call.product_group, liability, n)
            shares.add(call.book, share, entry.name)
        self.assertTrue(all(shares.times[below] for below in (True, False)))
        shares.check(self, "liabilities")


if __name__ == "__main__":
    sys.exit(run_unit_tests(sys.modules[__name__]))
