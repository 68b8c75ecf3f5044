"""The stream of cell projections: its files are as built, and its cells end in every year."""

import sys

from reference.book import PG2_MEN
from reference.layout import CHAINS, SETTINGS
from tests.support.case import Case
from tests.support.report import run_unit_tests
from tests.vectors import cell_projection_stream
from tests.vectors.cell_projection_stream import ENDS, NO_CELL, PG2_WOMEN
from tests.vectors.stream_tests import StreamTests


class Stream(StreamTests, Case):
    """What the stream covers, counted from its cases and their years."""

    crate, build = "test_cell_projection", cell_projection_stream.build

    @classmethod
    def setUpClass(cls):
        super().setUpClass()
        cls.computed = [entry for entry in cls.entries if entry.years != NO_CELL]
        cls.worked = [entry for entry in cls.computed if entry.case.worked is not None]

    def test_by_hand(self):
        wrong = [entry.name for entry in self.entries
                 if entry.case.worked not in (None, entry.years)]
        self.check("what was worked by hand", not wrong, wrong[:5])
        self.check("34 cells worked by hand", len(self.worked) == 34, len(self.worked))
        without = len(self.entries) - len(self.computed)
        self.check("22 entries without a cell", without == 22, without)

    def test_coverage(self):
        for chain in (PG2_MEN, PG2_WOMEN):
            seen = {entry.years for entry in self.worked if entry.case.chain == chain}
            self.covers(f"cells of chain {chain} that end at 0, 1, 4, 5, 49 and never", ENDS, seen)
        self.covers("every setting", SETTINGS, {entry.case.setting for entry in self.computed})
        self.covers("every chain", range(len(CHAINS)),
                    {entry.case.chain for entry in self.computed})
        others = {entry.years for entry in self.computed if entry.case.worked is None}
        self.check("a dozen different ends among the others", len(others) >= 12, sorted(others))


if __name__ == "__main__":
    sys.exit(run_unit_tests(sys.modules[__name__]))
