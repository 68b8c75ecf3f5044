"""Changes each entry of the reference implementation's table of weights: the due figures move.

The table has eight settings, first and later years, and five kinds of weight. An entry moves the
liabilities of its own setting alone, and the years from the first on in which it counts; a weight
of mortality moves those of its own sex alone. The table is changed in memory; no file is.
"""

import sys
from itertools import product
from unittest.mock import patch

from reference import valuation
from reference.book import Cell, Portfolio, Values
from reference.layout import CLASSES, SETTINGS
from tests.support.case import Case
from tests.support.report import run_unit_tests

# Men of PG2 and women of PG3: the product group says whose figures move.
MEN, WOMEN = 2, 3
CHAINS = {6: MEN, 9: WOMEN}
KINDS = {"men": {MEN}, "women": {WOMEN}, "lapse": {MEN, WOMEN}, "costs": {MEN, WOMEN},
         "claims": {MEN, WOMEN}}
# Where its table stands, by the first year that it holds for.
TABLES = {0: "FIRST_YEARS", 5: "LATER_YEARS"}


def small_values():
    """A thousand men and women of class 119, with deaths, lapses, costs and claims in all years."""
    cells = (Cell(1_000, 50_000, 100_000, 80_000), Cell(0, 50_000, 100_000, 80_000))
    return Values(cost_rates=[100_000] * 5, mortality=[[40_000] * CLASSES, [30_000] * CLASSES],
                  portfolios={chain: Portfolio(119, cells) for chain in CHAINS})


def all_figures(values):
    """The year table of each setting and product group."""
    return {(setting, group): valuation.year_table(values, setting, group)
            for setting in SETTINGS for group in CHAINS.values()}


def with_change(table, setting, kind):
    """The table with one entry a tenth higher."""
    entry = getattr(table[setting], kind)
    changed = table[setting]._replace(**{kind: entry + max(entry // 10, 1)})
    return (*table[:setting], changed, *table[setting + 1:])


def first_moved(table, other):
    """The first year in which two year tables differ, if their liabilities do too; else None."""
    if valuation.liability_of(table) == valuation.liability_of(other):
        return None
    return next(k for k, (year, moved) in enumerate(zip(table, other)) if year != moved)


class TableOfWeights(Case):
    """All 80 entries."""

    @classmethod
    def setUpClass(cls):
        cls.values = small_values()
        cls.figures = all_figures(cls.values)

    def test_each_entry_moves_its_own_figures(self):
        for setting, first_year, kind in product(SETTINGS, TABLES, KINDS):
            self.check_entry(setting, first_year, kind)

    def check_entry(self, setting, first_year, kind):
        """What moves, and from when on; deaths and lapses of a year are seen in the next."""
        name = TABLES[first_year]
        with patch.object(valuation, name, with_change(getattr(valuation, name), setting, kind)):
            changed = all_figures(self.values)
        moved = {each: first_moved(table, changed[each]) for each, table in self.figures.items()
                 if table != changed[each]}
        seen_in = first_year if kind in ("costs", "claims") else first_year + 1
        due = {(setting, group): seen_in for group in KINDS[kind]}
        self.check(f"setting {setting}, from year {first_year} on, {kind}", moved == due,
                   f"moved are {moved}, due are {due}")


if __name__ == "__main__":
    sys.exit(run_unit_tests(sys.modules[__name__]))
