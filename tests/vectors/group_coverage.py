"""What the stream of Group covers, counted from its calls and replies."""

from dataclasses import replace

from reference.book import read_values
from reference.layout import (CHAINS, COST_RATES, CURVE, LONGEST_BOOK, MORTALITY, PRODUCT_GROUPS,
                              SETTINGS, record)
from reference.valuation import year_table
from tests.vectors.check_cases_order import BOOK_REFUSALS
from tests.vectors.group_cases import Call


def cover_ends(case, books, cells):
    """Both ends of every range that enters a figure."""
    for position, amount in enumerate(record(1).amounts):
        case.covers(f"both ends of {amount.name.split(', ')[1]}", {amount.low, amount.high},
                    {cell[position] for cell in cells})
    for words, places in (("cost rates", COST_RATES), ("the curve", CURVE),
                          ("mortality", MORTALITY)):
        rates = {place.read(book) for book in books for place in places}
        case.covers(f"both ends of {words}", {places[0].low, places[0].high}, rates)


def has_rich_subgroup_behind_poor(values, setting):
    """Would the caps of PG1a, PG1b and PG1c apart cut more, beyond what rounding does?"""
    whole = year_table(values, setting, 1)
    apart = [year_table(replace(values, portfolios={
        chain: portfolio for chain, portfolio in values.portfolios.items()
        if CHAINS[chain].code == code}), setting, 1) for code in (1, 2, 3)]
    return any(year.premium > sum(part.premium for part in parts) + 10
               for year, *parts in zip(whole, *apart))


class GroupCoverage:
    """Tests of what the calls of the stream have."""

    def test_refusals(self):
        """Refusals of the caller with the numbers that cause them, and those of the book."""
        def seen(refusal, position):
            return {entry.call[position] for entry in self.entries if entry.reply[0] == refusal}

        refusals = {entry.reply[0] for entry in self.entries}
        self.covers("refusals 14, 15 and 16", {14, 15, 16}, refusals)
        self.covers("each refusal of the book", BOOK_REFUSALS, refusals)
        setting, product_group, table_length = map(Call._fields.index, (
            "setting", "product_group", "table_length"))
        self.covers("settings 8, 9 and 2^64 - 1 are 14", {8, 9, 2**64 - 1}, seen(14, setting))
        self.covers("groups 0, 6 and 2^64 - 1 are 15", {0, 6, 2**64 - 1}, seen(15, product_group))
        self.covers("tables of 0 and 199 are 16", {0, 199}, seen(16, table_length))
        wrong = [entry.name for entry in self.entries
                 if not entry.accepted and entry.reply[2:] != (0, 0, None)]
        self.check("a refusal has no figures", not wrong, wrong[:5])

    def test_calls(self):
        """Every setting and group on cells that have contracts, and every table length."""
        pairs = {(entry.call.setting, entry.call.product_group)
                 for entry in self.accepted if entry.reply[3] != 0}
        self.covers("every setting with every group, self.accepted",
                    {(setting, each) for setting in SETTINGS for each in PRODUCT_GROUPS}, pairs)
        self.covers("tables of 200, 201 and 300 are long enough", {200, 201, 300},
                    {entry.call.table_length for entry in self.accepted})
        self.check("two full books",
                   sum(len(e.call.book) == LONGEST_BOOK for e in self.accepted) == 2)

    def test_amounts(self):
        """Amounts and rates at their ends, and cells with and without contracts."""
        cells = {entry.name: entry.cells() for entry in self.accepted}
        cover_ends(self, [entry.call.book for entry in self.accepted],
                   [cell for group_cells in cells.values() for cell in group_cells])
        thinned = [e.name for e in self.accepted if 0 < e.reply[3] < len(cells[e.name])]
        bare = [e.name for e in self.accepted if e.reply[3] == 0 and cells[e.name]]
        self.check("cells without contracts, some and all", thinned and bare)
        spans = {len(group_cells) for group_cells in cells.values()}
        self.covers("one cell, two cells and 726", {1, 2, 726}, spans)

    def test_figures(self):
        """Debts and credits, years with and without a cut by the cap."""
        liabilities = [entry.reply[2] for entry in self.accepted]
        self.check("debts, credits and zero", min(liabilities) < 0 < max(liabilities)
                   and 0 in liabilities)
        self.check("a cell of class 120 with outgo in all fifty years",
                   any(len(entry.cells()) == 1 and all(entry.reply[4][1::4])
                       for entry in self.accepted))
        at_cap, below_cap, above_cap = set(), set(), set()
        for entry in self.accepted:
            numbers = entry.reply[4]
            for k in range(5, 50):
                premium, outgo = numbers[4 * k:4 * k + 2]
                if 9 * premium > 10 * outgo:
                    above_cap.add(entry.name)
                if outgo != 0:
                    (at_cap if premium == 10 * outgo // 9 else below_cap).add(k)
        self.check("no premium above the cap from k = 5", not above_cap, above_cap)
        of_group_1 = [entry.call for entry in self.accepted if entry.call.product_group == 1]
        behind = [call.name for call in of_group_1
                  if has_rich_subgroup_behind_poor(read_values(call.book), call.setting)]
        self.check("a rich subgroup of PG1 behind a poor one", behind)
        self.covers("the cap reached in every year from k = 5", range(5, 50), at_cap)
        self.covers("the cap not reached in every year from k = 5", range(5, 50), below_cap)
