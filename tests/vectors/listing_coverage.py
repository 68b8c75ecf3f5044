"""What the stream of listings covers, counted from its books and replies."""

from reference.book import one_record_book
from reference.check import check
from reference.layout import LONGEST_BOOK, MOST_BYTES_TAKEN, MOST_RECORDS, PRODUCT_GROUPS
from reference.valuation import FIRST_CAPPED_YEAR, liability_of, year_sums, year_table
from tests.vectors.check_cases_order import BOOK_REFUSALS
from tests.vectors.group_coverage import has_rich_subgroup_behind_poor

MOST_STDIN_BYTES = 600_000


def group_liabilities(entry):
    """The five liabilities of the base setting."""
    return [liability_of(year_table(entry.values, 0, each)) for each in PRODUCT_GROUPS]


def has_rich_group_beside_poor(values, setting):
    """Would one cap for the whole book cut less, beyond what rounding does?"""
    sums = [[premium for premium, _ in year_sums(values, setting, each)] for each in PRODUCT_GROUPS]
    tables = [year_table(values, setting, each) for each in PRODUCT_GROUPS]
    for premium, *years in list(zip(map(sum, zip(*sums)), *tables))[FIRST_CAPPED_YEAR:]:
        cap = 10 * sum(year.outgo for year in years) // 9
        if min(premium, cap) > sum(year.premium for year in years) + 10:
            return True
    return False


class ListingCoverage:
    """Tests of what the books of the stream have."""

    def test_sizes(self):
        """A stream of moderate size, with the smallest and the largest books."""
        stdin = sum(4 + len(entry.book) for entry in self.entries)
        self.check("stdin stays under 600 kB", stdin < MOST_STDIN_BYTES, stdin)
        lengths = [len(entry.book) for entry in self.entries]
        self.check("two full books", lengths.count(LONGEST_BOOK) == 2)
        self.covers("no byte, and as many as are ever taken", {0, MOST_BYTES_TAKEN}, lengths)
        self.check("none has more bytes", max(lengths) == MOST_BYTES_TAKEN, max(lengths))

    def test_refusals(self):
        """Each refusal of a book, T11 and T12, and no figures beside a refusal."""
        refused = [entry for entry in self.entries if not entry.accepted]
        self.covers("each refusal of the book", BOOK_REFUSALS, {entry.refusal for entry in refused})
        verdicts = {entry.book: (entry.refusal, entry.place) for entry in self.entries}
        self.check("T11: 1,220 zero bytes", verdicts.get(bytes(1_220)) == (2, 0))
        self.check("T12: 1,219 bytes", verdicts.get(bytes(1_219)) == (1, 1_219))
        self.check("the paper's own book", verdicts.get(one_record_book()) == (0, 0))
        wrong = [entry.name
                 for entry in refused if any((entry.n, *entry.totals, *entry.differences))]
        self.check("a refusal has no figures", not wrong, wrong[:5])

    def test_cells(self):
        """The n of all groups, where it is no group's own and where it is one group's."""
        wrong = [entry.name for entry in self.accepted if entry.n != check(entry.book)[1]]
        self.check("n is the check's", not wrong, wrong[:5])
        self.covers("no cell, one cell and all", {0, 1, MOST_RECORDS}, {e.n for e in self.accepted})
        self.check("contracts in all five groups, n being none of theirs",
                   any(all(e.n_by_group) and e.n not in e.n_by_group for e in self.accepted))
        alone = {e.n_by_group.index(e.n) + 1 for e in self.accepted if e.n and e.n in e.n_by_group}
        self.covers("each group alone", PRODUCT_GROUPS, alone)
        self.check("cells, but none with contracts",
                   any(entry.values.portfolios and entry.n == 0 for entry in self.accepted))

    def test_totals(self):
        """Debts and credits, apart and side by side."""
        totals = [total for entry in self.accepted for total in entry.totals]
        self.check("debts, credits and zero", min(totals) < 0 < max(totals) and 0 in totals)
        self.check("eight totals that all differ",
                   any(len(set(e.totals)) == 8 for e in self.accepted))
        self.check("a credit in one setting, a debt in another",
                   any(min(entry.totals) < 0 < max(entry.totals) for entry in self.accepted))
        self.check("a credit of one group, a debt of another",
                   any(min(parts) < 0 < max(parts)
                       for parts in map(group_liabilities, self.accepted)))

    def test_differences(self):
        """Each difference of every sign that it can have.

        In the first five years no premium is cut, so that higher costs or claims move the outgo
        alone, and that upwards: the third and the fourth difference are never below zero.
        """
        for position, words in enumerate(("mortality", "lapse", "costs", "claims")):
            differences = [entry.differences[position] for entry in self.accepted]
            signs = {(number > 0) - (number < 0) for number in differences}
            due = {-1, 0, 1} if words in ("mortality", "lapse") else {0, 1}
            self.check(f"the difference of {words} has each sign it can have", signs == due, signs)

    def test_caps(self):
        """A product group has one cap, the book has five."""
        self.check("a rich subgroup of PG1 behind a poor one",
                   any(has_rich_subgroup_behind_poor(entry.values, 0) for entry in self.accepted))
        self.check("a rich group beside a poor one",
                   any(has_rich_group_beside_poor(entry.values, 0) for entry in self.accepted))
