"""The verb age-shift: totals with whole records, or counts alone, one class lower or higher."""

import json
import sys
import tempfile
import unittest
from dataclasses import replace
from pathlib import Path

from reference.book import Portfolio, make_book, read_values
from reference.valuation import totals
from tests.cli.run import DONE, sample, xaropinto
from tests.fixtures.book_pairs import slipped
from tests.support.report import run_unit_tests


def with_counts_moved(book, by):
    """The book whose counts are one class on; those at an end stay, or a chain starts sooner."""
    values = read_values(book)
    for chain, portfolio in values.portfolios.items():
        first, cells = portfolio
        counts = [cell.count for cell in cells]
        if by < 0 and first > 0:
            first, cells, counts = first - 1, (cells[0], *cells), [*counts, 0]
        elif by < 0:
            counts = [counts[0] + counts[1], *counts[2:], 0]
        elif len(counts) > 1:
            counts = [0, *counts[:-2], counts[-2] + counts[-1]]
        moved = [cell._replace(count=count) for cell, count in zip(cells, counts, strict=True)]
        values.portfolios[chain] = Portfolio(first, tuple(moved))
    return make_book(values)


def without_contracts_at_120(book):
    """The book with no contracts at class 120, whose amounts are those of class 119."""
    values = read_values(book)
    for chain, (first, cells) in values.portfolios.items():
        last = cells[-2]._replace(count=0)
        values.portfolios[chain] = Portfolio(first, (*cells[:-1], last))
    return values


def rows_of(text):
    """The two blocks: each a list of numbers by setting; nothing where a cell is empty."""
    blocks = text.strip().split("\n\n")
    found = []
    for block in blocks:
        lines = [line.split(",") for line in block.splitlines()[2:10]]
        found.append([[int(cell) if cell else None for cell in (line[0], *line[2:])]
                      for line in lines])
    return found


class AgeShift(unittest.TestCase):
    """What the verb answers, against the reference implementation."""

    def answer(self, path):
        """The text, and its two blocks."""
        run = xaropinto("age-shift", path)
        self.assertEqual((run.code, run.errors), (DONE, ""))
        return run.out.decode(), rows_of(run.out.decode())

    def test_both_blocks(self):
        for name in ("worked_example", "small_insurer"):
            book = sample(name).read_bytes()
            values, own = read_values(book), totals(book)[3]
            _, blocks = self.answer(sample(name))
            records = [totals(make_book(slipped(values, by)))[3] for by in (-1, 1)]
            counts = [totals(with_counts_moved(book, by))[3] for by in (-1, 1)]
            for block, (lower, higher) in zip(blocks, (records, counts), strict=True):
                self.assertEqual(block, [[at, own[at], lower[at], higher[at], lower[at] - own[at],
                                          higher[at] - own[at]] for at in range(8)])

    def test_opposite_signs_on_the_small_insurer(self):
        text, (records, counts) = self.answer(sample("small_insurer"))
        self.assertEqual((records[0][5], counts[0][5]), (-2_683_459_610, 1_290_631_215))
        self.assertIn("\none_class_higher leaves out 187 contracts of class 120", text)
        self.assertEqual(text.count("leaves out"), 1)

    def test_one_column_shows_the_true_figure_of_a_slipped_book(self):
        values = without_contracts_at_120(sample("small_insurer").read_bytes())
        true = list(totals(make_book(values))[3])
        with tempfile.TemporaryDirectory() as folder:
            for by, column in ((1, 2), (-1, 3)):
                path = Path(folder) / "slipped.book"
                path.write_bytes(make_book(slipped(values, by)))
                _, (records, _) = self.answer(path)
                self.assertEqual([row[column] for row in records], true)
                self.assertNotEqual([row[1] for row in records], true)

    def test_a_direction_that_cannot_be_shown(self):
        text, (records, counts) = self.answer(sample("full"))
        self.assertEqual({(row[2], row[4]) for row in records}, {(None, None)})
        self.assertNotIn(None, [row[3] for row in records])
        self.assertIn("one_class_lower cannot be shown: class 0 of PG1a women would hold 189'698 "
                      "contracts, more than the 100'000 of a record", text)
        self.assertEqual({tuple(row[2:]) for row in counts}, {(None,) * 4})

    def test_at_and_above_the_most_contracts(self):
        values = replace(read_values(sample("worked_example").read_bytes()), portfolios={})
        cell = read_values(sample("worked_example").read_bytes()).portfolios[6].cells[0]
        with tempfile.TemporaryDirectory() as folder:
            for count, shown in ((60_000, True), (60_001, False)):
                cells = (cell._replace(count=40_000), cell._replace(count=count))
                values.portfolios[6] = Portfolio(0, (*cells, *[cell] * 119))
                path = Path(folder) / "one.book"
                path.write_bytes(make_book(values))
                text, (records, _) = self.answer(path)
                self.assertEqual(records[0][2] is not None, shown)
                self.assertEqual("cannot be shown" in text, not shown)

    def test_json(self):
        run = xaropinto("age-shift", sample("full"), "--json")
        answer = json.loads(run.out)["results"][0]["answer"]
        _, (records, _) = self.answer(sample("full"))
        self.assertEqual(answer["totals"], [row[1] for row in records])
        self.assertEqual(answer["records"]["higher"]["totals"], [row[3] for row in records])
        self.assertIsNone(answer["records"]["lower"]["totals"])


if __name__ == "__main__":
    sys.exit(run_unit_tests(sys.modules[__name__]))
