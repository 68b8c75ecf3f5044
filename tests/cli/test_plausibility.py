"""Warnings about one book: each on both sides of its threshold, in check, list and on the page."""

import sys
import tempfile
import unittest
from dataclasses import replace
from datetime import date
from pathlib import Path

from reference.book import Cell, Portfolio, make_book, read_values
from reference.layout import CLASSES, RECORD_SIZE, record_start
from reference.practice_book import practice_book
from tests import ROOT
from tests.cli.run import DONE, REFUSED, sample, xaropinto
from tests.fixtures.book_pairs import mortality
from tests.fixtures.insurers import flat_values
from tests.support.report import run_unit_tests

sys.path.insert(0, str(ROOT / "python"))

from xaropinto.plausibility import RULES, Note, notes_of  # noqa: E402

TODAY = date(2026, 11, 17)
GUIDES = sorted((ROOT / "docs").glob("USER_GUIDE*.md"))
PG2_MEN, PG2_WOMEN = 6, 7
PLAIN = Cell(10, 50_000, 200_000, 150_000)


def plain_values():
    """Men and women of PG2, of whom nothing is unusual."""
    values = flat_values(150_000, 10_000, 0)
    values.sst_year, values.mortality = 2026, mortality()
    for chain in (PG2_MEN, PG2_WOMEN):
        values.portfolios[chain] = spread_to(PLAIN, 100)
    return values


def spread_to(cell, oldest):
    """The cell at each class up to an oldest, without contracts above it."""
    empty = cell._replace(count=0)
    return Portfolio(0, tuple(cell if age <= oldest else empty for age in range(CLASSES)))


def with_cells(**amounts):
    """Plain values with other amounts in both chains."""
    values = plain_values()
    for chain in (PG2_MEN, PG2_WOMEN):
        values.portfolios[chain] = spread_to(PLAIN._replace(**amounts), 100)
    return values


def with_mortality(sex, age, rate):
    """Plain values with another mortality of one class."""
    values = plain_values()
    values.mortality[sex][age] = rate
    return values


def with_women_above(classes):
    """Plain values whose women have a higher mortality than men in so many of the classes."""
    men = [min(999_999, rate + 1) for rate in mortality()[0]]
    women = [rate + 1 if age < classes else rate - 1 for age, rate in enumerate(men)]
    return replace(plain_values(), mortality=[men, women])


def with_old_contracts(count):
    """A thousand contracts, so many of them at class 111."""
    values = plain_values()
    for chain, held in ((PG2_MEN, 500), (PG2_WOMEN, 500 - count)):
        cells = [PLAIN._replace(count=0)] * CLASSES
        cells[40] = PLAIN._replace(count=held)
        cells[111] = PLAIN._replace(count=count if chain == PG2_WOMEN else 0)
        values.portfolios[chain] = Portfolio(0, tuple(cells))
    return values


def names_of(values, extra=b"", today=TODAY):
    """The names of the warnings about a book of these values, with records in no chain."""
    book = bytearray(make_book(values) + extra)
    count = (len(book) - record_start(1)) // RECORD_SIZE
    book[4:6] = count.to_bytes(2, "little")
    return [note.name for note in notes_of(bytes(book), today)]


def stray_record(count):
    """A record in no chain."""
    return bytes(8) + count.to_bytes(4, "little") + bytes(12)


class Thresholds(unittest.TestCase):
    """A warning is given just past its threshold, and not at it."""

    def hold(self, name, beyond, at):
        """The one warning beyond, and none at the threshold."""
        self.assertEqual((names_of(beyond), names_of(at)), ([name], []))

    def test_nothing_unusual(self):
        self.assertEqual(names_of(plain_values()), [])

    def test_unlinked_contracts(self):
        for count, due in ((0, []), (1, ["unlinked-contracts"]), (100_000, ["unlinked-contracts"]),
                           (100_001, [])):
            self.assertEqual(names_of(plain_values(), stray_record(count)), due)

    def test_premium_unit(self):
        self.hold("premium-unit", with_cells(premium=4_999, claims=4_000),
                  with_cells(premium=5_000, claims=4_000))
        self.hold("premium-unit", with_cells(premium=5_000_001, claims=4_000_000),
                  with_cells(premium=5_000_000, claims=4_000_000))

    def test_claims_ratio(self):
        self.hold("claims-ratio", with_cells(claims=39_999), with_cells(claims=40_000))
        self.hold("claims-ratio", with_cells(claims=1_000_001), with_cells(claims=1_000_000))

    def test_lapse_unit(self):
        self.hold("lapse-unit", with_cells(lapse=0), with_cells(lapse=1))
        self.hold("lapse-unit", with_cells(lapse=500_001), with_cells(lapse=500_000))

    def test_cost_rate(self):
        self.hold("cost-rate", replace(plain_values(), cost_rates=[500_001, 0, 0, 0, 0]),
                  replace(plain_values(), cost_rates=[500_000] * 5))

    def test_mortality_rise(self):
        for sex in (0, 1):
            before = mortality()[sex][90]
            self.hold("mortality-rise", with_mortality(sex, 100, before),
                      with_mortality(sex, 100, before + 1))
        self.hold("mortality-rise", with_mortality(0, 40, mortality()[0][50]),
                  with_mortality(0, 39, mortality()[0][50]))

    def test_mortality_sexes(self):
        self.hold("mortality-sexes", with_women_above(61), with_women_above(60))

    def test_curve_zero(self):
        self.hold("curve-zero", replace(plain_values(), curve=[0] * 49),
                  replace(plain_values(), curve=[0] * 48 + [1]))

    def test_old_contracts(self):
        self.hold("old-contracts", with_old_contracts(11), with_old_contracts(10))

    def test_one_sex(self):
        for chain in (PG2_MEN, PG2_WOMEN):
            alone, with_one = plain_values(), plain_values()
            alone.portfolios[chain] = spread_to(PLAIN, -1)
            cells = (PLAIN._replace(count=1), *alone.portfolios[chain].cells[1:])
            with_one.portfolios[chain] = Portfolio(0, cells)
            self.hold("one-sex", alone, with_one)

    def test_sst_year(self):
        for year, due in ((2024, ["sst-year"]), (2025, []), (2027, []), (2028, ["sst-year"])):
            self.assertEqual(names_of(replace(plain_values(), sst_year=year)), due)

    def test_no_contracts(self):
        self.assertEqual(names_of(replace(plain_values(), portfolios={})), [])

    def test_every_rule_is_tried_here_and_in_the_guide(self):
        guide = "".join(path.read_text(encoding="utf-8") for path in GUIDES)
        for rule in RULES:
            self.assertTrue(hasattr(self, f"test_{rule.name.replace('-', '_')}"), rule.name)
            self.assertIn(f"| `{rule.name}` | {rule.threshold} | {rule.reason} |", guide)


class Commands(unittest.TestCase):
    """What the verbs say; a warning changes the exit code with --strict alone."""

    def test_small_insurer(self):
        due = ["warning: contracts above class 110: 1'882 of 129'869, 1.4 percent",
               "warning: SST year 2021; today is 2026-11-17"]
        path = sample("small_insurer")
        portfolios = read_values(path.read_bytes()).portfolios.values()
        counted = sum(cell.count for first, cells in portfolios
                      for age, cell in enumerate(cells, start=first) if age > 110)
        self.assertEqual(counted, 1_882)
        with tempfile.TemporaryDirectory() as folder:
            page = Path(folder) / "page.html"
            for verb, more in (("check", ()), ("list", ()), ("page", ("-o", page))):
                for strict, code in (((), DONE), (("--strict",), REFUSED)):
                    run = xaropinto(verb, path, "--today", "2026-11-17", *more, *strict)
                    prefix = f"{path}: " if verb == "check" else ""
                    self.assertEqual((run.code, run.errors.splitlines()),
                                     (code, [prefix + line for line in due]))
            text = page.read_text(encoding="utf-8")
            self.assertIn("<li>SST year 2021; today is 2026-11-17 (sst-year)</li>", text)

    def test_heads_set_to_0(self):
        book, lost = bytearray(sample("small_insurer").read_bytes()), []
        for chain in (2, 3):
            cells = read_values(bytes(book)).portfolios[chain].cells
            lost += [cell.count for cell in cells if cell.count]
            book[8 + 2 * chain:10 + 2 * chain] = bytes(2)
        words = (f"{len(lost)} records with {sum(lost):,} contracts are in no chain"
                 .replace(",", "'"))
        for verb, more in (("check", ()), ("list", ()), ("page", ("-o", "-"))):
            run = xaropinto(verb, "-", "--today", "2021-01-01", *more, sent=bytes(book))
            self.assertIn(f"warning: {words}\n", run.errors)
            if verb == "check":
                self.assertIn(f"accepted {315 - len(lost)}\n".encode(), run.out)
            if verb == "page":
                self.assertIn(f"<li>{words} (unlinked-contracts)</li>".encode(), run.out)

    def test_nothing_unusual_is_strictly_done(self):
        with tempfile.TemporaryDirectory() as folder:
            path = Path(folder) / "plain.book"
            path.write_bytes(make_book(plain_values()))
            run = xaropinto("list", path, "--strict", "--today", "2026-11-17")
            self.assertEqual((run.code, run.errors), (DONE, ""))
            run = xaropinto("list", path, "--strict", "--today", "2030-01-01")
            self.assertEqual(run.code, REFUSED)

    def test_practice_books(self):
        for start in (1, 2, 3):
            found = {note.name for note in notes_of(practice_book(start), date(2021, 6, 1))}
            self.assertLessEqual({"cost-rate", "mortality-rise", "old-contracts"}, found)
            self.assertLessEqual(found, {rule.name for rule in RULES} - {
                "unlinked-contracts", "curve-zero", "one-sex", "sst-year", "claims-ratio"})

    def test_words(self):
        book = make_book(plain_values()) + stray_record(7)
        book = book[:4] + (243).to_bytes(2, "little") + book[6:]
        self.assertEqual(notes_of(book, TODAY),
                         (Note("unlinked-contracts", "1 record with 7 contracts is in no chain"),))


if __name__ == "__main__":
    sys.exit(run_unit_tests(sys.modules[__name__]))
