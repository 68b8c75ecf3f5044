"""The verb check: verdicts in order, what a person sees of a book, every fault of a file; and the
record of a refused book, names of product groups, and what help says is proved."""

import csv
import io
import random
import sys
import tempfile
import unittest
from fractions import Fraction
from pathlib import Path

from reference.book import read_values
from reference.check import check
from reference.layout import (
    CHAINS,
    COST_RATES,
    CURVE,
    EDITION,
    GROUPS,
    MORTALITY,
    SST_YEAR,
    changed,
    record,
)
from reference.valuation import totals
from tests import ROOT
from tests.cli.run import DONE, REFUSED, TROUBLE, sample, xaropinto
from tests.fixtures.damage import damaged
from tests.support.report import run_unit_tests

INSURER = sample("small_insurer").read_bytes()
ACCEPTED, BROKEN = sample("worked_example"), sample("lapse_too_large")
COUNT, LAPSE, PREMIUM, CLAIMS = range(4)
PG2_MEN = 6
BOOKS = 120


def records_of(book, chain):
    """The numbers of a chain's records, from its head on."""
    number, found = CHAINS[chain].head.read(book), []
    while number:
        found.append(number)
        number = record(number).next.read(book)
    return found


def two_decimals(number):
    """A number as people read it, halves up."""
    hundredths = int(number * 100 + Fraction(1, 2))
    return f"{hundredths // 100:,}.{hundredths % 100:02}".replace(",", "'")


class Verdicts(unittest.TestCase):
    """What is on standard output, and what beside."""

    def test_in_the_order_given(self):
        run = xaropinto("check", BROKEN, ACCEPTED, "/nowhere", BROKEN, sample("one_record"))
        verdicts = [line for line in run.out.decode().splitlines() if ": PG" not in line]
        self.assertEqual(
            verdicts,
            [
                f"{BROKEN}: refused 12 1232",
                f"{ACCEPTED}: accepted 3",
                f"{BROKEN}: refused 12 1232",
                f"{sample('one_record')}: accepted 1",
            ],
        )
        self.assertEqual(run.code, TROUBLE)
        self.assertEqual(run.errors.count("lapse at byte 1,232 is 1,000,001"), 2)
        self.assertIn("xaropinto: /nowhere: No such file", run.errors)

    def test_unlinked_records_with_contracts(self):
        lost = [chain for chain in range(len(CHAINS)) if CHAINS[chain].head.read(INSURER)][:2]
        counts = [
            cell.count for chain in lost for cell in read_values(INSURER).portfolios[chain].cells
        ]
        records, contracts = sum(count > 0 for count in counts), sum(counts)
        book = changed(INSURER, *((CHAINS[chain].head, 0) for chain in lost))
        words = f"{records} records with {contracts:,} contracts are in no chain".replace(",", "'")
        n, by_setting = totals(book)[2:4]
        run = xaropinto("check", "-", sent=book)
        self.assertEqual((run.code, run.out.decode().splitlines()[0]), (DONE, f"-: accepted {n}"))
        self.assertIn(f"-: warning: {words}\n", run.errors)
        run = xaropinto("list", "-", sent=book)
        self.assertEqual(
            (run.code, run.out.decode().splitlines()[0]), (DONE, f"0 {by_setting[0]} {n}")
        )
        self.assertIn(words, run.errors)
        self.assertNotIn("in no chain", xaropinto("list", sample("worked_example")).errors)
        self.assertEqual(xaropinto("list", "-", "--strict", sent=book).code, REFUSED)

    def test_product_groups(self):
        run = xaropinto("check", sample("one_record"))
        self.assertIn(
            "PG2: 10 contracts, mean premium 1'000.00 francs, mean claims 800.00 francs, "
            "mean lapse 0.00 percent\n",
            run.out.decode(),
        )
        lines = xaropinto("check", sample("small_insurer")).out.decode().splitlines()[1:]
        self.assertEqual(
            lines, [f"{sample('small_insurer')}: {self.group_line(name)}" for name in GROUPS]
        )

    def group_line(self, name):
        """A product group's line by the reference."""
        cells = [
            cell
            for chain, portfolio in read_values(INSURER).portfolios.items()
            if ("PG1", "PG1", "PG1", "PG2", "PG3", "PG4", "PG5")[CHAINS[chain].code - 1] == name
            for cell in portfolio.cells
        ]
        contracts = sum(cell.count for cell in cells)
        premium, claims, lapse = (
            Fraction(sum(cell.count * cell[at] for cell in cells), contracts)
            for at in (PREMIUM, CLAIMS, LAPSE)
        )
        shown = f"{contracts:,}".replace(",", "'")
        return (
            f"{name}: {shown} contracts, mean premium {two_decimals(premium / 100)} francs, "
            f"mean claims {two_decimals(claims / 100)} francs, "
            f"mean lapse {two_decimals(lapse / 10_000)} percent"
        )


class AllFaults(unittest.TestCase):
    """`check --all`."""

    def found(self, book):
        """Number and place of every fault, by the comma-separated lines."""
        run = xaropinto("check", "--all", "--csv", "-", sent=book)
        rows = list(csv.reader(io.StringIO(run.out.decode())))
        self.assertEqual(rows[0], ["file", "number", "place", "owner", "words"])
        self.assertEqual(run.code, REFUSED if rows[1:] else DONE)
        self.assertTrue(all(len(row) == 5 and row[3] and row[4] for row in rows))
        return [(int(row[1]), int(row[2])) for row in rows[1:]]

    def test_planted_faults(self):
        one, other = records_of(INSURER, 2), records_of(INSURER, PG2_MEN)
        fields = [
            (SST_YEAR, 2016, 4),
            (COST_RATES[1], 1_000_001, 6),
            (CURVE[3], 200_001, 7),
            (MORTALITY[7], 1_000_001, 8),
            (MORTALITY[130], 2**32 - 1, 8),
            (record(one[3]).age_class, 7, 11),
            (record(one[9]).amounts[COUNT], 100_001, 12),
            (record(one[9]).amounts[LAPSE], 2**31, 12),
            (record(other[0]).amounts[CLAIMS], 10_000_001, 12),
        ]
        book = changed(INSURER, *((field, number) for field, number, _ in fields))
        self.assertEqual(self.found(book), [(number, field.offset) for field, _, number in fields])
        self.assertEqual(self.found(INSURER), [])

    def test_behind_a_broken_chain(self):
        chain = records_of(INSURER, PG2_MEN)
        book = changed(
            INSURER,
            (record(chain[4]).next, chain[6]),
            (record(chain[9]).amounts[PREMIUM], 10_000_001),
        )
        due = [
            (11, record(chain[6]).age_class.offset),
            (12, record(chain[9]).amounts[PREMIUM].offset),
        ]
        self.assertEqual(self.found(book), due)
        loop = changed(INSURER, (record(chain[6]).next, chain[2]))
        self.assertEqual(self.found(loop), [(11, record(chain[2]).age_class.offset)])
        early = changed(INSURER, (record(chain[6]).next, 0), (CHAINS[1].head, 65_535))
        self.assertEqual(
            self.found(early), [(9, CHAINS[1].head.offset), (13, record(chain[6]).next.offset)]
        )

    def test_a_record_of_another_chain(self):
        men, women = records_of(INSURER, PG2_MEN), records_of(INSURER, PG2_MEN + 1)
        crossing = changed(INSURER, (record(men[4]).next, women[5]))
        self.assertEqual(self.found(crossing), [(10, record(women[5]).code.offset)])
        wrong = changed(INSURER, (record(men[4]).code, 7), (record(men[5]).sex, 1))
        self.assertEqual(
            self.found(wrong), [(10, record(men[4]).code.offset), (10, record(men[5]).code.offset)]
        )

    def test_age_basis_2(self):
        newer = changed(sample("newer_basis").read_bytes(), (record(2).amounts[LAPSE], 1_000_001))
        self.assertEqual(self.found(newer), [(3, 1), (12, record(2).amounts[LAPSE].offset)])

    def test_lengths(self):
        self.assertEqual(self.found(INSURER[:1_219]), [(1, 1_219)])
        self.assertEqual(self.found(INSURER + b"more")[0], (5, len(INSURER) + 4))

    def test_lines(self):
        book = changed(INSURER, (EDITION, 9), (COST_RATES[0], 1_000_001))
        run = xaropinto("check", "--all", "-", ACCEPTED, sent=book)
        lines = run.out.decode().splitlines()
        self.assertEqual(lines[0], "-: refused 2 0")
        self.assertTrue(lines[1].startswith("-: 2 0: edition at byte 0 is 9"), lines[1])
        self.assertTrue(
            lines[2].startswith("-: 6 36: cost rate of PG1 at byte 36 is 1,000,001"), lines[2]
        )
        self.assertEqual((run.code, lines[3]), (REFUSED, f"{ACCEPTED}: accepted 3"))
        self.assertIn("-: 2 faults; each after the first is one of a copy", run.errors)
        self.assertEqual(xaropinto("check", "--csv", ACCEPTED).code, TROUBLE)

    def test_random_damage(self):
        """The search ends, and its first fault is the reference's."""
        sys.path.insert(0, str(ROOT / "python"))
        from xaropinto.faults import all_faults

        chooser, seen = random.Random(36), set()
        for _ in range(BOOKS):
            book = INSURER
            for _ in range(chooser.choice((1, 2, 30))):
                book = damaged(book, chooser)
            faults = all_faults(book)
            verdict = check(book)
            self.assertEqual(
                [fault[:2] for fault in faults.found[:1]],
                [verdict[1:]] if len(verdict) == 3 else [],
            )
            self.assertTrue(faults.complete or faults.found[-1].number == 1)
            seen |= {fault.number for fault in faults.found}
        self.assertLessEqual({1, 2, 3, 4, 5, 6, 7, 8, 9, 10, 11, 12, 13}, seen)


class Records(unittest.TestCase):
    """`record` of a refused book."""

    def test_not_checked(self):
        held = record(1)
        run = xaropinto("record", BROKEN, 1)
        lines = run.out.decode().splitlines()
        self.assertEqual(
            (run.code, lines[0]), (REFUSED, "not checked: the book is refused 12 1232")
        )
        book = BROKEN.read_bytes()
        self.assertEqual(lines[1], f"bytes {book[held.code.offset:held.code.offset + 24].hex(' ')}")
        self.assertIn("lapse 1000001", lines)
        self.assertIn("refused 12 1232", run.errors)

    def test_not_in_the_file(self):
        for number in (0, 2, 2**63):
            run = xaropinto("record", BROKEN, number)
            self.assertEqual((run.code, run.out), (TROUBLE, b""))
        self.assertEqual(xaropinto("record", ACCEPTED, 4).code, REFUSED)


class OneSpelling(unittest.TestCase):
    """A product group by name or number; numbers as people write them."""

    def test_product_groups(self):
        words = ("group", sample("small_insurer"), "--setting", 0, "--group")
        by_number = xaropinto(*words, 2)
        self.assertEqual(by_number.code, DONE)
        for spelling in ("PG2", "pg2", "2"):
            self.assertEqual(xaropinto(*words, spelling), by_number)
            self.assertEqual(
                xaropinto("classes", sample("small_insurer"), "--group", spelling),
                xaropinto("classes", sample("small_insurer"), "--group", "PG2"),
            )
        self.assertEqual(xaropinto(*words, 6).code, REFUSED)
        for verb in (words, ("classes", sample("small_insurer"), "--group")):
            self.assertEqual(xaropinto(*verb, "PG6").code, TROUBLE)

    def test_years_and_ranges(self):
        for year in (2016, 2101, 9_999):
            run = xaropinto("check", "-", sent=changed(INSURER, (SST_YEAR, year)))
            self.assertIn(f"SST year at byte 2 is {year}; it must be 2017 to 2100;", run.errors)
        with tempfile.TemporaryDirectory() as folder:
            sheets = Path(folder) / "sheets"
            self.assertEqual(xaropinto("read", ACCEPTED, "-o", sheets).code, DONE)
            header = sheets / "header.csv"
            text = header.read_text(encoding="utf-8")
            for old, new, rule in (
                ("sst_year,2021", "sst_year,2016", "2017 to 2100"),
                ("mortality_percentage_men,0", "mortality_percentage_men,80", "0"),
            ):
                self.assertIn(old, text)
                header.write_text(text.replace(old, new), encoding="utf-8")
                run = xaropinto("write", sheets, "-o", Path(folder) / "book")
                self.assertEqual(run.code, REFUSED)
                self.assertIn(rule, run.errors)
                self.assertNotIn("0 to 0", run.errors)
                self.assertNotIn("2,0", run.errors)


class Help(unittest.TestCase):
    """What is proved, and what is not."""

    def test_what_is_proved(self):
        own = ("contracts by class", "means of product groups", "distances", "words", "charts")
        for text in (
            xaropinto("--help").out.decode(),
            (ROOT / "packaging" / "xaropinto.1").read_text(),
        ):
            flat = " ".join(text.split())
            self.assertIn("come from proved calls", flat)
            proved, _, rest = flat.partition("come from proved calls")
            self.assertIn("Not proved", rest)
            for each in own:
                self.assertIn(each, rest.partition("Not proved")[2])
        package = (ROOT / "python" / "xaropinto" / "__init__.py").read_text(encoding="utf-8")
        self.assertNotIn("Every figure comes from a proved call", package)
        self.assertIn("tested and not proved", " ".join(package.split()))


if __name__ == "__main__":
    sys.exit(run_unit_tests(sys.modules[__name__]))
