"""A refusal in words: those of its call, the chain that is read, the cell that is at fault."""

import random
import sys
import tempfile
import unittest
from collections import Counter
from pathlib import Path

from reference.layout import CHAINS, RECORD_COUNT, changed, record
from tests import ROOT
from tests.cli.inputs import ACCOUNTS, FACTORS, accounts_text, factors_text
from tests.cli.run import REFUSED, SAMPLES, sample, xaropinto
from tests.support.report import run_unit_tests

sys.path.insert(0, str(ROOT / "python"))

from xaropinto import answers  # noqa: E402
from xaropinto.layout import CHAINS as NAMES  # noqa: E402

WORKED, NEWER = sample("worked_example").read_bytes(), sample("newer_basis").read_bytes()
PG1A_MEN, PG2_WOMEN = CHAINS[0].head, CHAINS[7].head


class OfABook(unittest.TestCase):
    """Chains of three records, PG2 men of classes 118 to 120."""

    def refused(self, verb, book, refusal, *told):
        """What a verb says of a book on standard input."""
        more = ("-o", "/dev/null") if verb == "convert" else ()
        run = xaropinto(verb, "-", *more, sent=book)
        self.assertEqual(run.code, REFUSED)
        self.assertIn(f"refused {refusal}\n", run.out.decode() if verb == "check" else run.errors)
        for words in told:
            self.assertIn(words, run.errors)
        return run.errors

    def test_head_into_another_chain(self):
        for head, name, byte, words in (
            (PG1A_MEN, "PG1a men", 8, "subgroup code at byte 1,244 is 4 (PG2); it must be 1"),
            (PG2_WOMEN, "PG2 women", 22, "sex at byte 1,245 is 0; it must be 1"),
        ):
            self.refused(
                "check",
                changed(WORKED, (head, 2)),
                "10 1244",
                f"{name}, record 2, class 119: head of {name} at byte {byte} leads here; {words}",
            )

    def test_next_into_another_chain(self):
        book = changed(WORKED, (record(2).code, 1), (record(2).age_class, 119), (PG1A_MEN, 2))
        # PG1a men is record 2, whose next is record 3, which is PG2's.
        self.refused(
            "check",
            book,
            "10 1268",
            "PG1a men, record 3, class 120: next of record 2 at byte 1,248 leads here; "
            "subgroup code at byte 1,268 is 4 (PG2); it must be 1",
        )

    def test_the_chain_that_is_named_is_the_one_at_fault(self):
        draw, book, refused = random.Random(36), sample("small_insurer").read_bytes(), Counter()
        count = RECORD_COUNT.read(book)
        links = [chain.head for chain in CHAINS] + [record(at).next for at in range(1, count + 1)]
        for _ in range(600):
            damaged = changed(book, (draw.choice(links), draw.randint(1, count)))
            try:
                answers.check(damaged)
            except answers.RefusedError as found:
                named = NAMES.index(found.words.split(",")[0])
                refused[found.number] += 1
                # One head or next is wrong: without its chain the proved check accepts the book.
                answers.check(changed(damaged, (CHAINS[named].head, 0)))
        self.assertGreater(min(refused[number] for number in (10, 11, 13)), 5)

    def test_class_that_was_due(self):
        self.refused(
            "check",
            changed(WORKED, (record(2).age_class, 117)),
            "11 1246",
            "PG2 men, record 2, class 117: the class at byte 1,246 is 117; 119 was due after "
            "record 1, whose next at byte 1,224 leads here",
        )
        self.refused(
            "check",
            changed(WORKED, (record(1).age_class, 121)),
            "11 1222",
            "the class at byte 1,222 is 121; a first class is at most 120",
        )

    def test_loops(self):
        self.refused(
            "check",
            changed(WORKED, (record(2).next, 1)),
            "11 1222",
            "PG2 men, record 1, class 118: the chain is "
            "a loop: next of record 2 at byte 1,248 leads back here; 120 was due after record 2",
        )
        self.refused(
            "check",
            changed(WORKED, (record(1).next, 1)),
            "11 1222",
            "the chain is a loop: next of record 1 at "
            "byte 1,224 leads back here; 119 was due after record 1",
        )
        self.refused(
            "check",
            changed(WORKED, (record(3).next, 2)),
            "13 1272",
            "next at byte 1,272 is 2; it must be 0 at class 120: the chain is a loop",
        )

    def test_end(self):
        self.refused(
            "check",
            changed(WORKED, (record(2).next, 0)),
            "13 1248",
            "next at byte 1,248 is 0; the chain must go on up to class 120",
            "rule: a chain ends at class 120 and nowhere else;",
        )

    def test_age_basis(self):
        told = self.refused(
            "check",
            NEWER,
            "3 1",
            "age basis at byte 1 is 2; it must be 1; `xaropinto convert` turns",
            "rule: the age basis is 1;",
        )
        self.assertNotIn("it must be 2", told)
        self.assertNotIn("convert", self.refused("check", NEWER[:1] + b"\7" + NEWER[2:], "3 1"))

    def test_convert(self):
        told = self.refused(
            "convert",
            WORKED,
            "3 1",
            "age basis at byte 1 is 1; it must be 2",
            "rule: the age basis of a book to convert is 2;",
        )
        self.assertNotIn("must be 1", told)
        self.refused(
            "convert",
            changed(NEWER, (record(1).age_class, 122)),
            "11 1222",
            "the class at byte 1,222 is 122; a first class is at most 121",
            "rule: a chain's first class is at most 121 on age basis 2, each later class one more;",
        )
        self.refused(
            "convert",
            changed(NEWER, (record(2).age_class, 119)),
            "11 1246",
            "the class at byte 1,246 is 119; 120 was due after record 1",
        )
        told = self.refused(
            "convert",
            changed(NEWER, (record(2).next, 0)),
            "13 1248",
            "the chain must go on up to class 121",
            "rule: a chain ends at class 121 on age basis 2 and nowhere else;",
        )
        self.assertNotIn("class 120 and", told)

    def test_write(self):
        values = answers.read(WORKED)
        for changed_values, number, rule in (
            (
                values._replace(year=2016),
                4,
                "the SST year is 2017 to 2100, and in edition 1 both mortality "
                "percentages are 0",
            ),
            (
                values._replace(
                    chains=(values.chains[0]._replace(first_class=122), *values.chains[1:])
                ),
                11,
                "a chain's first class is at most 120, or 121 where it has no records",
            ),
        ):
            with self.assertRaises(answers.RefusedError) as caught:
                answers.write(changed_values)
            self.assertEqual(
                (caught.exception.number, caught.exception.words.split("; ")[0]),
                (number, f"rule: {rule}"),
            )

    def test_record(self):
        run = xaropinto("record", sample("worked_example"), 4)
        self.assertIn("refused 9 0\n", run.errors)
        self.assertIn(
            "rule: the number of a record is 1 to the book's number of records; owner: the caller",
            run.errors,
        )


class OfASheet(unittest.TestCase):
    """Cells that the proved call shows to be at fault."""

    def setUp(self):
        held = tempfile.TemporaryDirectory()
        self.addCleanup(held.cleanup)
        self.sheet = Path(held.name) / "sheet.csv"

    def refused(self, text, number, *words):
        """What `rates` or `deviation` says of a sheet."""
        self.sheet.write_text(text, encoding="utf-8")
        line = (
            ("rates", self.sheet)
            if text.startswith("year")
            else ("deviation", sample("small_insurer"), self.sheet)
        )
        run = xaropinto(*line)
        self.assertEqual((run.code, run.out), (REFUSED, b""))
        self.assertIn(f"refused {number} 0\n", run.errors)
        for each in words:
            self.assertIn(each, run.errors)
        return run.errors

    def accounts(self, **put):
        """The accounts with some figures changed: kind_year_group."""
        kinds = dict(
            zip(
                ("expenses", "stock", "claims", "premium"),
                (
                    [*map(list, rows)] if rows is not ACCOUNTS[0] else list(rows)
                    for rows in ACCOUNTS
                ),
            )
        )
        for name, number in put.items():
            kind, year, *group = name.split("_")
            if group:
                kinds[kind][int(year) - 1][int(group[0]) - 1] = number
            else:
                kinds[kind][int(year) - 1] = number
        return accounts_text(tuple(kinds.values()))

    def test_amounts_too_large(self):
        told = self.refused(
            self.accounts(claims_2_4=1_000_000_001),
            17,
            "sheet.csv, line 10, column claims_francs: " "'1000000001'; rule: ",
        )
        self.assertEqual(told.count("sheet.csv"), 1)
        told = self.refused(
            self.accounts(expenses_3=2**63, stock_1_1=10_000_001),
            17,
            "sheet.csv, line 2, column stock_contracts: '10000001'; sheet.csv, line 12, column "
            "expenses_francs: '9223372036854775808'; rule: ",
        )
        self.assertEqual(told.count("sheet.csv"), 2)

    def test_no_premium(self):
        told = self.refused(
            self.accounts(premium_2_2=0), 18, "sheet.csv, line 8, column premium_francs: '0'"
        )
        self.assertEqual(told.count("sheet.csv"), 1)
        told = self.refused(
            self.accounts(stock_1_3=1), 18, "sheet.csv, line 4, column stock_contracts: '1'"
        )
        self.assertEqual(told.count("sheet.csv"), 1)

    def test_no_stock_in_a_year(self):
        told = self.refused(
            self.accounts(**{f"stock_3_{group}": 0 for group in range(1, 6)}),
            18,
            "one of these cells",
        )
        self.assertEqual(told.count("column stock_contracts"), 4)

    def test_rate_too_high(self):
        told = self.refused(
            self.accounts(expenses_2=1_000_000_000),
            19,
            "sheet.csv, line 7, column expenses_francs: '1000000000'",
        )
        self.assertEqual(told.count("sheet.csv"), 1)
        told = self.refused(
            self.accounts(premium_3_1=9), 19, "sheet.csv, line 12, column premium_francs: '9'"
        )
        self.assertEqual(told.count("sheet.csv"), 1)
        # All years alike: no one cell is at fault.
        told = self.refused(
            self.accounts(expenses_1=90_000_000, expenses_2=90_000_000, expenses_3=90_000_000), 19
        )
        self.assertNotIn("sheet.csv", told)

    def test_factors(self):
        held = [[coefficient, *row] for coefficient, row in FACTORS]
        for row, column, number, name in (
            (2, 0, 1_000_001, "coefficient_millionths"),
            (1, 2, 999, "lapse_thousandths"),
            (0, 1, 2**40, "mortality_thousandths"),
        ):
            rows = [list(each) for each in held]
            rows[row][column] = number
            told = self.refused(
                factors_text(rows),
                29,
                f"sheet.csv, line {row + 2}, column {name}: '{number}'; rule: ",
            )
            self.assertEqual(told.count("sheet.csv"), 1)
        rows = [list(each) for each in held]
        rows[3][2] = -299
        told = self.refused(
            factors_text(rows),
            29,
            "sheet.csv, line 3, column claims_thousandths: '-300'; sheet.csv, "
            "line 5, column lapse_thousandths: '-299'; rule: ",
        )
        self.assertEqual(told.count("sheet.csv"), 2)

    def test_samples(self):
        for name, line in (
            ("accounts.csv", ("rates", SAMPLES / "accounts.csv")),
            ("factors.csv", ("deviation", sample("small_insurer"), SAMPLES / "factors.csv")),
        ):
            run = xaropinto(*line)
            self.assertEqual((name, run.code, run.errors), (name, 0, ""))


if __name__ == "__main__":
    sys.exit(run_unit_tests(sys.modules[__name__]))
