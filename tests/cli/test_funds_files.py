"""A book split into table file and fund file; two funds refused in places of their files."""

import sys
import tempfile
import unittest
from pathlib import Path

from reference.funds import FRONT_BYTES, TABLE_BYTES
from reference.layout import changed, record
from reference.valuation import totals
from tests.cli.run import DONE, REFUSED, TROUBLE, sample, xaropinto
from tests.support.report import run_unit_tests

BOOK = sample("worked_example").read_bytes()
TABLE = BOOK[FRONT_BYTES:FRONT_BYTES + TABLE_BYTES]
FUND = BOOK[:FRONT_BYTES] + BOOK[FRONT_BYTES + TABLE_BYTES:]


class Files(unittest.TestCase):
    """In a folder of its own."""

    def setUp(self):
        held = tempfile.TemporaryDirectory()
        self.addCleanup(held.cleanup)
        self.folder = Path(held.name)


class Split(Files):
    """The verb `split`."""

    def test_split_and_funds(self):
        first, second = self.folder / "first", self.folder / "second"
        for name, out in (("worked_example", first), ("one_record", second)):
            self.assertEqual(xaropinto("split", sample(name), "-o", out), (DONE, b"", ""))
            table, fund = (out / "table").read_bytes(), (out / "fund").read_bytes()
            self.assertEqual(
                fund[:FRONT_BYTES] + table + fund[FRONT_BYTES:], sample(name).read_bytes()
            )
            self.assertEqual(len(table), TABLE_BYTES)
        run = xaropinto("funds", first / "table", first / "fund", first / "fund")
        lines = [
            f"{number},{setting},{total},3"
            for number in (1, 2)
            for setting, total in enumerate(totals(BOOK)[3])
        ]
        self.assertEqual((run.code, run.out.decode().splitlines()[1:]), (DONE, lines))

    def test_refused_and_held(self):
        out = self.folder / "out"
        self.assertEqual(xaropinto("split", sample("lapse_too_large"), "-o", out).code, REFUSED)
        self.assertFalse(out.exists())
        out.mkdir()
        (out / "fund").write_bytes(b"mine")
        self.assertEqual(xaropinto("split", sample("one_record"), "-o", out).code, TROUBLE)
        self.assertEqual((out / "fund").read_bytes(), b"mine")
        self.assertEqual(
            xaropinto("split", sample("one_record"), "-o", out, "--replace").code, DONE
        )


class Refused(Files):
    """Places and lengths are those of the file that is named."""

    def errors(self, table, first, second=FUND):
        """What is reported of two funds, with the files by their names."""
        for name, held in (("table", table), ("first", first), ("second", second)):
            (self.folder / name).write_bytes(held)
        run = xaropinto("funds", *(self.folder / name for name in ("table", "first", "second")))
        self.assertEqual(run.code, REFUSED)
        return run.errors.replace(f"{self.folder}/", "")

    def test_a_record(self):
        bad = changed(BOOK, (record(1).amounts[1], 1_000_001))
        errors = self.errors(TABLE, bad[:FRONT_BYTES] + bad[FRONT_BYTES + TABLE_BYTES:])
        self.assertIn("first: refused 12 68\n", errors)
        self.assertIn("lapse at byte 68 of the fund file is 1,000,001", errors)
        self.assertNotIn("1,232", errors)

    def test_header_and_chain(self):
        self.assertIn(
            "first: refused 4 2\nfirst: SST year at byte 2 of the fund file is 2016",
            self.errors(TABLE, FUND[:2] + (2016).to_bytes(2, "little") + FUND[4:]),
        )
        # The head of PG1a men leads to PG2's record.
        errors = self.errors(TABLE, FUND[:8] + b"\1\0" + FUND[10:])
        self.assertIn("first: refused 10 56\n", errors)
        self.assertIn(
            "head of PG1a men at byte 8 of the fund file leads here; subgroup code at byte 56 of "
            "the fund file is 4",
            errors,
        )

    def test_the_table_file(self):
        errors = self.errors(TABLE[:196] + (1_000_001).to_bytes(4, "little") + TABLE[200:], FUND)
        self.assertEqual(errors.count("refused 8 196"), 1)
        self.assertIn(
            "table: refused 8 196\ntable: mortality of men, class 0 at byte 196 of the table file",
            errors,
        )
        for held, length in ((TABLE[:-1], "1,163"), (BOOK, f"{len(BOOK):,}"), (b"", "0")):
            errors = self.errors(held, FUND)
            self.assertEqual(errors.count("table: refused 24 0\n"), 1)
            self.assertIn(f"table: the table file has {length} bytes", errors)

    def test_lengths(self):
        errors = self.errors(TABLE, FUND + b"\0")
        self.assertIn(
            f"first: refused 5 {len(FUND) + 1}\nfirst: the fund file has {len(FUND) + 1} bytes, "
            f"and its 3 records ask for {len(FUND)};",
            errors,
        )
        self.assertIn("rule: the length of a fund file is 56 bytes and 24 for each record", errors)
        errors = self.errors(TABLE, FUND, FUND[:55])
        self.assertIn(
            "second: refused 1 55\nsecond: the fund file has 55 bytes; rule: a fund file has at "
            "least 56 bytes",
            errors,
        )
        self.assertIn(
            "no fund file at all: it looks like a PDF", self.errors(TABLE, b"%PDF" + FUND[4:40])
        )


if __name__ == "__main__":
    sys.exit(run_unit_tests(sys.modules[__name__]))
