"""A book as one workbook: there and back, refused cells, and a machine without openpyxl."""

import datetime
import functools
import io
import os
import sys
import tempfile
import unittest
import zipfile
from pathlib import Path

from tests import ROOT
from tests.cli.run import DONE, REFUSED, TROUBLE, sample, surroundings, xaropinto
from tests.support.openpyxl_path import import_openpyxl, openpyxl_folder
from tests.support.report import run_unit_tests

SHEETS = ["header", "cost_rates", "curve", "mortality", "portfolio"]


openpyxl = import_openpyxl()
ENV = surroundings(PYTHONPATH=os.pathsep.join([str(ROOT / "python"), openpyxl_folder()]))


@functools.cache
def worked_example():
    """The workbook of the worked example, as bytes."""
    with tempfile.TemporaryDirectory() as folder:
        path = Path(folder) / "book.xlsx"
        assert xaropinto("read", sample("worked_example"), "-o", path, env=ENV).code == DONE
        return path.read_bytes()


class Workbooks(unittest.TestCase):
    """In a folder of its own, where openpyxl is found."""

    def setUp(self):
        held = tempfile.TemporaryDirectory()
        self.addCleanup(held.cleanup)
        self.folder = Path(held.name)
        self.workbook, self.book = self.folder / "book.xlsx", self.folder / "book"

    def run_verb(self, *words):
        """Run the command with openpyxl."""
        return xaropinto(*words, env=ENV)

    def done(self, *words):
        """A verb that writes a file and reports nothing."""
        self.assertEqual(self.run_verb(*words), (DONE, b"", ""))

    def changed(self, change):
        """What `write` says of the worked example's workbook, changed."""
        held = openpyxl.load_workbook(io.BytesIO(worked_example()))
        change(held)
        held.save(self.workbook)
        return self.run_verb("write", self.workbook, "-o", self.book)

    def refused(self, change, *told):
        """A changed workbook is refused in these words."""
        run = self.changed(change)
        self.assertEqual((run.code, run.out), (REFUSED, b""), run.errors)
        for words in told:
            self.assertIn(words, run.errors)
        self.assertFalse(self.book.exists())


class ThereAndBack(Workbooks):
    """What is read of a book is written to it again."""

    def test_round_trip(self):
        for name in ("one_record", "worked_example", "edition_2", "small_insurer", "full"):
            with self.subTest(name=name):
                sheets, due = self.folder / f"{name}.sheets", self.folder / f"{name}.due"
                self.done("read", sample(name), "-o", sheets)
                self.done("write", sheets, "-o", due)
                self.done("read", due, "-o", self.workbook)
                self.assertTrue(self.workbook.is_file())
                self.done("write", self.workbook, "-o", self.book)
                self.assertEqual(self.book.read_bytes(), due.read_bytes())

    def test_the_sheets_are_the_files(self):
        self.done("read", sample("worked_example"), "-o", self.folder / "sheets")
        held = openpyxl.load_workbook(io.BytesIO(worked_example()))
        self.assertEqual(held.sheetnames, SHEETS)
        for name in SHEETS:
            lines = [",".join(map(str, row)) for row in held[name].iter_rows(values_only=True)]
            self.assertEqual(
                lines, (self.folder / "sheets" / f"{name}.csv").read_text().splitlines()
            )

    def test_text_whole_floats_case_and_order(self):
        def change(book):
            book["portfolio"]["E2"] = "70\u2019001"
            book["portfolio"]["F2"] = 60123.0
            book["portfolio"]["A1"] = "Subgroup"
            book["portfolio"]["J9"] = " "
            book["curve"].title = "other"
            book["other"].title = "Curve"
            book.move_sheet("portfolio", -4)

        run = self.changed(change)
        self.assertEqual((run.code, run.errors), (DONE, ""))
        self.assertEqual(self.book.read_bytes(), sample("worked_example").read_bytes())


class Refused(Workbooks):
    """By the cell, and by the sheet."""

    def test_cells(self):
        for value, words in (
            ("=3+0", "'=3+0'; this is a formula"),
            (True, "this is true or false"),
            (datetime.date(2021, 1, 1), "this is a date"),
            (3.5, "'3.5'; a number in a workbook is whole"),
            ("#N/A", "this is an error"),
            (1e300, "a number in a workbook is whole"),
            ("1.234", "'1.234'; this can be read in two ways"),
            (None, "''; a whole number from 0"),
            (100_001, "'100001'; a whole number from 0 to 100,000"),
        ):
            with self.subTest(value=value):

                def change(book, value=value):
                    book["portfolio"]["D3"] = value

                self.refused(change, "book.xlsx, sheet portfolio, cell D3", words)

    def test_percent_format(self):
        def change(book):
            book["portfolio"]["E2"].number_format = "0.00%"

        self.refused(
            change, "book.xlsx, sheet portfolio, cell E2", "percent can be read in two ways"
        )

    def test_sheets(self):
        self.refused(lambda book: book.remove(book["curve"]), "book.xlsx, sheet curve", "missing")
        self.refused(
            lambda book: book.create_sheet("portfolio 2"),
            "book.xlsx, sheet portfolio 2",
            "the sheets are",
        )

    def test_no_workbook(self):
        for held in (
            b"",
            b"PK\x03\x04",
            worked_example()[:2_000],
            sample("worked_example").read_bytes(),
        ):
            self.workbook.write_bytes(held)
            run = self.run_verb("write", self.workbook, "-o", self.book)
            self.assertEqual((run.code, run.out, run.errors.count("\n")), (TROUBLE, b"", 1),
                             run.errors)
            self.assertIn("book.xlsx: no workbook", run.errors)
        run = self.run_verb("write", sample("worked_example"), "-o", self.book)
        self.assertEqual(run.code, TROUBLE)
        self.assertIn("neither a folder nor a workbook", run.errors)

    def test_too_long_when_unpacked(self):
        held = io.BytesIO()
        with zipfile.ZipFile(held, "w", zipfile.ZIP_DEFLATED) as archive:
            archive.writestr("xl/workbook.xml", bytes(65 * 1024 * 1024))
        self.workbook.write_bytes(held.getvalue())
        run = self.run_verb("write", self.workbook, "-o", self.book)
        self.assertEqual(run.code, TROUBLE)
        self.assertIn("when it is unpacked", run.errors)


class WithoutOpenpyxl(Workbooks):
    """One line says what to install."""

    def test_missing(self):
        self.workbook.write_bytes(worked_example())
        missing = self.folder / "missing"
        missing.mkdir()
        (missing / "openpyxl.py").write_text("raise ModuleNotFoundError('openpyxl')\n")
        env = surroundings(PYTHONPATH=os.pathsep.join([str(missing), str(ROOT / "python")]))
        for words in (
            ("read", sample("worked_example"), "-o", self.folder / "other.xlsx"),
            ("write", self.workbook, "-o", self.book),
        ):
            run = xaropinto(*words, env=env)
            self.assertEqual((run.code, run.out, run.errors.count("\n")), (TROUBLE, b"", 1))
            self.assertIn("pip install 'xaropinto[xlsx]'", run.errors)
            self.assertIn("python3-openpyxl", run.errors)
            self.assertFalse(Path(words[-1]).exists())


if __name__ == "__main__":
    sys.exit(run_unit_tests(sys.modules[__name__]))
