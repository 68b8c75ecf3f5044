"""A book through LibreOffice as it is set up in Switzerland: out as a workbook, saved, in again.

Saved as a workbook, and as separated values that show their thousands apart. It needs
LibreOffice Calc (Debian's package libreoffice-calc) and openpyxl (python3-openpyxl).
"""

import os
import re
import subprocess
import sys
import tempfile
import unittest
from pathlib import Path

from tests import ROOT
from tests.cli.run import DONE, sample, surroundings, xaropinto
from tests.support.openpyxl_path import import_openpyxl, openpyxl_folder
from tests.support.report import run_unit_tests

PROGRAM = "soffice"
MOST_SECONDS = 300
SETTINGS = """<?xml version="1.0" encoding="UTF-8"?>
<oor:items xmlns:oor="http://openoffice.org/2001/registry">
<item oor:path="/org.openoffice.Setup/L10N">
<prop oor:name="ooSetupSystemLocale" oor:op="fuse"><value>de-CH</value></prop>
</item></oor:items>
"""
# Semicolons, UTF-8, German (Switzerland), cells as shown, every sheet in a file of its own.
SEPARATED = "csv:Text - txt - csv (StarCalc):59,34,76,1,,2055,false,true,true,false,false,-1"
ENV = surroundings(PYTHONPATH=os.pathsep.join([str(ROOT / "python"), openpyxl_folder()]))
# As a person lets a spreadsheet show large numbers.
THOUSANDS = "#,##0"


class Spreadsheet(unittest.TestCase):
    """Each sample, in a folder of its own."""

    def setUp(self):
        held = tempfile.TemporaryDirectory()
        self.addCleanup(held.cleanup)
        self.folder = Path(held.name)
        for name in ("profile/user", "saved", "sheets"):
            (self.folder / name).mkdir(parents=True)
        (self.folder / "profile" / "user" / "registrymodifications.xcu").write_text(
            SETTINGS, encoding="utf-8"
        )

    def done(self, *words):
        """A verb that writes a file and reports nothing."""
        self.assertEqual(xaropinto(*words, env=ENV), (DONE, b"", ""))

    def save(self, workbook, kind):
        """Let LibreOffice open a workbook and save it as another kind of file."""
        ended = subprocess.run(
            [
                PROGRAM,
                f"-env:UserInstallation=file://{self.folder}/profile",
                "--headless",
                "--convert-to",
                kind,
                "--outdir",
                str(self.folder / "saved"),
                str(workbook),
            ],
            capture_output=True,
            timeout=MOST_SECONDS,
            check=False,
        )
        self.assertEqual(ended.returncode, 0, ended.stderr)

    def book_and_workbook(self, name):
        """A book in order, and its workbook."""
        first, book, workbook = (
            self.folder / each for each in ("first.xlsx", "due.book", "book.xlsx")
        )
        self.done("read", sample(name), "-o", first)
        self.done("write", first, "-o", book)
        self.done("read", book, "-o", workbook)
        return book, workbook

    def test_workbook(self):
        for name in ("edition_2", "full"):
            with self.subTest(name=name):
                book, workbook = self.book_and_workbook(name)
                self.save(workbook, "xlsx")
                saved = self.folder / "saved" / "book.xlsx"
                self.assertNotEqual(saved.read_bytes(), workbook.read_bytes())
                self.done("write", saved, "-o", self.folder / "again")
                self.assertEqual((self.folder / "again").read_bytes(), book.read_bytes())

    def test_separated_values(self):
        book, workbook = self.book_and_workbook("full")
        held = import_openpyxl().load_workbook(workbook)
        for sheet in held.worksheets:
            for cell in (cell for row in sheet.iter_rows(min_row=2, min_col=2) for cell in row):
                cell.number_format = THOUSANDS
        held.save(workbook)
        self.save(workbook, SEPARATED)
        for path in (self.folder / "saved").glob("book-*.csv"):
            path.rename(self.folder / "sheets" / path.name.removeprefix("book-"))
        shown = (self.folder / "sheets" / "portfolio.csv").read_text(encoding="utf-8")
        self.assertTrue(re.search("[0-9]['\u2019][0-9]{3};", shown), shown[:200])
        self.done("write", self.folder / "sheets", "-o", self.folder / "again")
        self.assertEqual((self.folder / "again").read_bytes(), book.read_bytes())


if __name__ == "__main__":
    sys.exit(run_unit_tests(sys.modules[__name__]))
