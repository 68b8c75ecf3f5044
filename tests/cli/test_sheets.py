"""Sheets as spreadsheets save them: which are read, and which are refused by which cell."""

import subprocess
import sys
import tempfile
import unittest
from pathlib import Path

from reference.age_basis import convert
from tests.cli.run import DONE, REFUSED, TROUBLE, sample, surroundings, xaropinto
from tests.support.report import run_unit_tests

BOOK = sample("worked_example").read_bytes()
FILES = ("header.csv", "cost_rates.csv", "curve.csv", "mortality.csv", "portfolio.csv")
MARK = b"\xef\xbb\xbf"


def sheets_of(path):
    """The five files of a book, as text by name."""
    with tempfile.TemporaryDirectory() as folder:
        out = Path(folder) / "sheets"
        assert xaropinto("read", path, "-o", out).code == DONE
        return {file: (out / file).read_text(encoding="utf-8") for file in FILES}


PLAIN = sheets_of(sample("worked_example"))


def apart(word, mark):
    """A number with a mark between its thousands."""
    return f"{int(word):,}".replace(",", mark) if word.lstrip("-").isdigit() else word


def each_cell(change):
    """The sheets with every cell below the heading changed."""
    held = {}
    for file, text in PLAIN.items():
        heading, *lines = text.splitlines()
        held[file] = (
            "\n".join([heading, *(",".join(map(change, line.split(","))) for line in lines)]) + "\n"
        )
    return held


def each_text(change):
    """The sheets with every text changed; what comes of it may be bytes."""
    return {file: change(text) for file, text in PLAIN.items()}


def scaled(word, digits):
    """A whole number with a point before its last digits."""
    sign, word = ("-", word[1:]) if word.startswith("-") else ("", word)
    word = word.rjust(digits + 1, "0")
    return f"{sign}{word[:-digits]}.{word[-digits:]}"


def in_other_units():
    """The sheets in percent and francs."""
    digits = {
        "cost_rate_millionths": 4,
        "rate_millionths": 4,
        "men_millionths": 4,
        "women_millionths": 4,
        "lapse_millionths": 4,
        "premium_centimes": 2,
        "claims_centimes": 2,
    }
    held = {}
    for file, text in PLAIN.items():
        heading, *lines = [line.split(",") for line in text.splitlines()]
        rows = [
            [
                scaled(cell, digits[name]) if name in digits else cell
                for name, cell in zip(heading, line)
            ]
            for line in lines
        ]
        named = [
            name.replace("_millionths", "_percent").replace("_centimes", "_francs")
            for name in heading
        ]
        held[file] = "".join(",".join(line) + "\n" for line in [named, *rows])
    return held


class Sheets(unittest.TestCase):
    """In a folder of its own."""

    def setUp(self):
        held = tempfile.TemporaryDirectory()
        self.addCleanup(held.cleanup)
        self.folder = Path(held.name)
        self.out = self.folder / "book"

    def write(self, sheets):
        """What `write` says of sheets, text or bytes, by the names of their files."""
        folder = self.folder / "sheets"
        folder.mkdir(exist_ok=True)
        for file, text in sheets.items():
            (folder / file).write_bytes(text if isinstance(text, bytes) else text.encode())
        return xaropinto("write", folder, "-o", self.out)

    def accept(self, sheets, due=BOOK):
        """The sheets are those of a book."""
        run = self.write(sheets)
        self.assertEqual((run.code, run.errors), (DONE, ""))
        self.assertEqual(self.out.read_bytes(), due)

    def refuse(self, file, old, new, *told):
        """A sheet changed in one place is refused in these words, and nothing is written."""
        self.assertIn(old, PLAIN[file])
        run = self.write({**PLAIN, file: PLAIN[file].replace(old, new, 1)})
        self.assertEqual((run.code, run.out), (REFUSED, b""))
        for words in told:
            self.assertIn(words, run.errors)
        self.assertFalse(self.out.exists())


class Saved(Sheets):
    """As spreadsheets save them."""

    def test_encodings_and_separators(self):
        with_tail = each_text(lambda text: text.replace("\n", ",,,\r\n") + ",,,,\r\n\r\n")
        for sheets in (
            PLAIN,
            with_tail,
            each_text(lambda text: MARK + text.encode()),
            each_text(lambda text: text.replace(",", "\t").replace("\n", "\r\n")),
            each_text(lambda text: text.replace(",", "\t").encode("utf-16")),
            each_text(lambda text: b"\xfe\xff" + text.encode("utf-16-be")),
            each_text(lambda text: "sep=;\r\n" + text.replace(",", ";")),
            each_text(lambda text: "SEP=\t\n" + text.replace(",", "\t")),
            each_text(
                lambda text: "\n".join([text.split("\n", 1)[0].upper(), text.split("\n", 1)[1]])
            ),
        ):
            with self.subTest(start=sheets["header.csv"][:20]):
                self.accept(sheets)

    def test_thousands(self):
        for mark in ("'", "\u2019"):
            self.accept(each_cell(lambda word, mark=mark: apart(word, mark)))
        windows = {
            file: text.encode("cp1252")
            for file, text in each_cell(lambda word: apart(word, "\u2019")).items()
        }
        self.assertIn(b"\x92", windows["portfolio.csv"])
        self.accept(windows)

    def test_lines_are_counted_with_the_separator_line(self):
        sheets = {
            **PLAIN,
            "curve.csv": "sep=,\n" + PLAIN["curve.csv"].replace("\n2,-5000", "\n2,x"),
        }
        self.assertIn("curve.csv, line 4, column rate_millionths: 'x'", self.write(sheets).errors)

    def test_not_text(self):
        for held in ("edition".encode("utf-16-le"), b"field,value\nedition,\x81\n", b"\xff\xfea"):
            run = self.write({**PLAIN, "header.csv": held})
            self.assertEqual(run.code, REFUSED)
            self.assertIn("refused: header.csv, line ", run.errors)
        run = self.write({**PLAIN, "header.csv": "sep=|\nfield|value\n"})
        self.assertIn("separator", run.errors)

    def test_where_a_text_behind_its_mark_ends(self):
        run = self.write({**PLAIN, "header.csv": MARK + b"field,value\n\xffedition,1\n"})
        self.assertIn("refused: header.csv, line 2: \"b'\\\\xff'\"; UTF-8, UTF-16", run.errors)


class Numbers(Sheets):
    """Units by heading, and words that are no number."""

    def test_percent_and_francs(self):
        sheets = in_other_units()
        self.assertIn(
            "lapse_percent,premium_francs,claims_francs\nPG2,men,118,3,7.0001,601.23,304.56\n",
            sheets["portfolio.csv"],
        )
        self.accept(sheets)

    def test_no_whole_number(self):
        for sheet, old, new, column, base in (
            ("portfolio.csv", "7.0001", "7.00011", "lapse_percent", "millionths"),
            ("portfolio.csv", "601.23", "601.2301", "premium_francs", "centimes"),
        ):
            sheets = in_other_units()
            run = self.write({**sheets, sheet: sheets[sheet].replace(old, new)})
            self.assertEqual(run.code, REFUSED)
            self.assertIn(
                f"{sheet}, line 2, column {column}: '{new}'; this is no whole number of {base}",
                run.errors,
            )

    def test_range_in_the_unit(self):
        sheets = in_other_units()
        run = self.write(
            {**sheets, "portfolio.csv": sheets["portfolio.csv"].replace("7.0001", "100.0001")}
        )
        self.assertIn(
            "column lapse_percent: '100.0001'; a number from 0 to 100 percent is due", run.errors
        )

    def test_two_readings(self):
        for word in ("70.001", "1.234", '"70,001"', '"1,5"', '"1\'234,5"'):
            self.refuse(
                "portfolio.csv",
                "118,3,70001",
                f"118,3,{word}",
                "portfolio.csv, line 2, column lapse_millionths: ",
                "read in two ways",
            )
        sheets = in_other_units()
        for word in ("7.125", '"7,0001"'):
            run = self.write(
                {**sheets, "portfolio.csv": sheets["portfolio.csv"].replace("7.0001", word)}
            )
            self.assertEqual(run.code, REFUSED)
            self.assertIn("portfolio.csv, line 2, column lapse_percent: ", run.errors)
            self.assertIn("read in two ways", run.errors)

    def test_no_number(self):
        for word in (
            "7'00",
            "7'0001",
            "'70001",
            "1'000\u2019000",
            "7e4",
            "70001%",
            "+70001",
            "",
            "70001.0",
            "\u0667",
            "0x11",
            "7 0001",
            "9" * 5_000,
        ):
            self.refuse(
                "portfolio.csv",
                "118,3,70001",
                f"118,3,{word}",
                "portfolio.csv, line 2, column lapse_millionths: ",
                "a whole number from 0 to 1,000,000",
            )

    def test_years_and_single_values(self):
        self.refuse("header.csv", "sst_year,2021", "sst_year,2016", "from 2017 to 2100 is due")
        self.refuse("header.csv", "percentage_men,0", "percentage_men,1", "'1'; 0 is due")


class AgeBasis(Sheets):
    """Classes of age basis 2 come in one less, and none is lost."""

    def on_basis_2(self):
        """The sheets with classes of basis 2."""
        heading, *lines = [line.split(",") for line in PLAIN["portfolio.csv"].splitlines()]
        rows = [[*line[:2], str(int(line[2]) + 1), *line[3:]] for line in lines]
        return {
            **PLAIN,
            "portfolio.csv": "".join(",".join(line) + "\n" for line in [heading, *rows]),
            "header.csv": "".join(
                line + "\n"
                for line in (
                    "field,value",
                    "edition,1",
                    "age_basis,2",
                    "sst_year,2021",
                    "mortality_percentage_men,0",
                    "mortality_percentage_women,0",
                )
            ),
        }

    def test_basis_2(self):
        sheets = self.on_basis_2()
        self.assertIn("PG2,men,121,", sheets["portfolio.csv"])
        newer = sample("newer_basis").read_bytes()
        self.accept(sheets, convert(newer, len(newer))[3])

    def test_absent_is_1(self):
        self.assertIn("age_basis,1\n", PLAIN["header.csv"])
        self.accept({**PLAIN, "header.csv": PLAIN["header.csv"].replace("age_basis,1\n", "")})

    def test_class_0_and_121(self):
        sheets = self.on_basis_2()
        run = self.write(
            {**sheets, "portfolio.csv": sheets["portfolio.csv"].replace("men,119", "men,0")}
        )
        self.assertEqual(run.code, REFUSED)
        self.assertIn(
            "column class: '0'; a whole number from 1 to 121 is due: on age basis 2 a class is "
            "SST year - birth year",
            run.errors,
        )
        self.refuse("portfolio.csv", "men,120", "men,121", "column class: '121'", "age_basis is 2")
        sheets["portfolio.csv"] = sheets["portfolio.csv"].replace("men,121", "women,121")
        self.assertIn(
            "class 121 of this chain is missing; a chain goes up to 121", self.write(sheets).errors
        )

    def test_no_other_basis(self):
        self.refuse(
            "header.csv", "age_basis,1", "age_basis,3", "header.csv, line 3, column value: '3'"
        )

    def test_refused_book_names_the_converter(self):
        run = xaropinto("check", sample("newer_basis"))
        self.assertIn("age basis at byte 1 is 2; it must be 1; `xaropinto convert` turns",
                      run.errors)


class Folders(Sheets):
    """`read` writes all five files or none."""

    def setUp(self):
        super().setUp()
        self.target = self.folder / "target"

    def held(self):
        """What stands in the folder, by name."""
        return {path.name: path.read_bytes() for path in self.target.iterdir()}

    def read(self, *more, book="small_insurer"):
        """Read a book into the folder."""
        return xaropinto("read", sample(book), "-o", self.target, *more)

    def test_a_folder_that_holds_anything(self):
        self.assertEqual(self.read(book="worked_example").code, DONE)
        before = self.held()
        run = self.read()
        self.assertEqual((run.code, self.held()), (TROUBLE, before))
        self.assertIn("--replace", run.errors)
        self.assertEqual(self.read("--replace").code, DONE)
        self.assertEqual(
            {name: text.decode() for name, text in self.held().items()},
            sheets_of(sample("small_insurer")),
        )

    def test_an_empty_folder(self):
        self.target.mkdir()
        self.assertEqual(self.read().code, DONE)
        self.assertEqual(sorted(self.held()), sorted(FILES))

    def test_nothing_else_is_destroyed(self):
        self.target.mkdir()
        (self.target / "mine.txt").write_bytes(b"mine")
        run = self.read("--replace")
        self.assertEqual((run.code, self.held()), (TROUBLE, {"mine.txt": b"mine"}))
        self.assertIn("mine.txt", run.errors)

    def test_none_where_one_fails(self):
        for before in (False, True):
            with self.subTest(before=before):
                if before:
                    self.assertEqual(self.read(book="worked_example").code, DONE)
                kept = self.held() if before else None
                # Files of at most 4 blocks: the portfolio does not fit.
                line = [
                    "sh",
                    "-c",
                    'ulimit -f 4; exec "$@"',
                    "sh",
                    sys.executable,
                    "-m",
                    "xaropinto",
                    "read",
                    str(sample("small_insurer")),
                    "-o",
                    str(self.target),
                    *(["--replace"] if before else []),
                ]
                ended = subprocess.run(line, capture_output=True, check=False, env=surroundings())
                self.assertEqual(ended.returncode, TROUBLE, ended.stderr)
                self.assertEqual(
                    self.held() if before else self.target.exists(), kept if before else False
                )
                self.assertEqual(
                    [path.name for path in self.folder.iterdir()], ["target"] if before else []
                )


if __name__ == "__main__":
    sys.exit(run_unit_tests(sys.modules[__name__]))
