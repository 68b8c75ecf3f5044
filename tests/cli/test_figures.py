"""What each verb answers, compared with the reference, on samples and other books."""

import sys
import tempfile
import unittest
from pathlib import Path

from reference.cost_rates import cost_rates
from reference.book import read_values
from reference.standard_deviation import deviation
from reference.funds import FRONT_BYTES, TABLE_BYTES
from reference.layout import CHAINS, GROUPS, LONGEST_BOOK, SEXES, changed, record
from reference.practice_book import practice_book
from reference.valuation import group, listing, totals
from reference.year_report import report_text
from reference.in_force import screen_reply
from reference.claims_variation import spread
from tests.cli.inputs import ACCOUNTS, FACTORS, put_accounts, put_factors
from tests.cli.run import DONE, REFUSED, TROUBLE, sample, without_warnings, xaropinto
from tests.support.report import run_unit_tests

ACCEPTED = ("one_record", "worked_example", "edition_2", "small_insurer", "full")


def bytes_of(name):
    """A sample's bytes."""
    return sample(name).read_bytes()


class OfABook(unittest.TestCase):
    """The verbs that read one book."""

    def answer(self, *words, sent=b""):
        """The text that a verb answers with."""
        run = xaropinto(*words, sent=sent)
        self.assertEqual((run.code, without_warnings(run.errors)), (DONE, []))
        return run.out.decode()

    def test_check(self):
        for name in ACCEPTED:
            n = totals(bytes_of(name))[2]
            self.assertEqual(
                self.answer("check", sample(name)).splitlines()[0], f"{sample(name)}: accepted {n}")

    def test_list(self):
        for name in ACCEPTED:
            self.assertEqual(self.answer("list", sample(name)).encode(), listing(bytes_of(name)))

    def test_years(self):
        for setting in (0, 7):
            self.assertEqual(self.answer("years", sample("small_insurer"), "--setting", setting),
                             as_text(report_text(bytes_of("small_insurer"), setting)))

    def test_group(self):
        for name, each_cell, rest in (("small_insurer", 500, 2_850), ("one_record", 250, 1_425)):
            for number in range(1, len(GROUPS) + 1):
                _, _, liability, n, *_ = group(bytes_of(name), 3, number, 200)
                due = (f"liability {liability} centimes\nn {n}\n"
                       f"distance {each_cell * n + rest} centimes\n")
                self.assertEqual(
                    self.answer("group", sample(name), "--setting", 3, "--group", number), due)

    def test_cell(self):
        for setting, age_class in ((0, 118), (4, 120)):
            run = screen_reply(bytes_of("worked_example"), setting, 4, 0, age_class, 50)[2]
            due = "year,in_force\n" + "".join(f"{k},{each}\n" for k, each in enumerate(run))
            self.assertEqual(
                self.answer("cell", sample("worked_example"), "--setting", setting, "--subgroup",
                            "PG2", "--sex", "men", "--class", age_class), due)

    def test_record(self):
        book = bytes_of("worked_example")
        for number in (1, 2, 3):
            fields = record(number)
            amounts = "".join(f"{field.name.split(', ')[1]} {field.read(book)}\n"
                              for field in fields.amounts)
            due = (f"code {fields.code.read(book)}\nsex {fields.sex.read(book)}\n"
                   f"class {fields.age_class.read(book)}\n"
                   f"next {fields.next.read(book)}\nspare 0 0 0\n{amounts}")
            self.assertEqual(self.answer("record", sample("worked_example"), number), due)

    def test_classes(self):
        for words, wanted in (((), None), (("--group", "PG1"), (1, 2, 3)),
                              (("--group", "PG5", "--sex", "women"), (7, )), (("--sex", "men"),
                                                                              None)):
            counted = [0] * 121
            for chain, (first, cells) in read_values(bytes_of("small_insurer")).portfolios.items():
                people = SEXES[CHAINS[chain].sex]
                sex_wanted = "--sex" not in words or people == words[-1]
                if sex_wanted and (wanted is None or CHAINS[chain].code in wanted):
                    for offset, cell in enumerate(cells):
                        counted[first + offset] += cell.count
            due = "class,contracts\n" + "".join(f"{at},{count}\n"
                                                for at, count in enumerate(counted))
            self.assertEqual(self.answer("classes", sample("small_insurer"), *words), due)

    def test_deviation(self):
        with tempfile.TemporaryDirectory() as folder:
            sheet = Path(folder) / "factors.csv"
            put_factors(sheet)
            due = deviation(bytes_of("small_insurer"), [row[0] for row in FACTORS],
                            [row[1] for row in FACTORS])[2]
            self.assertEqual(self.answer("deviation", sample("small_insurer"), sheet),
                             f"deviation {due} thousand francs\n")


class Books(unittest.TestCase):
    """The verbs that write and read books."""

    def setUp(self):
        held = tempfile.TemporaryDirectory()
        self.addCleanup(held.cleanup)
        self.folder = Path(held.name)

    def done(self, *words, sent=b""):
        """A verb that writes a file and tells nothing."""
        run = xaropinto(*words, sent=sent)
        self.assertEqual(run, (DONE, b"", ""))

    def test_read_and_write(self):
        for name in ACCEPTED:
            sheets, book = self.folder / "sheets", self.folder / "book"
            again = self.folder / "again"
            self.done("read", sample(name), "-o", sheets, "--replace")
            self.done("write", sheets, "-o", book)
            self.assertEqual(totals(book.read_bytes()), totals(bytes_of(name)))
            # What was written is in order: from here on the bytes stay.
            self.done("read", book, "-o", sheets, "--replace")
            self.done("write", sheets, "-o", again)
            self.assertEqual(book.read_bytes(), again.read_bytes())

    def test_sheets_of_a_spreadsheet(self):
        plain, saved = self.folder / "plain", self.folder / "saved"
        self.done("read", sample("worked_example"), "-o", plain)
        saved.mkdir()
        for sheet in plain.iterdir():
            text = sheet.read_text(encoding="utf-8").replace(",", ";").replace("\n",
                                                                               "\r\n") + ";;\r\n"
            (saved / sheet.name).write_bytes(b"\xef\xbb\xbf" + text.encode())
        self.done("write", plain, "-o", self.folder / "one")
        self.done("write", saved, "-o", self.folder / "other")
        self.assertEqual((self.folder / "one").read_bytes(), (self.folder / "other").read_bytes())

    def test_bad_lines(self):
        for file, old, new, words in (("portfolio.csv", "PG2,men,118,", "PG2,men,118x,",
                                       "line 2, column class: '118x'"),
                                      ("portfolio.csv", "PG2,men,119,", "PG2,men,118,",
                                       "line 3, column class: '118'"),
                                      ("portfolio.csv", "PG2,men,119,", "PG9,men,119,",
                                       "line 3, column subgroup: 'PG9'"),
                                      ("curve.csv", "\n2,-5000", "\n2,-10001",
                                       "line 3, column rate_millionths: '-10001'"),
                                      ("cost_rates.csv", "PG3,", "PG4,",
                                       "line 4, column group: 'PG4'"),
                                      ("header.csv", "sst_year,2021", "sst_year,2016",
                                       "line 4, column value: '2016'"),
                                      ("mortality.csv", "class,men", "class,man",
                                       "line 1"), ("mortality.csv", "\n120,", "\n121,",
                                                   "line 122, column class: '121'")):
            with self.subTest(words=words):
                sheets = self.folder / "sheets"
                self.done("read", sample("worked_example"), "-o", sheets, "--replace")
                text = (sheets / file).read_text(encoding="utf-8")
                self.assertIn(old, text)
                (sheets / file).write_text(text.replace(old, new, 1), encoding="utf-8")
                run = xaropinto("write", sheets, "-o", self.folder / "book")
                self.assertEqual((run.code, run.out), (REFUSED, b""))
                self.assertIn(f"{file}, {words}", run.errors)
                self.assertFalse((self.folder / "book").exists())

    def test_convert(self):
        self.done("convert", sample("newer_basis"), "-o", self.folder / "book")
        self.assertEqual((self.folder / "book").read_bytes(), bytes_of("worked_example"))
        run = xaropinto("convert", sample("worked_example"), "-o", self.folder / "other")
        self.assertEqual(run.code, REFUSED)
        self.assertFalse((self.folder / "other").exists())

    def test_practice(self):
        for start in (1, 2**63, 2**64 - 1):
            self.done("practice", start, "-o", self.folder / "book")
            self.assertEqual((self.folder / "book").read_bytes(), practice_book(start))
            self.assertEqual(len(practice_book(start)), LONGEST_BOOK)
        for start, code in ((0, REFUSED), (2**64, TROUBLE), (-1, TROUBLE), ("one", TROUBLE)):
            self.assertEqual(
                xaropinto("practice", "-o", self.folder / "none", "--", start).code, code)
        self.assertFalse((self.folder / "none").exists())

    def test_funds(self):
        book, other = bytes_of("worked_example"), changed(bytes_of("worked_example"),
                                                          (record(1).amounts[0], 7))
        files = {"table": book[FRONT_BYTES:FRONT_BYTES + TABLE_BYTES]}
        for name, each in (("first", book), ("second", other)):
            files[name] = each[:FRONT_BYTES] + each[FRONT_BYTES + TABLE_BYTES:]
        for name, held in files.items():
            (self.folder / name).write_bytes(held)
        paths = [self.folder / name for name in ("table", "first", "second")]
        lines = {
            number:
            [f"{number},{setting},{total},3" for setting, total in enumerate(totals(each)[3])]
            for number, each in ((1, book), (2, other))
        }
        run = xaropinto("funds", *paths)
        self.assertEqual((run.code, run.out.decode().splitlines()),
                         (DONE, ["fund,setting,total,n", *lines[1], *lines[2]]))
        paths[1].write_bytes(b"")
        run = xaropinto("funds", *paths)
        self.assertEqual((run.code, run.out.decode().splitlines()),
                         (REFUSED, ["fund,setting,total,n", *lines[2]]))
        self.assertIn(f"{paths[1]}: refused 1 0", run.errors)

    def test_rates(self):
        sheet = self.folder / "accounts.csv"
        put_accounts(sheet)
        refusal, _, rates = cost_rates(*ACCOUNTS)
        self.assertEqual(refusal, 0)
        run = xaropinto("rates", sheet)
        due = "group,cost_rate_millionths\n" + "".join(f"{name},{rate}\n"
                                                       for name, rate in zip(GROUPS, rates))
        self.assertEqual((run.code, run.out.decode()), (DONE, due))

    def test_spread(self):
        five = (100, 250, 300, 475, 900)
        _, _, _, mean, coefficient = spread(*five, 2.5, 1.3)
        run = xaropinto("spread", *five, "--xi", 2.5, "--eta", 1.3)
        self.assertEqual((run.code, run.out.decode()),
                         (DONE, f"mean {mean!r}\ncoefficient {coefficient!r}\n"))
        run = xaropinto("spread", 8, 8, 8, 8, 8, "--xi", 1, "--eta", 1)
        self.assertEqual((run.code, run.out), (DONE, b"mean 8.0\ncoefficient level\n"))
        self.assertEqual(xaropinto("spread", *five, "--xi", "nan", "--eta", 1).code, REFUSED)


def as_text(held):
    """Text, whichever way the second reading hands it out."""
    return held.decode() if isinstance(held, bytes) else held


if __name__ == "__main__":
    sys.exit(run_unit_tests(sys.modules[__name__]))
