"""Exit codes and outputs of every verb: what is done, refused, not there, a folder, closed, full;
and wrong words."""

import subprocess
import sys
import tempfile
import unittest
from pathlib import Path
from typing import NamedTuple, Optional

from reference.funds import FRONT_BYTES, TABLE_BYTES
from tests import ROOT
from tests.cli.inputs import put_accounts, put_factors
from tests.cli.run import DONE, REFUSED, TROUBLE, sample, surroundings, without_warnings, xaropinto
from tests.support.report import run_unit_tests

ACCEPTED, BROKEN = sample("worked_example"), sample("lapse_too_large")
INPUT, OUT = "INPUT", "OUT"
# The verbs that report warnings; and what those write first that answer on a refused book too.
WARNING = ("check", "list", "page", "compare")
REFUSED_OUTPUT = {
    "check": f"{BROKEN}: refused 12 1232\n".encode(),
    "record": b"not checked: the book is refused 12 1232\n"
}


class Verb(NamedTuple):
    """The words behind a verb, with places for what it reads and writes; an input that it takes,
    and one refused."""

    words: tuple
    good: Optional[object]
    bad: Optional[object]

    @property
    def writes(self):
        """Does it write a file?"""
        return OUT in self.words

    def line(self, name, given, out=None):
        """The whole line."""
        return (name, *({INPUT: given, OUT: out}.get(word, word) for word in self.words))


def fund_of(book):
    """The fund file of a book."""
    return book[:FRONT_BYTES] + book[FRONT_BYTES + TABLE_BYTES:]


def all_verbs(folder):
    """Every verb; a folder has what is no sample."""
    table, fund = folder / "table", folder / "fund"
    table.write_bytes(ACCEPTED.read_bytes()[FRONT_BYTES:FRONT_BYTES + TABLE_BYTES])
    fund.write_bytes(fund_of(ACCEPTED.read_bytes()))
    (folder / "short").write_bytes(b"")
    put_factors(folder / "factors.csv")
    put_accounts(folder / "accounts.csv")
    (folder / "empty.csv").write_text(
        (folder / "accounts.csv").read_text().replace(",PG1,900000,", ",PG1,9000000001,"))
    for name in ("sheets", "bad_sheets"):
        xaropinto("read", ACCEPTED, "-o", folder / name)
    (folder / "bad_sheets" / "curve.csv").write_text("year,rate_millionths\n")
    on_a_book = {
        "check": (INPUT, ),
        "list": (INPUT, ),
        "years": (INPUT, "--setting", 0),
        "classes": (INPUT, ),
        "age-shift": (INPUT, ),
        "compare": (INPUT, INPUT),
        "group": (INPUT, "--setting", 0, "--group", 2),
        "record": (INPUT, 1),
        "read": (INPUT, "-o", OUT),
        "cell": (INPUT, "--setting", 0, "--subgroup", "PG2", "--sex", "men", "--class", 118),
        "deviation": (INPUT, folder / "factors.csv"),
        "page": (INPUT, "-o", OUT),
        "split": (INPUT, "-o", OUT),
    }
    verbs = {name: Verb(words, ACCEPTED, BROKEN) for name, words in on_a_book.items()}
    verbs["convert"] = Verb((INPUT, "-o", OUT), sample("newer_basis"), ACCEPTED)
    verbs["write"] = Verb((INPUT, "-o", OUT), folder / "sheets", folder / "bad_sheets")
    verbs["rates"] = Verb((INPUT, ), folder / "accounts.csv", folder / "empty.csv")
    verbs["funds"] = Verb((table, INPUT, INPUT), fund, folder / "short")
    verbs["practice"] = Verb(("-o", OUT, INPUT), 1, 0)
    verbs["spread"] = Verb((1, 2, 3, 4, INPUT, "--xi", 1, "--eta", 1), 5, 3)
    return verbs


class Habits(unittest.TestCase):
    """Each verb, in a folder of its own."""

    def setUp(self):
        held = tempfile.TemporaryDirectory()
        self.addCleanup(held.cleanup)
        self.folder = Path(held.name)
        self.out = self.folder / "out"
        self.verbs = all_verbs(self.folder)

    def each(self, kind=lambda verb: True):
        """Every verb of a kind."""
        return [(name, verb) for name, verb in self.verbs.items() if kind(verb)]

    def test_done(self):
        for name, verb in self.each():
            with self.subTest(verb=name):
                run = xaropinto(*verb.line(name, verb.good, self.folder / name))
                self.assertEqual((run.code, without_warnings(run.errors)), (DONE, []))
                self.assertTrue(name in WARNING or not run.errors)
                self.assertEqual(verb.writes, run.out == b"")
                self.assertEqual(verb.writes, (self.folder / name).exists())

    def test_refused(self):
        for name, verb in self.each():
            with self.subTest(verb=name):
                run = xaropinto(*verb.line(name, verb.bad, self.out))
                self.assertEqual(run.code, REFUSED)
                self.assertTrue(run.out.startswith(REFUSED_OUTPUT.get(name, b"")))
                self.assertEqual(name in REFUSED_OUTPUT, run.out != b"")
                self.assertIn("rule: " if name == "check" else "refused", run.errors)
                self.assertFalse(self.out.exists())

    def test_not_there_or_a_folder(self):
        (self.folder / "folder").mkdir()
        for name, verb in self.each(lambda verb: isinstance(verb.good, Path)):
            with self.subTest(verb=name):
                for path in (self.folder / "nowhere", self.folder / "folder"):
                    run = xaropinto(*verb.line(name, path, self.out))
                    self.assertEqual((run.code, run.out), (TROUBLE, b""))
                    self.assertIn(str(path), run.errors)
                    self.assertFalse(self.out.exists())

    def test_full_output(self):
        for name, verb in self.each():
            with self.subTest(verb=name):
                with open("/dev/full", "wb") as full:
                    run = xaropinto(*verb.line(name, verb.good, "/dev/full"), output=full)
                self.assertEqual(run.code, TROUBLE)
                self.assertTrue(run.errors.startswith("xaropinto: "), run.errors)

    def test_closed_output(self):
        for name, verb in self.each(lambda verb: not verb.writes):
            with self.subTest(verb=name):
                line = [sys.executable, "-m", "xaropinto", *map(str, verb.line(name, verb.good))]
                ended = subprocess.run(["sh", "-c", 'exec "$@" >&-', "sh", *line],
                                       stdin=subprocess.DEVNULL,
                                       stderr=subprocess.PIPE,
                                       check=False,
                                       env=surroundings())
                self.assertEqual(ended.returncode, TROUBLE)
                self.assertIn(b"standard output", ended.stderr)

    def test_no_folder_to_write_to(self):
        for name, verb in self.each(lambda verb: verb.writes):
            with self.subTest(verb=name):
                run = xaropinto(*verb.line(name, verb.good, self.folder / "nowhere" / "out"))
                self.assertEqual((run.code, run.out), (TROUBLE, b""))

    def test_help(self):
        whole = xaropinto("--help", env=surroundings(XAROPINTO_LIBRARY="/nowhere"))
        manual = (ROOT / "packaging" / "xaropinto.1").read_text(encoding="ascii")
        self.assertEqual(whole.code, DONE)
        for name, _ in self.each():
            with self.subTest(verb=name):
                one = xaropinto(name, "--help")
                self.assertEqual(one.code, DONE)
                self.assertIn(f"Example: xaropinto {name}".encode(), b" ".join(one.out.split()))
                self.assertRegex(whole.out.decode(), rf"\n    {name}\s")
                self.assertIn(f'\n.BI "{name} "'.replace("-", "\\-"), manual)


class Words(unittest.TestCase):
    """What is told, and to whom."""

    def test_a_refusal(self):
        run = xaropinto("check", BROKEN)
        self.assertEqual(run.out.decode(), f"{BROKEN}: refused 12 1232\n")
        self.assertIn(
            "PG2 men, record 1, class 120: lapse at byte 1,232 is 1,000,001; "
            "it must be 0 to 1,000,000",
            run.errors)
        self.assertIn("owner: the portfolio department", run.errors)

    def test_the_worst_of_many(self):
        run = xaropinto("check", ACCEPTED, BROKEN)
        self.assertEqual((run.code, run.out.decode().splitlines()[0]),
                         (REFUSED, f"{ACCEPTED}: accepted 3"))
        self.assertEqual(xaropinto("check", BROKEN, "/nowhere", ACCEPTED).code, TROUBLE)

    def test_standard_input(self):
        for line in (("list", ), ("years", "--setting", 0), ("classes", )):
            by_name = xaropinto(*line, ACCEPTED)
            by_dash = xaropinto(*line, "-", sent=ACCEPTED.read_bytes())
            self.assertEqual((by_name.code, by_name.out), (by_dash.code, by_dash.out))

    def test_no_book_at_all(self):
        for held, kind in ((b"%PDF-1.7 ...", "a PDF"), (b"PK\x03\x04....", "a spreadsheet"),
                           (b"", "an empty file"), (b"class;count\r\n40;3\r\n" * 100, "text")):
            run = xaropinto("check", "-", sent=held)
            self.assertEqual(run.code, REFUSED)
            self.assertIn(f"this is no book at all: it looks like {kind}", run.errors)

    def test_wrong_length_and_byte(self):
        book = ACCEPTED.read_bytes()
        run = xaropinto("check", "-", sent=book + bytes(100_000))
        self.assertIn(f"refused 5 {len(book) + 100_000}", run.out.decode())
        self.assertIn("ask for 1,292; no book is as long", run.errors)
        for at, words in ((0, "subgroup code at byte 1,220 is 9; it must be 4"),
                          (1, "sex at byte 1,221 is 9; it must be 0"),
                          (7, "a spare byte at byte 1,227 is 9; it must be 0")):
            damaged = bytearray(book)
            damaged[1_220 + at] = 9
            run = xaropinto("check", "-", sent=bytes(damaged))
            self.assertIn("refused 10 1220", run.out.decode())
            self.assertIn(words, run.errors)

    def test_names_with_quotes_and_dollars(self):
        with tempfile.TemporaryDirectory() as folder:
            path = Path(folder) / "it's $HOME \"mine\";.book"
            path.write_bytes(ACCEPTED.read_bytes())
            self.assertTrue(
                xaropinto("check", path).out.decode().startswith(f"{path}: accepted 3\n"))

    def test_wrong_words(self):
        for wrong in ((), ("chek", ACCEPTED), ("list", ), ("list", ACCEPTED, "more"),
                      ("years", ACCEPTED), ("years", ACCEPTED, "--setting",
                                            "seven"), ("years", ACCEPTED, "--sett", "7"),
                      ("group", ACCEPTED, "--setting", 2**64, "--group",
                       1), ("record", ACCEPTED, "-1"), ("write", "sheets"), ("spread", 1, 2, 3)):
            with self.subTest(words=wrong):
                run = xaropinto(*wrong)
                self.assertEqual((run.code, run.out), (TROUBLE, b""))

    def test_no_library(self):
        run = xaropinto("check", ACCEPTED, env=surroundings(XAROPINTO_LIBRARY="/nowhere"))
        self.assertEqual((run.code, run.out), (TROUBLE, b""))
        self.assertIn("make lib", run.errors)


if __name__ == "__main__":
    sys.exit(run_unit_tests(sys.modules[__name__]))
