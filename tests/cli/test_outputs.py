"""An output is whole or not there, and never an input; many files; how the command ends."""

import ast
import os
import signal
import subprocess
import sys
import tempfile
import unittest
from pathlib import Path

from tests import ROOT
from tests.cli.run import DONE, REFUSED, SAMPLES, TROUBLE, sample, surroundings, xaropinto
from tests.support.report import run_unit_tests

INTERRUPTED, TERMINATED = 130, 143
ACCEPTED, BROKEN, NEWER = (
    sample(name) for name in ("worked_example", "lapse_too_large", "newer_basis")
)


def by_shell(redirection, *words, sent=b"", env=None):
    """The command with a redirection of the shell."""
    line = [
        "sh",
        "-c",
        f'exec "$@" {redirection}',
        "sh",
        sys.executable,
        "-m",
        "xaropinto",
        *map(str, words),
    ]
    return subprocess.run(
        line, input=sent, capture_output=True, check=False, env=env or surroundings()
    )


def by_python(text, *words):
    """Python code that ends in a run of the command with these words."""
    line = f"import sys\n{text}\nfrom xaropinto.cli.main import main\nsys.exit(main(sys.argv[1:]))"
    return subprocess.run(
        [sys.executable, "-c", line, *map(str, words)],
        stdin=subprocess.DEVNULL,
        capture_output=True,
        check=False,
        env=surroundings(),
    )


class InAFolder(unittest.TestCase):
    """Tests that write."""

    def setUp(self):
        held = tempfile.TemporaryDirectory()
        self.addCleanup(held.cleanup)
        self.folder = Path(held.name)

    def names(self, folder=None):
        """What stands in a folder, hidden files included."""
        return sorted(os.listdir(folder or self.folder))

    def one_line(self, ended, code):
        """It ended with this code, wrote no answer, and said why in one line."""
        self.assertEqual((ended.returncode, ended.stdout), (code, b""), ended.stderr)
        self.assertEqual(ended.stderr.count(b"\n"), 1, ended.stderr)
        self.assertTrue(ended.stderr.startswith(b"xaropinto: "), ended.stderr)


class Inputs(InAFolder):
    """What is read stays as it was."""

    def test_an_output_that_is_the_input(self):
        for name, words, good in (
            ("page", (), ACCEPTED),
            ("convert", (), NEWER),
            ("list", (), ACCEPTED),
            ("years", ("--setting", 0), ACCEPTED),
        ):
            book = self.folder / f"{name}.book"
            book.write_bytes(good.read_bytes())
            symbolic, hard = self.folder / f"{name}.symbolic", self.folder / f"{name}.hard"
            symbolic.symlink_to(book)
            hard.hardlink_to(book)
            for out in (
                book,
                symbolic,
                hard,
                self.folder / "." / ".." / self.folder.name / book.name,
            ):
                with self.subTest(verb=name, out=out):
                    run = xaropinto(name, book, *words, "-o", out)
                    self.assertEqual((run.code, run.out), (TROUBLE, b""))
                    self.assertIn("this is an input", run.errors)
                    self.assertEqual(book.read_bytes(), good.read_bytes())
                    self.assertTrue(symbolic.is_symlink() and hard.samefile(book))

    def test_standard_input_and_folders(self):
        book, sheets = self.folder / "book", self.folder / "sheets"
        book.write_bytes(ACCEPTED.read_bytes())
        self.assertEqual(xaropinto("read", book, "-o", sheets).code, DONE)
        ended = by_shell(f"< {book}", "list", "-", "-o", book)
        self.assertEqual((ended.returncode, book.read_bytes()), (TROUBLE, ACCEPTED.read_bytes()))
        before = (sheets / "curve.csv").read_bytes()
        self.assertEqual(xaropinto("write", sheets, "-o", sheets / "curve.csv").code, TROUBLE)
        self.assertEqual((sheets / "curve.csv").read_bytes(), before)


class Folders(InAFolder):
    """`read` writes all files or none."""

    def test_a_folder_that_holds_anything(self):
        sheets = self.folder / "sheets"
        self.assertEqual(xaropinto("read", ACCEPTED, "-o", sheets).code, DONE)
        held = {name: (sheets / name).read_bytes() for name in self.names(sheets)}
        run = xaropinto("read", sample("small_insurer"), "-o", sheets)
        self.assertEqual((run.code, run.out), (TROUBLE, b""))
        self.assertIn("--replace", run.errors)
        (sheets / "mine.txt").write_text("mine")
        self.assertEqual(
            xaropinto("read", sample("small_insurer"), "-o", sheets, "--replace").code, TROUBLE
        )
        (sheets / "mine.txt").unlink()
        self.assertEqual({name: (sheets / name).read_bytes() for name in self.names(sheets)}, held)
        self.assertEqual(
            xaropinto("read", sample("small_insurer"), "-o", sheets, "--replace").code, DONE
        )
        xaropinto("read", sample("small_insurer"), "-o", self.folder / "new")
        self.assertEqual(
            [(sheets / name).read_bytes() for name in self.names(sheets)],
            [(self.folder / "new" / name).read_bytes() for name in self.names(self.folder / "new")],
        )
        self.assertEqual(self.names(), ["new", "sheets"])

    def test_an_empty_folder_is_filled(self):
        (self.folder / "sheets").mkdir()
        self.assertEqual(xaropinto("read", ACCEPTED, "-o", self.folder / "sheets").code, DONE)
        self.assertEqual(len(self.names(self.folder / "sheets")), 5)


class Many(InAFolder):
    """`list`, `years` and `page` of many files."""

    def test_a_folder_of_answers(self):
        out = self.folder / "out"
        for words, ending in (
            (("list",), ".listing"),
            (("years", "--setting", 7), ".years-7.csv"),
            (("page",), ".html"),
        ):
            with self.subTest(words=words):
                run = xaropinto(*words, ACCEPTED, BROKEN, sample("small_insurer"), "--folder", out)
                self.assertEqual((run.code, run.out), (REFUSED, b""))
                self.assertIn(f"{BROKEN}: refused 12 1232\n", run.errors)
                for name in ("worked_example", "small_insurer"):
                    one = self.folder / "one"
                    self.assertEqual(xaropinto(*words, sample(name), "-o", one).code, DONE)
                    self.assertEqual((out / f"{name}{ending}").read_bytes(), one.read_bytes())
        self.assertEqual(len(self.names(out)), 6)
        self.assertEqual(
            (out / "small_insurer.listing").read_bytes(),
            (SAMPLES / "small_insurer.listing").read_bytes(),
        )

    def test_no_place_for_each(self):
        (self.folder / "other").mkdir()
        again = self.folder / "other" / ACCEPTED.name
        again.write_bytes(ACCEPTED.read_bytes())
        for words in ((), ("--folder", self.folder / "out"), ("-o", self.folder / "out")):
            run = xaropinto("list", ACCEPTED, again, *words)
            self.assertEqual((run.code, run.out), (TROUBLE, b""))
        self.assertEqual(self.names(), ["other"])

    def test_a_refusal_leaves_nothing(self):
        for words in (("-o", self.folder / "out"), ("--folder", self.folder / "out")):
            run = xaropinto("list", BROKEN, *words)
            self.assertEqual((run.code, run.out, self.names()), (REFUSED, b"", []))

    def test_an_earlier_file_is_named(self):
        old = self.folder / "lapse_too_large.listing"
        old.write_text("old")
        run = xaropinto("list", BROKEN, "--folder", self.folder)
        self.assertEqual((run.code, old.read_text()), (REFUSED, "old"))
        self.assertIn(f"{old}: of an earlier run", run.errors)


class Ending(InAFolder):
    """Signals, and outputs that are closed."""

    def test_a_signal_leaves_no_file(self):
        for number, code in (
            (signal.SIGTERM, TERMINATED),
            (signal.SIGINT, INTERRUPTED),
            (signal.SIGHUP, TERMINATED),
        ):
            for words in (("practice", 1, "-o", "out"), ("read", ACCEPTED, "-o", "out")):
                with self.subTest(number=number, words=words):
                    # A run in the background may have started with the signal ignored.
                    stop = (f"import os, signal; signal.signal({int(number)}, signal.SIG_DFL)\n"
                            f"os.fsync = lambda _: os.kill(os.getpid(), {int(number)})")
                    self.one_line(by_python(stop, *words[:-1], self.folder / "out"), code)
                    self.assertEqual(self.names(), [])

    def test_a_fault_of_the_command(self):
        broken = "from xaropinto import answers; answers.check = lambda book: 1 // 0"
        ended = by_python(broken, "check", ACCEPTED)
        self.one_line(ended, TROUBLE)
        self.assertIn(b"ZeroDivisionError", ended.stderr)

    def test_closed_and_full_standard_error(self):
        ended = by_shell("2>&-", "list", BROKEN)
        self.assertEqual((ended.returncode, ended.stdout), (REFUSED, b""))
        for words, out in (
            (("list", BROKEN), b""),
            (("list", ACCEPTED), (SAMPLES / "worked_example.listing").read_bytes()),
        ):
            ended = by_shell("2>/dev/full", *words)
            self.assertEqual((ended.returncode, ended.stdout), (TROUBLE, out))

    def test_standard_input_twice(self):
        for words in (("check", "-", "-"), ("funds", "-", "-", sample("one_record"))):
            ended = by_shell("", *words, sent=ACCEPTED.read_bytes())
            self.one_line(ended, TROUBLE)

    def test_closed_input(self):
        for verb in ("check", "list", "classes"):
            self.one_line(by_shell("<&-", verb, "-"), TROUBLE)


class Starting(InAFolder):
    """What stops the command before it runs is one line, and no refusal."""

    def started(self, module, text):
        """The command where a module of the library of Python is another."""
        (self.folder / module).write_text(text)
        path = os.pathsep.join((str(self.folder), str(ROOT / "python")))
        return subprocess.run(
            [sys.executable, "-m", "xaropinto", "check", str(BROKEN)],
            stdin=subprocess.DEVNULL,
            capture_output=True,
            check=False,
            env=surroundings(PYTHONPATH=path),
        )

    def test_interrupted(self):
        self.one_line(self.started("argparse.py", "raise KeyboardInterrupt"), INTERRUPTED)

    def test_broken(self):
        self.one_line(self.started("ctypes.py", "raise ImportError('no\\nffi')"), TROUBLE)

    def test_old_python(self):
        ended = self.started(
            "sitecustomize.py", "import sys; sys.version_info = (3, 9, 2, 'final', 0)"
        )
        self.one_line(ended, TROUBLE)
        self.assertIn(b"Python 3.10 or later is needed; this is 3.9", ended.stderr)
        for name in ("__init__.py", "__main__.py", "start.py", "version.py"):
            ast.parse(
                (ROOT / "python" / "xaropinto" / name).read_text(encoding="utf-8"),
                feature_version=(3, 5),
            )
        ast.parse(
            (ROOT / "packaging" / "xaropinto").read_text(encoding="utf-8"), feature_version=(3, 5)
        )

    def test_every_way_in(self):
        for name, words in (
            ("python/pyproject.toml", 'xaropinto = "xaropinto.start:start"'),
            ("python/xaropinto/__main__.py", "sys.exit(start())"),
            ("packaging/xaropinto", "sys.exit(start())"),
        ):
            self.assertIn(words, (ROOT / name).read_text(encoding="utf-8"), name)

    def test_broken_library(self):
        text, other = self.folder / "text.so", self.folder / "other.so"
        text.write_text("this is no library")
        built = subprocess.run(
            ["cc", "-shared", "-o", other, "-x", "c", "-"], input=b"int unused;", check=False
        )
        self.assertEqual(built.returncode, 0)
        for library in (text, other, self.folder):
            ended = by_shell("", "list", ACCEPTED, env=surroundings(XAROPINTO_LIBRARY=str(library)))
            self.one_line(ended, TROUBLE)


if __name__ == "__main__":
    sys.exit(run_unit_tests(sys.modules[__name__]))
