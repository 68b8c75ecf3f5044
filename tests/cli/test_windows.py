"""The package and the command as on Windows: which library is loaded, and what the system lacks,
refuses or does otherwise. This is simulated: in place of Windows, functions are taken away or
changed."""

import ntpath
import os
import signal
import sys
import sysconfig
import tempfile
import unittest
from pathlib import Path
from unittest.mock import patch

from tests import ROOT
from tests.cli.run import DONE, REFUSED, SAMPLES, TROUBLE, sample, surroundings, xaropinto
from tests.cli.test_outputs import TERMINATED, InAFolder, by_python
from tests.support.report import run_unit_tests

sys.path.insert(0, str(ROOT / "python"))

from xaropinto import library, version  # noqa: E402
from xaropinto.cli import batch, files  # noqa: E402
from xaropinto.cli.errors import CommandError  # noqa: E402

ACCEPTED, BROKEN = sample("worked_example"), sample("lapse_too_large")
VERSION = (ROOT / "VERSION").read_text(encoding="ascii").strip()
# What Python on Windows does not have, of what Linux has.
LACKING = """
import os, signal
for module, names in (
    (signal, "SIGHUP SIGPIPE SIGALRM SIGCHLD SIGUSR1 SIGUSR2 pthread_sigmask sigwait alarm"),
    (os, "geteuid getuid getgid fchmod fchown chown fork sync pread pwrite mkfifo killpg"
         " O_NOFOLLOW O_DIRECTORY O_CLOEXEC O_NONBLOCK O_SYNC"),
):
    for name in names.split():
        delattr(module, name)
for name in ("fcntl", "pwd", "grp", "resource", "termios", "posix_ipc"):
    sys.modules[name] = None
"""
# A console's code page, and the lines that text has on Windows.
CODE_PAGE = """
import io
for name in ("stdout", "stderr"):
    stream = io.TextIOWrapper(getattr(sys, name).buffer, encoding={page!r}, errors="strict",
                              newline="\\r\\n", line_buffering=True)
    setattr(sys, "_kept_" + name, getattr(sys, name))
    setattr(sys, name, stream)
"""
# A file that another program has open: it can be neither replaced nor renamed.
OPEN_ELSEWHERE = """
import os
from xaropinto.cli import files
files.ON_WINDOWS = True
def refuse(*paths):
    raise PermissionError(13, "The process cannot access the file because it is being used by"
                          " another process", str(paths[0]), None, str(paths[1]))
os.replace = os.rename = refuse
"""
# The first attempts to rename fail.
OPEN_FOR_A_MOMENT = """
import os
from xaropinto.cli import files
files.ON_WINDOWS = True
left = [2, 2]
def after_two(at, rename):
    def attempt(*paths):
        if left[at]:
            left[at] -= 1
            raise PermissionError(13, "Access is denied", *map(str, paths))
        rename(*paths)
    return attempt
os.replace, os.rename = after_two(0, os.replace), after_two(1, os.rename)
"""
# A signal comes between the two renames of a folder.
SIGNAL_BETWEEN = """
import os, signal
rename = os.rename
def rename_and_signal(*paths):
    rename(*paths)
    os.kill(os.getpid(), signal.SIGTERM)
os.rename = rename_and_signal
"""


class OutputNames(unittest.TestCase):
    """Two files are never written to one place."""

    def test_names_that_differ_in_capitals_alone(self):
        given = ["a.book", "A.book"]
        self.assertEqual(len(batch.places_in("out", given, ".listing")), 2)
        with patch("os.path.normcase", ntpath.normcase), self.assertRaises(CommandError) as raised:
            batch.places_in("out", given, ".listing")
        self.assertIn("a.book and A.book would both be written to", str(raised.exception))


class Library(unittest.TestCase):
    """The file of each platform, and what is said where there is none."""

    def setUp(self):
        self.replace(patch.dict(os.environ))
        os.environ.pop(library.VARIABLE, None)

    def replace(self, patcher):
        """Replace something until the test ends."""
        patcher.start()
        self.addCleanup(patcher.stop)

    def on(self, platform, largest=2**63 - 1):
        """Until the test ends, Python is one of this platform."""
        self.replace(patch.object(sysconfig, "get_platform", lambda: platform))
        self.replace(patch.object(sys, "maxsize", largest))

    def test_name_on_each_platform(self):
        for platform, name, built in (
            ("linux-x86_64", "libxaropinto.so", "target/lib/libxaropinto.so"),
            ("linux-aarch64", "libxaropinto.so", "target/targets/linux-arm64/libxaropinto.so.2"),
            ("win-amd64", "xaropinto.dll", "target/targets/windows-x86_64/xaropinto.dll"),
        ):
            with self.subTest(platform=platform):
                self.on(platform)
                self.assertEqual(library.places(),
                                 [ROOT / "python" / "xaropinto" / name, ROOT / built])

    def test_any_other_platform(self):
        for platform in ("macosx-14.0-arm64", "win-arm64", "win32", "linux-riscv64"):
            with self.subTest(platform=platform):
                self.on(platform)
                with self.assertRaisesRegex(
                        library.LibraryError,
                        f"no library for a Python of {platform}, only for Linux on x86-64 and"
                        " arm64, and Windows on x86-64; XAROPINTO_LIBRARY"):
                    library.find_library()

    def test_a_python_of_32_bits(self):
        self.on("win-amd64", largest=2**31 - 1)
        with self.assertRaisesRegex(library.LibraryError, "this Python has 32 bits"):
            library.find_library()

    def test_a_path_that_is_named_needs_no_platform(self):
        self.on("freebsd-14-amd64")
        with tempfile.TemporaryDirectory() as folder:
            path = Path(folder) / "own.so"
            path.write_bytes(b"")
            os.environ[library.VARIABLE] = str(path)
            self.assertEqual(library.find_library(), path)

    def test_a_name_without_a_folder(self):
        with tempfile.TemporaryDirectory() as folder:
            (Path(folder) / "own.so").write_bytes(
                (ROOT / "target" / "lib" / "libxaropinto.so").read_bytes())
            os.environ[library.VARIABLE] = "own.so"
            before = os.getcwd()
            os.chdir(folder)
            self.addCleanup(os.chdir, before)
            self.assertTrue(library.find_library().is_absolute())
            run = xaropinto("check", ACCEPTED, env=surroundings())
            self.assertEqual(run.code, DONE, run.errors)


class Lacking(InAFolder):
    """What Windows lacks is not asked for."""

    def test_verbs(self):
        sheets = self.folder / "sheets"
        for words, out in (
            (("check", ACCEPTED), None),
            (("list", ACCEPTED), None),
            (("list", BROKEN), None),
            (("years", ACCEPTED, "--setting", 1), None),
            (("read", ACCEPTED, "-o", sheets), sheets / "portfolio.csv"),
            (("read", ACCEPTED, "-o", sheets, "--replace"), sheets / "curve.csv"),
            (("write", sheets, "-o", self.folder / "book"), self.folder / "book"),
            (("page", ACCEPTED, "-o", self.folder / "page", "--today", "2026-01-01"),
             self.folder / "page"),
        ):
            with self.subTest(words=words[0]):
                ended = by_python(LACKING, *words)
                held = out and out.read_bytes()
                due = xaropinto(*words, *(("--replace",) if words[0] == "read"
                                          and "--replace" not in words else ()))
                self.assertEqual((ended.returncode, ended.stdout, ended.stderr.decode()), due)
                self.assertEqual(held, out and out.read_bytes())
                self.assertNotIn(b"\r", held or b"")

    def test_signals_that_it_has(self):
        stop = "import os; os.fsync = lambda _: signal.raise_signal(signal.SIGTERM)"
        ended = by_python(f"{LACKING}\n{stop}", "read", ACCEPTED, "-o", self.folder / "out")
        self.one_line(ended, TERMINATED)
        self.assertEqual(self.names(), [])

    def test_break_of_windows_ends_the_run(self):
        stop = ("signal.SIGBREAK = signal.SIGTERM; import os\n"
                "os.fsync = lambda _: signal.raise_signal(signal.SIGBREAK)\n"
                "from xaropinto.cli.files import ENDING\nassert signal.SIGBREAK in ENDING[2:]")
        ended = by_python(f"{LACKING}\n{stop}", "practice", 1, "-o", self.folder / "out")
        self.one_line(ended, TERMINATED)

    def test_names_of_signals_here(self):
        self.assertEqual(files.ENDING, (signal.SIGINT, signal.SIGTERM, signal.SIGHUP))


class Waiting(InAFolder):
    """A signal waits until a folder is whole."""

    def test_between_two_renames(self):
        sheets = self.folder / "sheets"
        self.assertEqual(xaropinto("read", ACCEPTED, "-o", sheets).code, DONE)
        for before in ("", LACKING):
            ended = by_python(before + SIGNAL_BETWEEN, "read", sample("small_insurer"), "-o",
                              sheets, "--replace")
            self.one_line(ended, TERMINATED)
            self.assertEqual(self.names(), ["sheets"])
            xaropinto("read", sample("small_insurer"), "-o", self.folder / "due")
            self.assertEqual({name: (sheets / name).read_bytes() for name in self.names(sheets)},
                             {name: (self.folder / "due" / name).read_bytes()
                              for name in self.names(self.folder / "due")})
            for path in (self.folder / "due").iterdir():
                path.unlink()
            (self.folder / "due").rmdir()


class Open(InAFolder):
    """An output that another program has open stays, and the line says what to do."""

    def test_a_file(self):
        out = self.folder / "out.listing"
        out.write_text("old")
        ended = by_python(OPEN_ELSEWHERE, "list", ACCEPTED, "-o", out)
        self.one_line(ended, TROUBLE)
        self.assertIn("used by another process; it is left as it was: is it open in another"
                      " program?", ended.stderr.decode())
        self.assertEqual((self.names(), out.read_text()), (["out.listing"], "old"))

    def test_a_folder(self):
        sheets = self.folder / "sheets"
        self.assertEqual(xaropinto("read", ACCEPTED, "-o", sheets).code, DONE)
        held = {name: (sheets / name).read_bytes() for name in self.names(sheets)}
        ended = by_python(OPEN_ELSEWHERE, "read", sample("small_insurer"), "-o", sheets,
                          "--replace")
        self.one_line(ended, TROUBLE)
        self.assertIn("is it open in another program?", ended.stderr.decode())
        self.assertEqual(self.names(), ["sheets"])
        self.assertEqual({name: (sheets / name).read_bytes() for name in self.names(sheets)}, held)

    def test_a_file_that_is_open_for_a_moment(self):
        for words, out in ((("list", ACCEPTED), "out"), (("read", ACCEPTED), "sheets")):
            ended = by_python(OPEN_FOR_A_MOMENT, *words, "-o", self.folder / out)
            self.assertEqual((ended.returncode, ended.stdout), (DONE, b""), ended.stderr)
        self.assertEqual(self.names(), ["out", "sheets"])
        elsewhere = OPEN_FOR_A_MOMENT.replace("ON_WINDOWS = True", "ON_WINDOWS = False")
        self.one_line(by_python(elsewhere, "list", ACCEPTED, "-o", self.folder / "out"), TROUBLE)

    def test_no_such_question_where_nothing_was(self):
        with patch.object(files, "ON_WINDOWS", True):
            words = str(files.not_written(str(self.folder / "new"), PermissionError(13, "Denied")))
        self.assertTrue(words.endswith("new: Denied"))
        error = files.not_written(str(self.folder), PermissionError(13, "Denied"))
        self.assertIsInstance(error, CommandError)
        self.assertTrue(str(error).endswith(": Denied"), "not on this system")


class CodePages(InAFolder):
    """Output is UTF-8 with single line feeds, whatever the code page is."""

    def test_both_streams(self):
        name = self.folder / "B\u00fccher \u2192 \u65e5\u672c.book"
        for book, code in ((ACCEPTED, DONE), (BROKEN, REFUSED)):
            name.write_bytes(book.read_bytes())
            due = xaropinto("check", name)
            self.assertEqual(due.code, code)
            self.assertIn(str(name).encode(), due.out)
            for page in ("cp1252", "cp437", "ascii", "utf-16"):
                with self.subTest(page=page, code=code):
                    ended = by_python(CODE_PAGE.format(page=page), "check", name)
                    self.assertEqual((ended.returncode, ended.stdout), (code, due.out))
                    self.assertEqual(ended.stderr.decode("utf-8"), due.errors)
                    self.assertNotIn(b"\r", ended.stdout + ended.stderr)

    def test_help_and_wrong_words(self):
        for words in (("--help",), ("check", "--help"), ("--version",), ("nonsense",)):
            ended = by_python(CODE_PAGE.format(page="cp1252"), *words)
            due = xaropinto(*words)
            self.assertEqual((ended.returncode, ended.stdout), due[:2])
            self.assertNotIn(b"\r", ended.stdout + ended.stderr)

    def test_by_the_environment(self):
        env = surroundings(PYTHONIOENCODING="cp1252:strict")
        name = self.folder / "\u65e5.book"
        name.write_bytes(BROKEN.read_bytes())
        self.assertIn("\u65e5.book: ", xaropinto("check", name, env=env).errors)


class Patterns(InAFolder):
    """Words with * and ? name files on Windows, which no shell does there."""

    def setUp(self):
        super().setUp()
        for name in ("b.book", "a.book", "c.txt"):
            (self.folder / name).write_bytes(ACCEPTED.read_bytes())

    def listed(self, *words):
        """What words name on Windows, below the folder."""
        with patch.object(files, "ON_WINDOWS", True):
            found = files.listed_files([str(self.folder / word) for word in words])
        return [Path(path).name for path in found]

    def test_names(self):
        self.assertEqual(self.listed("*.book"), ["a.book", "b.book"])
        self.assertEqual(self.listed("c.txt", "?.book"), ["c.txt", "a.book", "b.book"])
        self.assertEqual(self.listed("*.none", "none"), ["*.none", "none"])
        self.assertEqual(files.listed_files(["*.book"]), ["*.book"])

    def test_command(self):
        windows = "from xaropinto.cli import files; files.ON_WINDOWS = True"
        pattern = self.folder / "*.book"
        ended = by_python(windows, "check", pattern)
        due = xaropinto("check", self.folder / "a.book", self.folder / "b.book")
        self.assertEqual((ended.returncode, ended.stdout), due[:2])
        self.assertEqual(by_python("", "check", pattern).returncode, TROUBLE)
        out = self.folder / "out"
        ended = by_python(windows, "list", pattern, "--folder", out)
        self.assertEqual((ended.returncode, self.names(out)), (DONE, ["a.listing", "b.listing"]))
        self.assertEqual((out / "a.listing").read_bytes(),
                         (SAMPLES / "worked_example.listing").read_bytes())


class Version(InAFolder):
    """`--version` names the version, the commit that was built and the checker."""

    def test_in_the_repository(self):
        run = xaropinto("--version", env=surroundings(XAROPINTO_LIBRARY="/nowhere"))
        self.assertEqual((run.code, run.out.decode(), run.errors),
                         (DONE, f"xaropinto {VERSION}\ncommit unknown\nchecker unknown\n", ""))

    def test_as_built(self):
        held = '{"version": "0", "commit": "abc", "checker": "kit logic 1"}'
        for text, due in ((held, "commit abc\nchecker kit logic 1\n"),
                          ("{}", "commit unknown\nchecker unknown\n"),
                          ("no JSON", "commit unknown\nchecker unknown\n")):
            path = self.folder / "build.json"
            path.write_text(text, encoding="utf-8")
            with patch.object(version, "BUILD", str(path)):
                self.assertEqual(version.version_text(), f"xaropinto {VERSION}\n{due}")

    def test_closed_and_full_output(self):
        for output in ("sys.stdout = None", "sys.stdout = open('/dev/full', 'w')"):
            ended = by_python(output, "--version")
            self.one_line(ended, TROUBLE)
            self.assertTrue(ended.stderr.startswith(b"xaropinto: standard output"), ended.stderr)


if __name__ == "__main__":
    sys.exit(run_unit_tests(sys.modules[__name__]))
