"""What is installed works where it is put: header, libraries, programs, command and package."""

import importlib.util
import os
import re
import shutil
import subprocess
import sys
import tempfile
import unittest
from pathlib import Path

from tests import ROOT
from tests.cli.run import sample, without_warnings, xaropinto
from tests.cli.test_package import unpacked
from tests.support.debian import install
from tests.support.report import run_unit_tests
from tools.dist import identity

MOST_SECONDS = 600
WHEELS = Path("/usr/share/python-wheels")
VERSION = (ROOT / "VERSION").read_text(encoding="ascii").strip()
LISTING = (ROOT / "samples" / "small_insurer.listing").read_bytes()


# What a person's shell has: the gate itself may be run by make, which tells a make below it so.
SHELL = {name: word
         for name, word in os.environ.items() if name not in ("MAKEFLAGS", "MAKELEVEL", "MFLAGS")}


def run(*words, folder=ROOT, env=None):
    """Run a command to its end."""
    return subprocess.run([str(word) for word in words], cwd=folder, stdin=subprocess.DEVNULL,
                          capture_output=True, timeout=MOST_SECONDS, check=False,
                          env=SHELL if env is None else env)


def wheel_path():
    """What PYTHONPATH needs for setuptools to build a wheel: Debian's, where Python has none."""
    if importlib.util.find_spec("wheel"):
        return ""
    if not list(WHEELS.glob("wheel-*.whl")):
        install(["python3-wheel-whl"])
    found = sorted(WHEELS.glob("wheel-*.whl"))
    if not found:
        raise FileNotFoundError("the package wheel is missing: apt-get install python3-wheel-whl")
    return str(found[-1])


def version_lines():
    """What `--version` prints where it is installed from this tree."""
    return (f"xaropinto {VERSION}\ncommit {identity.commit()}\n"
            f"checker {identity.checker()}\n")


class Installed(unittest.TestCase):
    """`make install`, the archive and pip."""

    def setUp(self):
        held = tempfile.TemporaryDirectory()
        self.addCleanup(held.cleanup)
        self.folder = Path(held.name)

    def hold(self, root):
        """All that was installed under a folder answers."""
        for program in ("xaropinto", "xaropinto-listing"):
            words = ("list", sample("small_insurer")) if program == "xaropinto" else ()
            with open(sample("small_insurer"), "rb") as book:
                ended = subprocess.run([root / "bin" / program, *words], stdin=book,
                                       capture_output=True, check=False, cwd=self.folder)
            self.assertEqual((ended.returncode, ended.stdout), (0, LISTING), ended.stderr)
            self.assertEqual(without_warnings(ended.stderr.decode()), [])
        flags = run("pkg-config", "--cflags", "--libs", "xaropinto",
                    env={**os.environ, "PKG_CONFIG_PATH": str(root / "lib" / "pkgconfig")})
        self.assertEqual(flags.returncode, 0, flags.stderr)
        built = run("cc", "-std=c99", "-Wall", "-Wextra", "-Werror",
                    ROOT / "bindings" / "c" / "examples" / "example.c", "-o",
                    self.folder / "example", *flags.stdout.decode().split())
        self.assertEqual(built.returncode, 0, built.stderr)
        for book, code in (("small_insurer", 0), ("lapse_too_large", 1)):
            ended = run(self.folder / "example", sample(book),
                        env={"LD_LIBRARY_PATH": str(root / "lib")})
            self.assertEqual((ended.returncode, ended.stdout), (code, b"" if code else LISTING))
        # Nothing of the repository on the path: neither git nor the checker is asked.
        ended = run(sys.executable, root / "bin" / "xaropinto", "--version", folder=self.folder,
                    env={"PATH": "/nowhere"})
        self.assertEqual((ended.returncode, ended.stdout.decode()), (0, version_lines()))

    def test_install(self):
        # The library is built, and not built again: another part may use it meanwhile.
        ended = run("make", "-o", "lib", "install", f"DESTDIR={self.folder}", "PREFIX=/usr/it")
        self.assertEqual(ended.returncode, 0, ended.stderr)
        self.hold(self.folder / "usr" / "it")
        manual = self.folder / "usr" / "it" / "share" / "man" / "man1" / "xaropinto.1"
        self.assertIn(f"xaropinto {VERSION}", manual.read_text(encoding="ascii"))

    def test_archive(self):
        self.hold(unpacked(self.folder))

    def test_pip(self):
        shutil.copytree(ROOT / "python", self.folder / "python")
        # In place of the repository's: what the package is of.
        (self.folder / "tools" / "dist").mkdir(parents=True)
        (self.folder / "tools" / "dist" / "identity.py").write_text(
            """build_json = lambda: b'{"commit": "abc", "checker": "kit logic 1"}'""")
        ended = run(sys.executable, "-m", "pip", "install", "--quiet", "--no-build-isolation",
                    "--no-deps", "--no-index", "--disable-pip-version-check", "--target",
                    self.folder / "there", self.folder / "python",
                    env={**SHELL, "PYTHONPATH": wheel_path()})
        self.assertEqual(ended.returncode, 0, ended.stderr)
        [info] = (self.folder / "there").glob("xaropinto-*.dist-info")
        self.assertIn("Tag: py3-none-linux_x86_64", (info / "WHEEL").read_text(encoding="utf-8"))
        self.assertIn("Provides-Extra: xlsx", (info / "METADATA").read_text(encoding="utf-8"))
        ended = run(self.folder / "there" / "bin" / "xaropinto", "list", sample("small_insurer"),
                    folder=self.folder, env={"PYTHONPATH": str(self.folder / "there")})
        self.assertEqual((ended.returncode, ended.stdout), (0, LISTING), ended.stderr)
        self.assertEqual(without_warnings(ended.stderr.decode()), [])
        self.assertTrue((self.folder / "there" / "xaropinto" / "schema.json").is_file())
        ended = run(self.folder / "there" / "bin" / "xaropinto", "--version", folder=self.folder,
                    env={"PYTHONPATH": str(self.folder / "there")})
        self.assertEqual(ended.stdout.decode(),
                         f"xaropinto {VERSION}\ncommit abc\nchecker kit logic 1\n")
        ended = run(sys.executable, "-c",
                    "import xaropinto, sys; print(xaropinto.__version__, xaropinto.check("
                    "open(sys.argv[1], 'rb').read()))", sample("small_insurer"), folder=self.folder,
                    env={"PYTHONPATH": str(self.folder / "there")})
        self.assertEqual((ended.stdout.decode(), ended.stderr), (f"{VERSION} 315\n", b""))
        # A refusal in words needs the package's table.
        words = ("check", sample("lapse_too_large"))
        ended = run(self.folder / "there" / "bin" / "xaropinto", *words,
                    env={**SHELL, "PYTHONPATH": str(self.folder / "there")})
        found = (ended.returncode, ended.stdout, ended.stderr.decode())
        self.assertEqual(found, tuple(xaropinto(*words)))


class Version(unittest.TestCase):
    """One version everywhere."""

    def test_version(self):
        for name, pattern in (("include/xaropinto.h", r'#define XAROPINTO_VERSION "(.*)"'),
                              ("python/xaropinto/version.py", r'VERSION = "(.*)"'),
                              ("bindings/rust/Cargo.toml", r'(?m)^version = "(.*)"'),
                              ("packaging/xaropinto.1", r'"xaropinto (.*?)"')):
            self.assertEqual(re.search(pattern, (ROOT / name).read_text(encoding="utf-8"))[1],
                             VERSION, name)

    def test_library_of_another_version(self):
        with tempfile.TemporaryDirectory() as folder:
            for source, found in (("unsigned long long xaropinto_version(void) { return 20099; }",
                                   "2.0.99"), ("int nothing;", "2.0.0 or older")):
                library = Path(folder) / "other.so"
                built = subprocess.run(["cc", "-shared", "-fPIC", "-x", "c", "-", "-o", library],
                                       input=source.encode(), check=False)
                self.assertEqual(built.returncode, 0)
                ended = run(sys.executable, "-m", "xaropinto", "check", sample("one_record"),
                            env={**SHELL, "PYTHONPATH": str(ROOT / "python"),
                                 "XAROPINTO_LIBRARY": str(library)})
                self.assertEqual((ended.returncode, ended.stdout), (2, b""))
                self.assertIn(f"is of version {found}, this package of {VERSION}\n",
                              ended.stderr.decode())


class Make(unittest.TestCase):
    """`make list` lists what it is told to, or fails."""

    def test_sample_is_told(self):
        ended = run("make", "list")
        self.assertEqual(ended.returncode, 0)
        self.assertIn(b"the sample", ended.stderr)

    def test_book(self):
        ended = run("make", "list", f"BOOK={sample('small_insurer')}")
        self.assertEqual((ended.returncode, ended.stdout, ended.stderr), (0, LISTING, b""))

    def test_names_with_quotes_and_dollars(self):
        with tempfile.TemporaryDirectory() as folder:
            path = Path(folder) / "it's $(HOME) \"mine\" $x.book"
            path.write_bytes(sample("small_insurer").read_bytes())
            ended = run("make", "list", f"BOOK={path}")
            self.assertEqual((ended.returncode, ended.stdout), (0, LISTING))

    def test_wrong_words(self):
        for words in (("list", "mine.book"), ("list", "book=mine.book"),
                      ("check", "samples/full.book"), ("list", "BOOK=/nowhere"),
                      ("list", "BOOK=samples"), ("list", f"BOOK={sample('lapse_too_large')}"),
                      ("check", f"BOOK={sample('lapse_too_large')}")):
            with self.subTest(words=words):
                self.assertNotEqual(run("make", *words).returncode, 0)


if __name__ == "__main__":
    sys.exit(run_unit_tests(sys.modules[__name__]))
