"""The archives where they are made for, as far as this machine can stand in: the command for arm64,
by Debian's Python for arm64 under qemu; the launcher for Windows, by the command processor of wine.

No package of Debian has a Python for Windows: there a batch file stands in for it.
"""

import os
import shutil
import subprocess
import sys
import tempfile
import unittest
from pathlib import Path

from tests import ROOT
from tests.support.debian import install
from tests.support.report import run_unit_tests

MOST_SECONDS = 300
SAMPLES = ROOT / "samples"
# Kept between runs: the system of arm64 that its Python needs.
ARM64 = ROOT / "target" / "platforms" / "arm64"
PACKAGES = ["python3.11-minimal", "libpython3.11-stdlib"]
LAUNCHER = '@echo ran %*\r\n@exit /b 3\r\n'


def run(*words, folder=ROOT, **more):
    """Run a command to its end."""
    return subprocess.run([str(word) for word in words], cwd=folder, stdin=subprocess.DEVNULL,
                          capture_output=True, timeout=MOST_SECONDS, check=False,
                          env={**os.environ, **more})


def need(*words):
    """Run a command that must end well."""
    ended = run(*words)
    if ended.returncode:
        raise AssertionError(f"{words}: {ended.stdout.decode()}{ended.stderr.decode()}")


def arm64_system():
    """The folder with Debian's Python for arm64; its packages are fetched and unpacked, none is
    installed on this machine."""
    if not ARM64.exists():
        ARM64.parent.mkdir(parents=True, exist_ok=True)
        with tempfile.TemporaryDirectory(dir=ARM64.parent) as name:
            folder = Path(name)
            for each in ("state/lists/partial", "cache/archives/partial", "system"):
                (folder / each).mkdir(parents=True)
            (folder / "status").touch()
            settings = (f"Dir::State={folder}/state", f"Dir::State::status={folder}/status",
                        f"Dir::Cache={folder}/cache", "APT::Architecture=arm64",
                        "APT::Architectures=arm64", "APT::Sandbox::User=root")
            apt = ["apt-get", *(word for each in settings for word in ("-o", each))]
            need(*apt, "update")
            need(*apt, "install", "--download-only", "-y", "--no-install-recommends", *PACKAGES)
            for path in sorted((folder / "cache" / "archives").glob("*.deb")):
                need("dpkg-deb", "--extract", path, folder / "system")
            os.replace(folder / "system", ARM64)
    return ARM64


def unpacked(folder, platform):
    """An archive built and unpacked in a folder; the folder that it holds."""
    need(sys.executable, "-m", "tools.dist", "build", folder / "dist", "--only", platform)
    [archive] = [path for path in (folder / "dist").iterdir()
                 if path.name.endswith((".tar.gz", ".zip"))]
    shutil.unpack_archive(archive, folder)
    return folder / archive.name.removesuffix(".zip").removesuffix(".tar.gz")


class Unpacked(unittest.TestCase):
    """An archive in a folder of its own."""

    platform, packages = "", {}

    @classmethod
    def setUpClass(cls):
        install([name for name, program in cls.packages.items() if not shutil.which(program)])
        held = tempfile.TemporaryDirectory()
        cls.addClassCleanup(held.cleanup)
        cls.folder = Path(held.name)
        cls.top = unpacked(cls.folder, cls.platform)


class Arm64(Unpacked):
    """The command of the archive for arm64, and the package in its wheel."""

    platform, packages = "linux-arm64", {"qemu-user": "qemu-aarch64"}

    @classmethod
    def setUpClass(cls):
        super().setUpClass()
        system = arm64_system()
        cls.python = ["qemu-aarch64", "-L", system, system / "usr" / "bin" / "python3.11"]

    def command(self, *words):
        """The command by Python for arm64."""
        return run(*self.python, self.top / "bin" / "xaropinto", *words, folder=self.top)

    def test_platform(self):
        ended = run(*self.python, "-c", "import sysconfig; print(sysconfig.get_platform())")
        self.assertEqual(ended.stdout, b"linux-aarch64\n", ended.stderr)

    def test_samples_to_the_byte(self):
        accepted = 0
        for book in sorted(SAMPLES.glob("*.book")):
            due = book.with_suffix(".listing").read_bytes()
            with self.subTest(book=book.name):
                ended = self.command("list", book)
                refused = due.startswith(b"refused")
                self.assertEqual(ended.returncode, 1 if refused else 0, ended.stderr)
                self.assertEqual(ended.stdout, b"" if refused else due)
                accepted += not refused
        self.assertGreaterEqual(accepted, 8)

    def test_reports_to_the_byte(self):
        for name in ("full", "small_insurer"):
            ended = self.command("years", SAMPLES / f"{name}.book", "--setting", 0)
            self.assertEqual(ended.stdout, (SAMPLES / f"{name}.report").read_bytes(), ended.stderr)

    def test_a_book_through_sheets(self):
        book, sheets, again = SAMPLES / "small_insurer.book", self.folder / "sheets", \
            self.folder / "again.book"
        for words in (("read", book, "-o", sheets), ("write", sheets, "-o", again)):
            ended = self.command(*words)
            self.assertEqual(ended.returncode, 0, ended.stderr)
        self.assertEqual(self.command("list", again).stdout,
                         book.with_suffix(".listing").read_bytes())

    def test_wheel(self):
        [wheel] = (self.folder / "dist").glob("*.whl")
        ended = run(*self.python, "-m", "xaropinto", "list", SAMPLES / "full.book",
                    folder=self.folder, PYTHONPATH=str(wheel))
        # A library cannot be loaded out of a zip archive: the wheel is unpacked as pip does it.
        self.assertNotEqual(ended.returncode, 0)
        shutil.unpack_archive(wheel, self.folder / "wheel", "zip")
        ended = run(*self.python, "-m", "xaropinto", "list", SAMPLES / "full.book",
                    folder=self.folder, PYTHONPATH=str(self.folder / "wheel"))
        self.assertEqual(ended.stdout, (SAMPLES / "full.listing").read_bytes(), ended.stderr)


class WindowsLauncher(Unpacked):
    """`bin\\xaropinto` finds Python and its own folder, and passes arguments and exit code on."""

    platform, packages = "windows-x86_64", {"wine": "wine"}

    def launched(self, path, words):
        """The launcher by wine, in the archive's folder, with a path of its own. A batch file has
        the line: wine changes quotes in words that it is given."""
        (self.top / "line.bat").write_bytes(
            f"@set PATH={path}\r\n@bin\\xaropinto.cmd {words}\r\n".encode())
        return run("wine", "cmd", "/c", "line.bat", folder=self.top,
                   WINEPREFIX=str(self.folder / "wine"), WINEDEBUG="-all")

    def test_python_on_the_path(self):
        (self.folder / "some where").mkdir()
        (self.folder / "some where" / "python.bat").write_bytes(LAUNCHER.encode())
        path = f"Z:{self.folder}\\some where;%PATH%".replace("/", "\\")
        ended = self.launched(path, 'check "a b.book" --json')
        said = ended.stdout.decode().strip()
        self.assertEqual(ended.returncode, 3, (said, ended.stderr))
        place = str(self.top / "bin" / "xaropinto").replace("/", "\\")
        self.assertEqual(said, f'ran "Z:{place}" check "a b.book" --json')

    def test_no_python(self):
        ended = self.launched("C:\\windows\\system32", "check x")
        self.assertNotEqual(ended.returncode, 0)


if __name__ == "__main__":
    sys.exit(run_unit_tests(sys.modules[__name__]))
