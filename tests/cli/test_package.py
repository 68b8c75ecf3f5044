"""The archive for this machine: a program in C, by CMake and in Rust against it; and the types of
the package."""

import ast
import os
import re
import shutil
import subprocess
import sys
import tempfile
import unittest
from pathlib import Path

from tests import ROOT
from tests.cli.run import sample
from tests.support.debian import install
from tests.support.packages import build_parts
from tests.support.report import run_unit_tests

LISTING = (ROOT / "samples" / "small_insurer.listing").read_bytes()
PACKAGE = ROOT / "python" / "xaropinto"
# What a person's shell has: the gate itself may be run by make, which tells a make below it so.
SHELL = {
    name: word
    for name, word in os.environ.items()
    if name not in ("MAKEFLAGS", "MAKELEVEL", "MFLAGS")
}
MOST_SECONDS = 300
RUST_MAIN = """fn main() {
    let book = std::fs::read(std::env::args().nth(1).unwrap()).unwrap();
    println!("{}", xaropinto::totals(&book).unwrap().n);
}
"""


def run(*words, folder=ROOT, **more):
    """Run a command to its end."""
    return subprocess.run(
        [str(word) for word in words],
        cwd=folder,
        stdin=subprocess.DEVNULL,
        capture_output=True,
        timeout=MOST_SECONDS,
        check=False,
        env={**SHELL, **more},
    )


def unpacked(folder):
    """The archive for this machine, built and unpacked in a folder; the folder that it holds."""
    built = folder / "dist"
    build_parts()
    ended = run(sys.executable, "-m", "tools.dist", "build", built, "--only", "linux-x86_64")
    if ended.returncode:
        raise AssertionError(ended.stderr.decode())
    [archive] = built.glob("*.tar.gz")
    run("tar", "-xzf", archive, "-C", folder)
    return folder / archive.name.removesuffix(".tar.gz")


def shown(text, heading):
    """The lines that a page shows below a heading."""
    part = re.split(r"(?m)^## ", text.partition(f"## {heading}\n")[2])[0]
    return [line.strip() for line in part.splitlines() if line.startswith("    ")]


class Archive(unittest.TestCase):
    """What a machine without the toolchain gets."""

    @classmethod
    def setUpClass(cls):
        install([] if shutil.which("cmake") else ["cmake"])
        held = tempfile.TemporaryDirectory()
        cls.addClassCleanup(held.cleanup)
        cls.folder = Path(held.name)
        cls.top = unpacked(cls.folder)

    def test_rust_crate(self):
        program = self.folder / "program"
        (program / "src").mkdir(parents=True)
        (program / "src" / "main.rs").write_text(RUST_MAIN)
        crate = self.top / "bindings" / "rust"
        (program / "Cargo.toml").write_text(
            '[package]\nname = "program"\nversion = "1.0.0"\nedition = "2021"\n'
            f'[dependencies]\nxaropinto = {{ path = "{crate}" }}\n'
        )
        target = self.folder / "target"
        for named in ({}, {"XAROPINTO_LIB_DIR": str(self.top / "lib")}):
            ended = run(
                "cargo",
                "run",
                "--quiet",
                "--offline",
                "--",
                sample("small_insurer"),
                folder=program,
                CARGO_TARGET_DIR=str(target),
                **named,
            )
            self.assertEqual((ended.returncode, ended.stdout), (0, b"315\n"), ended.stderr)
        ended = run(
            "cargo",
            "build",
            "--offline",
            folder=program,
            CARGO_TARGET_DIR=str(target),
            XAROPINTO_LIB_DIR="/nowhere",
        )
        self.assertNotEqual(ended.returncode, 0)
        self.assertIn(b"no libxaropinto.a in /nowhere", ended.stderr)

    def test_linking_as_described(self):
        text = (self.top / "INSTALL.md").read_text(encoding="utf-8")
        self.assertIn("LD_LIBRARY_PATH", text)
        ended = run("sh", "-euc", "\n".join(shown(text, "C")), folder=self.top)
        self.assertEqual((ended.returncode, ended.stdout), (0, 2 * LISTING), ended.stderr)
        ended = run("./example", "samples/small_insurer.book", folder=self.top)
        self.assertIn(b"libxaropinto.so.2: cannot open shared object file", ended.stderr)

    def cmake(self, *lines, **settings):
        """A project of these lines beside the C example, configured and built; how the first step
        that failed, or the last, ended."""
        project = self.folder / "project"
        project.mkdir(exist_ok=True)
        shutil.copy(self.top / "bindings" / "c" / "examples" / "example.c", project)
        head = ["cmake_minimum_required(VERSION 3.15)", "project(example C)"]
        (project / "CMakeLists.txt").write_text("\n".join([*head, *lines]) + "\n")
        shutil.rmtree(project / "build", ignore_errors=True)
        defined = {"CMAKE_PREFIX_PATH": self.top, **settings}
        ended = run("cmake", "-B", "build", *(f"-D{key}={value}" for key, value in defined.items()),
                    folder=project)
        return ended if ended.returncode else run("cmake", "--build", "build", folder=project)

    def test_cmake_as_described(self):
        lines = shown((self.top / "INSTALL.md").read_text(encoding="utf-8"), "CMake")
        self.assertIn("xaropinto::xaropinto)", lines[-1])
        for target in ("xaropinto::xaropinto", "xaropinto::static"):
            with self.subTest(target=target):
                chosen = lines[-1].replace("xaropinto::xaropinto", target)
                ended = self.cmake(*lines[:-1], chosen)
                self.assertEqual(ended.returncode, 0, ended.stderr)
                program = self.folder / "project" / "build" / "example"
                ended = run(program, sample("small_insurer"))
                self.assertEqual((ended.returncode, ended.stdout), (0, LISTING), ended.stderr)
                needed = run("readelf", "--dynamic", program).stdout
                self.assertEqual(b"libxaropinto.so.2" in needed, "static" not in target)

    def test_cmake_versions(self):
        version = (ROOT / "VERSION").read_text(encoding="ascii").strip()
        first, second, _ = version.split(".")
        for asked, served in ((version, True), (first, True), (f"{first}.0", True),
                              (f"{first}.{int(second) + 1}", False), (f"{int(first) + 1}", False),
                              ("1.0", False)):
            with self.subTest(asked=asked):
                ended = self.cmake(f"find_package(xaropinto {asked} CONFIG REQUIRED)")
                self.assertEqual(ended.returncode == 0, served, ended.stderr)


class Types(unittest.TestCase):
    """What a caller's type checker sees; the package's own types are a part of the gate's style."""

    @classmethod
    def setUpClass(cls):
        install([] if shutil.which("mypy") else ["mypy"])

    def test_funds(self):
        with tempfile.TemporaryDirectory() as folder:
            caller = Path(folder) / "caller.py"
            caller.write_text(
                "import xaropinto\none, _ = xaropinto.funds(b'', b'', b'')\n"
                "if not isinstance(one, xaropinto.RefusedError):\n"
                "    print(one.n + one.totals[0])\n"
            )
            ended = run(
                "mypy", "--strict", "--cache-dir", os.devnull, caller, MYPYPATH=str(ROOT / "python")
            )
            self.assertEqual(ended.returncode, 0, ended.stdout.decode())

    def test_exceptions_end_in_error(self):
        bases = {"Exception", "BaseException", "ImportError", "ValueError", "TypeError", "OSError"}
        names = [
            each.name
            for path in PACKAGE.rglob("*.py")
            for each in ast.walk(ast.parse(path.read_text(encoding="utf-8")))
            if isinstance(each, ast.ClassDef)
            and bases & {base.id for base in each.bases if isinstance(base, ast.Name)}
        ]
        self.assertGreaterEqual(len(names), 4)
        self.assertEqual([name for name in names if not name.endswith("Error")], [])


if __name__ == "__main__":
    sys.exit(run_unit_tests(sys.modules[__name__]))
