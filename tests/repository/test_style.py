"""Formatters and linters find nothing to change, and no line or passage is too long or repeated."""

import os
import shutil
import subprocess
import sys
from typing import NamedTuple

from tests import ROOT
from tests.support.case import Case
from tests.support.command import run
from tests.support.debian import install
from tests.support.report import run_unit_tests

MOST_SECONDS = 600
MOST_SHOWN = 40
RUST = ROOT / "bindings" / "rust"
CLIPPY = ["--offline", "--locked", "--workspace", "--all-targets", "--", "-D", "warnings"]
SOURCES = ["python", "reference", "tests", "tools", "packaging/xaropinto"]
# Tools that a machine with the toolchains may lack, and Debian's packages that have them.
PACKAGES = {"flake8": "flake8", "mypy": "mypy", "shellcheck": "shellcheck",
            "clang-format": "clang-format", "tsc": "node-typescript"}
# By the end of a file's name: the most characters of a line.
LONGEST = dict.fromkeys((".rt", ".py", ".rs", ".c", ".h", ".sh", ".md", ".js", ".mjs", ".css"), 100)
LONGEST[".antt"] = 120
# Rows of tables, and attributes, which the layout of Rattle has on one line.
KEPT_ON_ONE_LINE = ("|", "#[tactic(")
# Between these words a file has lines that are written from the table of refusals.
BEGIN, END = "refusals: begin", "refusals: end"
# So many lines in a row stand in one place alone; crates have their own kind of text.
REPEATED = 10
NOT_COMPARED = ("crates/", "samples/", "docs/")
COMPARED = (".py", ".rs", ".c", ".h", ".sh", ".js", ".mjs", ".css")


class Tool(NamedTuple):
    """A formatter or linter: its command, and where it is run."""

    name: str
    command: list
    folder: os.PathLike = ROOT


def files(*ends):
    """The files of the repository whose names end like this, from the root."""
    listed = subprocess.run(["git", "ls-files", "-z", "--cached", "--others", "--exclude-standard"],
                            cwd=ROOT, capture_output=True, check=True)
    names = (os.fsdecode(name) for name in listed.stdout.split(b"\0") if name)
    return sorted(name for name in names if name.endswith(ends) and (ROOT / name).is_file())


TOOLS = [
    # `rt fmt` is this, and has no --check; `rt ci` refuses what is not in the layout.
    Tool("rattle fmt", ["rattle", "fmt", "--check", *files(".rt", ".antt")]),
    Tool("cargo fmt", ["cargo", "fmt", "--all", "--check"], RUST),
    Tool("cargo clippy", ["cargo", "clippy", "--quiet", *CLIPPY], RUST),
    Tool("flake8", ["flake8", *SOURCES]),
    Tool("mypy --strict", ["mypy"]),
    Tool("shellcheck", ["shellcheck", *files(".sh"), ".ci/run"]),
    Tool("clang-format", ["clang-format", "--dry-run", "-Werror", *files(".c", ".h")]),
    # The modules of the web page import what is written first.
    Tool("tables of the web page", [sys.executable, "-m", "tools.web_tables"]),
    Tool("tsc", ["tsc", "--project", "web/jsconfig.json"]),
]


def lines_of(name):
    """The numbered lines of a file that people write."""
    written, text = True, (ROOT / name).read_text(encoding="utf-8")
    for number, line in enumerate(text.splitlines(), 1):
        written = written and BEGIN not in line or END in line
        if written:
            yield number, line


def passages(name):
    """Each passage of so many lines, blank ones left out, with the number of its first line."""
    held = [(number, line.strip()) for number, line in lines_of(name) if line.strip()]
    for at in range(len(held) - REPEATED + 1):
        part = held[at:at + REPEATED]
        yield part[0][0], tuple(line for _, line in part)


class Style(Case):
    """What is missing on the machine is installed from Debian's packages, or named."""

    @classmethod
    def setUpClass(cls):
        install([package for tool, package in PACKAGES.items() if not shutil.which(tool)])

    def test_tools(self):
        for name, command, folder in TOOLS:
            tool = command[0]
            if not shutil.which(tool):
                package = PACKAGES.get(tool, tool)
                self.check(name, False, f"{tool} is missing: apt-get install {package}")
                continue
            code, text = run(command, MOST_SECONDS, folder)
            self.check(name, code == 0, f"ended with {code}: {text.rstrip()[-3_000:]}")

    def test_no_line_is_too_long(self):
        names = files(*LONGEST)
        self.assertTrue(names)
        found = [f"{name}:{number}: {len(line)} characters" for name in names
                 for number, line in lines_of(name)
                 if len(line) > LONGEST[os.path.splitext(name)[1]]
                 and not line.lstrip().startswith(KEPT_ON_ONE_LINE)]
        self.assertFalse(found, "\n".join(found[:MOST_SHOWN]))

    def test_no_passage_stands_twice(self):
        seen, found = {}, []
        for name in files(*COMPARED):
            if name.startswith(NOT_COMPARED):
                continue
            for number, passage in passages(name):
                first = seen.setdefault(passage, f"{name}:{number}")
                if first != f"{name}:{number}":
                    found.append(f"{first} and {name}:{number}")
        self.assertTrue(seen)
        self.assertFalse(found, "\n".join(found[:MOST_SHOWN]))


if __name__ == "__main__":
    sys.exit(run_unit_tests(sys.modules[__name__]))
