"""Builds the archive, then builds and runs its callers in C and Rust, test by test."""

import re
import sys

from tests import ROOT
from tests.support.case import Case
from tests.support.command import run
from tests.support.report import run_unit_tests

BUILT = "target/callers/caller"
C_CALLER = ["gcc", "-std=c99", "-Wall", "-Wextra", "-Werror", "-O2", "-Iinclude", "-o", BUILT,
            "bindings/c/tests/caller.c", "target/lib/libxaropinto.a"]
HEADER_IN_CPP = ["g++", "-std=c++11", "-Wall", "-Wextra", "-Werror", "-fsyntax-only", "-x", "c++",
                 "include/xaropinto.h"]
WATCHED_MEMORY = ["valgrind", "--error-exitcode=9", "-q"]
TOTALS = "target/callers/totals"
C_TOTALS = [*C_CALLER[:-4], "-o", TOTALS, "bindings/c/tests/totals.c", C_CALLER[-1]]
COUNTED = ["valgrind", "--tool=callgrind", "--callgrind-out-file=/dev/null", TOTALS]
COLLECTED = re.compile(r"Collected : (\d+)")
# What Totals of a sample takes, and a tenth more. Where the compiler calls a year of a cell, and
# does not inline it, it takes about twice as many.
MOST_INSTRUCTIONS = {"full": 10_000_000, "small_insurer": 1_400_000}
CALLS = 4
# All packages, so that the timing program is compiled too.
RUST_TESTS = ["cargo", "test", "--offline", "--locked", "--workspace"]
# Where cargo is run: it takes its settings from here, such as where it builds.
RUST_FOLDER = ROOT / "bindings" / "rust"
# For each command; all together stay below what the gate allows.
MOST_SECONDS = 600

C_TEST = re.compile(r"^(?P<state>ok|FAILED) (?P<name>.*)$", re.MULTILINE)
C_TALLY = re.compile(r"^(\d+) passed, (\d+) failed$", re.MULTILINE)
# A test that is ignored shows nothing: it counts as failed, since it is not ok.
RUST_TEST = re.compile(r"^test (?P<name>.*) \.\.\. (?P<state>.*)$", re.MULTILINE)
RUST_TALLY = re.compile(r"^test result: \w+\. (\d+) passed; (\d+) failed;", re.MULTILINE)


class Callers(Case):
    """Without an archive there is nothing to call."""

    @classmethod
    def setUpClass(cls):
        code, text = run(["make", "lib"], MOST_SECONDS)
        if code:
            raise AssertionError(f"make lib ended with {code}: {text}")
        (ROOT / BUILT).parent.mkdir(parents=True, exist_ok=True)

    def check_command(self, name, command):
        """One check: the command ends well."""
        code, text = run(command, MOST_SECONDS)
        self.check(name, code == 0, f"{command[0]} ended with {code}: {text.rstrip()}")

    def check_tests(self, command, test, tally, folder=ROOT):
        """A check for each test that a command runs; their tallies count as many."""
        code, text = run(command, MOST_SECONDS, folder)
        tests = [(each["name"], each["state"]) for each in test.finditer(text)]
        for name, state in tests:
            self.check(name, state == "ok", f"{name} is {state}:\n{text.rstrip()}")
        counted = sum(int(number) for numbers in tally.findall(text) for number in numbers)
        self.assertEqual((code, counted), (0, len(tests)), text.rstrip())

    def test_archive_and_shared_library(self):
        for name in ("libxaropinto.a", "libxaropinto.so"):
            self.assertTrue((ROOT / "target" / "lib" / name).is_file(), name)

    def test_caller_in_c(self):
        self.check_command("the caller in C is built", C_CALLER)
        self.check_tests([BUILT], C_TEST, C_TALLY)
        self.check_command("the caller in C with its memory watched", [*WATCHED_MEMORY, BUILT])

    def test_instructions_of_totals(self):
        self.check_command("Totals alone is built", C_TOTALS)
        for name, most in MOST_INSTRUCTIONS.items():
            idle, busy = (self.instructions(name, calls) for calls in (0, CALLS))
            each = (busy - idle) // CALLS
            self.check(f"instructions of Totals of {name}", 0 < each <= most, f"{each:,}")

    def instructions(self, name, calls):
        """What valgrind counts of a run with so many calls of Totals."""
        code, text = run([*COUNTED, f"samples/{name}.book", str(calls)], MOST_SECONDS)
        counted = COLLECTED.search(text)
        self.assertTrue(code == 0 and counted, f"valgrind ended with {code}: {text}")
        return int(counted[1])

    def test_header_is_cpp_too(self):
        self.check_command("the header in C++", HEADER_IN_CPP)

    def test_caller_in_rust(self):
        self.check_tests(RUST_TESTS, RUST_TEST, RUST_TALLY, RUST_FOLDER)


if __name__ == "__main__":
    sys.exit(run_unit_tests(sys.modules[__name__]))
