"""Tests of the gate itself, on parts that are made up: its tally, its failures, its progress."""

import contextlib
import io
import os
import signal
import subprocess
import sys
import tempfile
import time
import types
import unittest
from pathlib import Path
from unittest.mock import patch

from tests import ROOT, gate
from tests.support.case import Case
from tests.support.differential import Differential
from tests.support.progress import Line, Work, crates_listed, crates_needed
from tests.support.report import NUMBER, SEED, run_unit_tests

# What `rt ci` prints as it goes: crates proved, kept and not proved; edits; programs and tests.
PRINTED = """== text
rt: text proved
rt: text: trying its must-fail edits (3)
rt: field is kept: an earlier run on this machine proved the same files over the same libraries
== book: its tests
rt: book: its tests are NOT PROVED
rt: look NOT PROVED
rt: glance NOT PROVED: its library look failed
rt: must-fail text/one.edit: refused, as it must be: ./proofs/x/Answers.antt:3:5: error: `x`
rt: must-fail text/two.edit: NOT REFUSED: the crate is still proved with this edit
rt: must-fail text/three.edit: BAD EDIT: an 'old:' text is in src/lib.rt 0 times, and not once
rt: must-fail field/four.edit: NOT TRIED: it cannot be read
rt: listing ran, and wrote what its file stdout has
rt: report: the program ended with status 1, and not 0; it said:
rt: convert (built by Rattle's own compiler; the LLVM build passed): what the program wrote, out/s
rt: generator: its tests FAILED
"""
# What `rt all test` prints as crates end, and what `rt lib` prints as they begin.
ALL_PRINTED = """rt: chose 2 at a time
== text
== book
== summary
text: ok
book: failed (1)
look: not run, since book failed
(1: not proved or not passed, 2: rattle failed, 3: antt could not tell)
1 of 3 crates ok
"""
LIB_PRINTED = """rt: chose --jobs 2 for text
logic=proved functions=1
rt: chose --jobs 2 for book
"""
# The lines with which `rt ci` ends where all else passed.
CI_OK = "rt: ok; handles allowed: none; must-fail edits: {}; every proof was done in this run"
# A gate in a process of its own, of two parts that write their numbers to files and go on for long.
# A run in the background may have started with the signal ignored.
LONG_RUN = """
import signal, sys, tests.gate as gate
signal.signal(signal.SIGINT, signal.default_int_handler)
def long_part(path):
    words = ["sh", "-c", 'echo $$ > "$1"; exec sleep 9999', "sh", path]
    return gate.Part(path, words, 1)
gate.PROOFS, gate.SOURCES = long_part(sys.argv.pop()), [long_part(sys.argv.pop())]
try:
    gate.main()
except KeyboardInterrupt:
    sys.exit(gate.INTERRUPTED)
"""
MOST_SECONDS = 60


def part(name, printed, code=0, least=1):
    """A part that prints something and ends."""
    words = f"import sys; print({printed!r}); sys.exit({code})"
    return gate.Part(name, [sys.executable, "-c", words], least)


class Tally(unittest.TestCase):
    """The last line counts the tests; a part that fails is shown whole."""

    def run_gate(self, proofs, *tests, sources=(), builds=part("builds", "2 passed, 0 failed")):
        """The exit code and the lines of a gate of these parts."""
        written = io.StringIO()
        with contextlib.redirect_stdout(written), patch.object(gate, "CALLS", []), \
                patch.object(gate, "SOURCES", sources), patch.object(gate, "BUILDS", builds), \
                patch.object(gate, "CALLERS", part("callers", "3 passed, 0 failed")):
            code = gate.run_gate(proofs, list(tests), {"text/one"})
        return code, written.getvalue().splitlines()

    def test_all_passes(self):
        code, lines = self.run_gate(part("proofs", "3 passed, 0 failed"),
                                    part("one", "detail\nseed 7\n2 passed, 0 failed"))
        self.assertEqual((code, lines[-1]), (0, "10 passed, 0 failed"))
        self.assertIn("seed 7", lines)
        self.assertNotIn("detail", lines)

    def test_quick_proofs(self):
        code, lines = self.run_gate(part("proofs", "48 of 48 crates ok", least=48))
        self.assertEqual((code, lines[-1]), (0, "53 passed, 0 failed"))
        code, lines = self.run_gate(part("proofs", "46 of 48 crates ok", 1, least=48))
        self.assertEqual((code, lines[-1]), (1, "46 passed, 2 failed"))

    def test_part_fails(self):
        for each in (part("one", "detail\n1 passed, 1 failed", 1), part("one", "detail\nno tally"),
                     part("one", "detail\n2 passed, 0 failed", least=3),
                     part("one", "detail\n2 passed, 0 failed", 1)):
            code, lines = self.run_gate(part("proofs", "3 passed, 0 failed"), each)
            self.assertEqual((code, lines[-1].endswith(" 1 failed")), (1, True), lines)
            self.assertIn("detail", lines)

    def test_proofs_fail(self):
        code, lines = self.run_gate(part("proofs", "2 passed, 1 failed", 1), part("one", "detail"))
        self.assertEqual((code, lines[-1]), (1, "2 passed, 1 failed"))

    def test_builds_fail(self):
        builds = part("builds", "detail\n1 passed, 1 failed", 1)
        code, lines = self.run_gate(part("proofs", "3 passed, 0 failed"), part("one", "no tally"),
                                    builds=builds)
        self.assertEqual((code, lines[-1]), (1, "4 passed, 1 failed"))
        self.assertIn("detail", lines)

    def test_sources_run_beside_the_proofs(self):
        # Each waits for a file that the other writes.
        words = "import pathlib, sys, time\n" \
                "pathlib.Path(sys.argv[1]).touch()\n" \
                "while not pathlib.Path(sys.argv[2]).exists(): time.sleep(0.01)\n" \
                "print('3 passed, 0 failed')"
        with tempfile.TemporaryDirectory() as folder, patch.object(gate, "MOST_SECONDS", 9):
            paths = [str(Path(folder, name)) for name in ("one", "two")]
            proofs, source = (gate.Part(order[0], [sys.executable, "-c", words, *order], 3)
                              for order in (paths, paths[::-1]))
            code, lines = self.run_gate(proofs, sources=[source])
        self.assertEqual((code, lines[-1]), (0, "11 passed, 0 failed"), lines)

    def test_sources_leave_the_processors_to_the_proofs(self):
        # Its priority, and its group's where that counts.
        words = "import os, pathlib\n" \
                "group = pathlib.Path('/proc/self/autogroup')\n" \
                "held = group.read_text().split()[-1] if group.exists() else '19'\n" \
                "print(min(os.nice(0), int(held)), 'passed, 0 failed')"
        source = gate.Part("source", [sys.executable, "-c", words], 19)
        code, lines = self.run_gate(part("proofs", "3 passed, 0 failed"), sources=[source])
        self.assertEqual((code, lines[-1]), (0, "27 passed, 0 failed"), lines)

    def test_source_fails(self):
        sources = [part("source", "detail\n1 passed, 1 failed", 1)]
        for proofs, due in ((part("proofs", "3 passed, 0 failed"), "9 passed, 1 failed"),
                            (part("proofs", "2 passed, 1 failed", 1), "3 passed, 2 failed")):
            code, lines = self.run_gate(proofs, sources=sources)
            self.assertEqual((code, lines[-1]), (1, due))
            self.assertIn("detail", lines)

    def test_part_cannot_be_started(self):
        code, lines = self.run_gate(gate.Part("proofs", ["/nowhere/rt", "ci"], 1))
        self.assertEqual((code, lines[-1]), (1, "0 passed, 1 failed"))

    def test_interrupted(self):
        with tempfile.TemporaryDirectory() as folder:
            numbers = [Path(folder, name) for name in ("proofs", "source")]
            started = subprocess.Popen([sys.executable, "-c", LONG_RUN, *map(str, numbers)],
                                       cwd=ROOT, stdout=subprocess.DEVNULL)
            self.addCleanup(started.kill)
            until = time.monotonic() + MOST_SECONDS
            while time.monotonic() < until and not all(
                    number.is_file() and number.read_text() for number in numbers):
                time.sleep(0.05)
            time.sleep(1)
            started.send_signal(signal.SIGINT)
            self.assertEqual(started.wait(MOST_SECONDS), gate.INTERRUPTED)
            for number in numbers:
                with self.assertRaises(ProcessLookupError):
                    os.kill(int(number.read_text()), 0)


class Proofs(unittest.TestCase):
    """The proofs are those of `rt ci`, which passes with edits that it could not apply or read."""

    def run_ci(self, words, code=0):
        """The exit code and the last line of a gate whose proofs print this of the edits."""
        printed = f"{CI_OK.format(words)}\n4 passed, 0 failed"
        code, lines = Tally.run_gate(self, part("proofs", printed, code, least=4))
        return code, lines[-1]

    def test_command(self):
        # All crates, as the checkout stands, in the environment as it is.
        self.assertEqual(gate.PROOFS.command, ["rt", "ci"])
        with patch.object(gate, "try_parts") as tried, patch.object(gate, "SOURCES", ()), \
                patch.object(gate, "state_of_all", return_value=""):
            gate.try_proofs(gate.PROOFS, None, None)
        self.assertEqual(tried.call_args.args[0], [gate.PROOFS])

    def test_edits_that_are_refused(self):
        for words in ("355 refused", "355 refused, 2 of them only by a limit"):
            self.assertEqual(self.run_ci(words), (0, "9 passed, 0 failed"))

    def test_bad_edits_fail(self):
        for words, bad in (("353 refused, 2 bad", 2), ("0 refused, 1 bad", 1),
                           ("9 refused, 1 of them only by a limit, 30 bad", 30)):
            self.assertEqual(self.run_ci(words), (1, f"4 passed, {bad} failed"))

    def test_a_run_of_some_crates_is_not_the_gate(self):
        printed = "4 passed, 0 failed (text and the crates below alone: not the gate)"
        code, lines = Tally.run_gate(self, part("proofs", printed))
        self.assertEqual((code, lines[-1]), (1, "0 passed, 1 failed"))

    def test_what_was_printed_is_kept_and_what_was_proved(self):
        for failed, kept in (0, True), (1, False):
            with tempfile.TemporaryDirectory() as folder:
                log, of_ci = Path(folder, "target", "log"), Path(folder, "state", "ci")
                proofs = part("proofs", f"one\n1 passed, {failed} failed", failed)
                with patch.multiple(gate, CI_LOG=log, OF_CI=of_ci, PROOFS=proofs):
                    code, _ = Tally.run_gate(self, proofs)
                self.assertEqual((code, of_ci.is_file()), (failed, kept))
                self.assertEqual(log.read_text(encoding="utf-8"),
                                 f"one\n1 passed, {failed} failed\n")


class Modules(unittest.TestCase):
    """How the tests of a module are counted, and which modules there are."""

    def count(self, **environment):
        """The exit code and the last line of a module that has one class, with these tests."""
        def run(**tests):
            module = types.ModuleType("made_up", "Made up.")
            module.Tests = type("Tests", (Case,), tests)
            written, details = io.StringIO(), io.StringIO()
            environ = patch.dict(os.environ, {NUMBER: "", **environment})
            with contextlib.redirect_stdout(written), contextlib.redirect_stderr(details), \
                    environ, patch.object(sys, "argv", ["made_up"]):
                code = run_unit_tests(module)
            return code, written.getvalue().splitlines()[-1]
        return run

    def test_a_test_counts_once_or_as_its_checks(self):
        def two_checks(case):
            case.check("one", True)
            case.check("two", True)

        self.assertEqual(self.count()(test_one=lambda case: None, test_two=two_checks),
                         (0, "3 passed, 0 failed"))

    def test_each_check_that_fails_counts_and_the_others_go_on(self):
        def three_checks(case):
            case.check("one", False)
            case.covers("two", {1}, {2})
            case.rejects("three", ValueError, int, "a")
            case.fail("and the rest")

        self.assertEqual(self.count()(test_one=three_checks), (1, "1 passed, 3 failed"))

    def test_a_test_that_is_skipped_has_failed(self):
        def skipped(case):
            case.skipTest("why not")

        tests = {"test_one": skipped, "test_two": lambda case: None}
        self.assertEqual(self.count()(**tests), (1, "1 passed, 1 failed"))
        self.assertEqual(self.count(**{NUMBER: "7"})(**tests), (0, "1 passed, 0 failed"))
        expected = unittest.expectedFailure(lambda case: case.fail())
        self.assertEqual(self.count()(test_one=expected), (1, "0 passed, 1 failed"))

    def test_a_module_without_tests_fails(self):
        self.assertEqual(self.count()(), (1, "0 passed, 0 failed"))

    def test_number_and_seed(self):
        class Drawn(Differential):
            number, seed = 3, 5

            @classmethod
            def draw(cls, chooser):
                cls.first = chooser.random()

        held = {}
        for number, seed in (("", ""), ("40", "7")):
            with patch.dict(os.environ, {NUMBER: number, SEED: seed}), \
                    contextlib.redirect_stdout(io.StringIO()) as written:
                Drawn.setUpClass()
            held[Drawn.number, Drawn.seed] = (Drawn.first, written.getvalue())
        self.assertEqual(list(held), [(3, 5), (40, 7)])
        self.assertEqual([text for _, text in held.values()], ["seed 5\n", "seed 7\n"])
        self.assertEqual(len({first for first, _ in held.values()}), 2)

    def test_every_module_is_a_part(self):
        # Those of tests/platforms need more than the gate installs: `make test-platforms`.
        paths = sorted(path for path in (ROOT / "tests").rglob("test_*.py")
                       if path.parent.name != "platforms")
        due = [".".join(path.relative_to(ROOT).with_suffix("").parts) for path in paths]
        listed = [gate.module_of(part) for part in gate.PARTS]
        self.assertEqual(sorted(filter(None, listed)), due)


class Progress(unittest.TestCase):
    """What is read off the lines of `rt`, and what is shown."""

    def work(self):
        """Work of which some is done."""
        edits = {"text/one", "text/two", "text/three", "field/four", "look/five"}
        work = Work({"text", "field", "book", "look", "glance"}, edits, ["proofs", "one", "two"])
        work.read(PRINTED.splitlines())
        return work

    def test_read(self):
        work = self.work()
        self.assertEqual(work.proved, {"text", "field", "look", "glance"})
        self.assertEqual(work.tried, {"text/one", "text/two", "text/three", "field/four"})
        self.assertEqual(list(work.bad), ["book", "look", "glance", "text/two", "text/three",
                                          "field/four", "report", "convert", "generator"])

    def test_read_what_begins(self):
        work = Work({"text", "book"}, {"text/one", "text/two", "book/three"})
        work.read(["rt: text: trying its must-fail edits (2)"])
        self.assertEqual(work.edits_begun(), {"text/one", "text/two"})
        work.read(LIB_PRINTED.splitlines())
        self.assertEqual(work.proved, {"text"})

    def test_read_all(self):
        work = Work({"text", "book", "look"})
        work.read(ALL_PRINTED.splitlines())
        self.assertEqual((work.proved, list(work.bad)), ({"text", "book"}, ["book", "look"]))

    def test_words(self):
        words = self.work().words(["one", "two"])
        for each in ("0:00 so far", "crates 4 of 5, edits 4 of 5", "FAILED book, look",
                     "part 2 and 3 of 3: one; two"):
            self.assertIn(each, words)

    def test_seconds_left(self):
        # Done are 8 of 12: crates, edits and tests.
        self.assertEqual(self.work().seconds_left(18), 9)
        self.assertEqual(Work({"text"}, (), ["proofs"]).seconds_left(0), 5)

    def test_slowest(self):
        work = self.work()
        work.ended = {f"part {seconds}": seconds for seconds in range(20)}
        lines = list(work.slowest())
        self.assertEqual((lines[:2], lines[10:]), (["slowest parts:", "    19 s  part 19"],
                                                   ["    10 s  part 10"]))

    def test_line_elsewhere(self):
        shown = io.StringIO()
        with patch("sys.stderr", io.StringIO()), patch("sys.stdout", io.StringIO()):
            line = Line(shown)
        line.show(lambda: "too early")
        line.due = time.monotonic()
        line.show(lambda: "due")
        line.show(lambda: "too early")
        line.clear()
        self.assertEqual(shown.getvalue(), "due\n")

    def test_crates(self):
        self.assertEqual(crates_needed("book_check_header"),
                         {"lists", "verdict", "le_bytes", "book", "book_check_header"})
        self.assertLess(crates_needed("c_api"), set(crates_listed()))


if __name__ == "__main__":
    sys.exit(run_unit_tests(sys.modules["__main__"]))
