"""Tests of one target: the suites of the calls, the samples, and that a changed module is noticed.
"""

import contextlib
import tempfile
from pathlib import Path

from tests import ROOT
from tests.support.case import Case
from tests.targets.bridge import SUITES, OtherSide, answered_by, calls, run_suite
from tools.targets import FOLDER
from tools.targets.build import build, build_target
from tools.targets.capture import captured

SAMPLES = sorted((ROOT / "samples").glob("*.book"))
MOST_LISTING_BYTES, MOST_REPORT_BYTES = 512, 9_525
# Of the three parts of a version.
VERSION_WEIGHTS = (10_000, 100, 1)
# In the costs of setting 5: 1,200 and 1,201, as the table of weights has them.
CONSTANT, CHANGED = (rf"\{low}\04\00\00\00\00\00\00" for low in ("B0", "B1"))
NOTICED_BY, NOTICED_WITH = "tests.api.test_base_calls", 20


def text_of(call, *arguments, most):
    """The text that a call writes; where it refuses, its line, as in the samples."""
    out = bytearray(most)
    reply = call(*arguments, out)
    if reply.refusal:
        return f"refused {reply.refusal} {reply.place}\n".encode("ascii")
    return bytes(out[:reply.length])


class BridgedCase(Case):
    """A module names the target, and how a process is started that has its library.

    `numbers` are the random inputs of a suite, where they are not as many as the suite has by
    itself.
    """

    target, numbers = None, {}

    @classmethod
    def setUpClass(cls):
        super().setUpClass()
        build()
        cls.folder = FOLDER / cls.target.name

    def command(self, library, work):
        """The command of a process that has the library of a folder, built in a work folder."""
        raise NotImplementedError

    @contextlib.contextmanager
    def side(self, library):
        """A process with the library of a folder, until the end."""
        with tempfile.TemporaryDirectory() as work:
            with OtherSide(self.command(library, Path(work)), self.surroundings()) as one:
                yield one

    def surroundings(self):
        """The environment of that process; None: this one's."""
        return None

    def test_suites(self):
        tests = calls_made = 0
        with self.side(self.folder) as side:
            for name in SUITES:
                ended = run_suite(name, side, self.numbers.get(name))
                self.check(f"{name}: {ended.passed} passed, {ended.calls} calls",
                           ended.passed and ended.calls and not ended.failed, ended.text)
                tests, calls_made = tests + ended.passed, calls_made + ended.calls
        print(f"{self.target.name}: {tests} tests of {len(SUITES)} suites, {calls_made} calls")

    def test_version_and_samples(self):
        parts = map(int, (ROOT / "VERSION").read_text(encoding="ascii").split("."))
        with self.side(self.folder) as side, answered_by(side):
            due = sum(weight * part for weight, part in zip(VERSION_WEIGHTS, parts))
            self.check("the version", calls.version() == due, calls.version())
            for path in SAMPLES:
                book = path.read_bytes()
                listing = text_of(calls.listing, book, most=MOST_LISTING_BYTES)
                report = text_of(calls.report, book, 0, most=MOST_REPORT_BYTES)
                self.check(f"{path.stem}: listing", listing == beside(path, ".listing"))
                self.check(f"{path.stem}: report", report == beside(path, ".report"))

    def test_a_changed_constant_is_noticed(self):
        module = captured()
        self.assertIn(CONSTANT, module)
        with tempfile.TemporaryDirectory() as folder:
            build_target(module.replace(CONSTANT, CHANGED, 1), self.target, folder)
            with self.side(Path(folder) / self.target.name) as side:
                ended = run_suite(NOTICED_BY, side, NOTICED_WITH)
        self.check("by a suite", ended.failed and ended.calls, "no test failed")
        self.check("by its replies alone", "replies agree" in ended.text, ended.text)


def beside(path, end):
    """The file of a sample that has another end."""
    return path.with_suffix(end).read_bytes()
