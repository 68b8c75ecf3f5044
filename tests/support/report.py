"""How the gate counts the tests of a module: the last line that it prints, and its exit code."""

import argparse
import os
import sys
import unittest

# How many random inputs are drawn, and with which seed, where these are set.
NUMBER, SEED = "TEST_NUMBER", "TEST_SEED"


class Report:
    """Counts tests: a line for each, and the totals at the end."""

    def __init__(self):
        self.passed = 0
        self.failed = 0

    def test(self, name, holds, detail=""):
        """One test; `detail` says what is missing where it fails."""
        if holds:
            self.passed += 1
            print(f"ok {name}")
        else:
            self.failed += 1
            print(f"FAILED {name}{': ' + str(detail) if detail else ''}")

    def finish(self):
        """Print the totals; the exit code."""
        print(f"{self.passed} passed, {self.failed} failed")
        return 0 if self.failed == 0 and self.passed > 0 else 1


class Counted(unittest.TextTestResult):
    """Counts what passed: a test without subtests as one, any other as its subtests."""

    passed = subtests = 0

    def startTest(self, test):
        super().startTest(test)
        self.subtests = 0

    def addSubTest(self, test, subtest, err):
        super().addSubTest(test, subtest, err)
        self.subtests += 1
        self.passed += err is None

    def addSuccess(self, test):
        super().addSuccess(test)
        self.passed += self.subtests == 0

    def failed(self):
        """How many failed, each of their subtests being one.

        A test that is skipped or expected to fail shows nothing: it has failed. With fewer random
        inputs than usual, as NUMBER asks, those that count kinds of inputs are left out.
        """
        left_out = [] if os.environ.get(NUMBER) else self.skipped
        for test, reason in (*left_out, *self.expectedFailures):
            print(f"FAILED {test}: skipped, or expected to fail: {reason}")
        return sum(map(len, (self.failures, self.errors, self.unexpectedSuccesses, left_out,
                             self.expectedFailures)))


def read_no_words(description):
    """For a script that takes no words: it answers --help, and refuses any other."""
    argparse.ArgumentParser(description=description).parse_args()


def run_unit_tests(module):
    """Run all tests of a module, details to standard error, and print the totals; the exit code."""
    read_no_words(module.__doc__)
    tests = unittest.defaultTestLoader.loadTestsFromModule(module)
    runner = unittest.TextTestRunner(stream=sys.stderr, verbosity=0, resultclass=Counted)
    outcome = runner.run(tests)
    failed = outcome.failed()
    print(f"{outcome.passed} passed, {failed} failed")
    return 0 if failed == 0 and outcome.passed else 1
