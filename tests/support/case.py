"""Test cases of all outside tests: a check is a subtest, and the gate counts each one."""

import unittest


class Case(unittest.TestCase):
    """A test case whose checks each have a name; one that fails does not stop the others."""

    def check(self, name, holds, detail=""):
        """One check; `detail` says what is wrong where it fails."""
        with self.subTest(name):
            if not holds:
                self.fail(detail or name)

    def covers(self, name, expected, seen):
        """A check that everything expected was seen; what was not is named."""
        missing = sorted(set(expected) - set(seen), key=str)
        self.check(name, not missing, f"missing {missing[:5]}")

    def rejects(self, name, error, function, *arguments):
        """A check that the call ends with this error."""
        with self.subTest(name), self.assertRaises(error):
            function(*arguments)
