"""The table of refusals stands alike in the documents, the header and the Rust wrapper."""

import sys

from tests import ROOT
from tests.support.case import Case
from tests.support.report import run_unit_tests
from tools.refusals import copies, refusals


class Refusals(Case):
    """The one table of the Python package, and its copies."""

    def test_copies(self):
        for path, text, due in copies():
            self.check(f"{path.relative_to(ROOT)} has the table", text == due,
                       "run python3 -m tools.refusals write")

    def test_refusals_are_numbered_from_1_without_a_gap(self):
        self.assertEqual(sorted(refusals()), list(range(1, len(refusals()) + 1)))


if __name__ == "__main__":
    sys.exit(run_unit_tests(sys.modules[__name__]))
