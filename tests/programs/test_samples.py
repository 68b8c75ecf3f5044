"""The sample books are as built, and the built check gives the verdicts that the documents name."""

import sys

from tests import ROOT
from tests.support.case import Case
from tests.support.program import verdict_lines
from tests.support.report import run_unit_tests
from tools.sample_books import FOLDER, PAGES, SAMPLES, all_files, files


class Samples(Case):
    """The files of samples/, and what the proofs of the programs run them on."""

    def test_files_are_as_built(self):
        for name, due in all_files().items():
            path = ROOT / name
            self.check(name, path.is_file() and path.read_bytes() == due)

    def test_nothing_else_lies_beside_them(self):
        held = sorted(path.name for path in FOLDER.iterdir())
        self.assertEqual(held, sorted([*files(), *PAGES]))

    def test_verdicts(self):
        lines, code = verdict_lines([book for _, book, _ in SAMPLES])
        self.check("the program ends with code 0", code == 0, f"it ended with {code}")
        for (name, _, verdict), line in zip(SAMPLES, lines + [""] * len(SAMPLES)):
            self.check(f"samples/{name}.book is {verdict}", line == verdict, line)


if __name__ == "__main__":
    sys.exit(run_unit_tests(sys.modules[__name__]))
