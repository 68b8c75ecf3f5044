"""The archive and the programs are built as they are shipped; a program writes its file stdout."""

import sys

from tests import ROOT
from tests.support.case import Case
from tests.support.command import run
from tests.support.report import run_unit_tests

# Where no library is built, each that the archive needs is proved once more: `rt ci` keeps its own.
MOST_SECONDS = 3 * 60 * 60
LIBRARIES = ("libxaropinto.a", "libxaropinto.so", "libxaropinto.so.2")
PROGRAMS = ("listing_main", "year_report_main", "age_basis_main", "test_check")


class Builds(Case):
    """What stands here is built of what stands here: make does nothing where it is."""

    def test_archive_and_shared_library(self):
        code, text = run(["make", "lib"], MOST_SECONDS)
        self.check("make lib", code == 0, f"ended with {code}: {text}")
        for name in LIBRARIES:
            self.check(name, (ROOT / "target" / "lib" / name).is_file())

    def test_programs(self):
        for name in PROGRAMS:
            built = f"target/bin/{name}"
            code, text = run(["make", built], MOST_SECONDS)
            self.check(f"make {built}", code == 0, f"ended with {code}: {text}")
            self.check(name, (ROOT / built).is_file())


if __name__ == "__main__":
    sys.exit(run_unit_tests(sys.modules[__name__]))
