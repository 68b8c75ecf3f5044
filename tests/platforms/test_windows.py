"""The library for Windows, under wine: the C tests, all suites of the calls, the samples."""

import os
import shutil
import subprocess
import sys
import tempfile
from pathlib import Path

from tests.platforms import native
from tests.support.report import run_unit_tests
from tools.targets.retarget import WINDOWS

MOST_SECONDS = 300


class Windows(native.NativeCase):
    """The DLL beside the programs, which are linked with its import library."""

    target = WINDOWS
    compiler, end = "x86_64-w64-mingw32-gcc", ".exe"
    packages = {"wine": ["wine", "wine64"], compiler: ["gcc-mingw-w64-x86-64"]}

    @classmethod
    def setUpClass(cls):
        super().setUpClass()
        held = tempfile.TemporaryDirectory(ignore_cleanup_errors=True)
        cls.addClassCleanup(held.cleanup)
        # Without windows, and without what wine would fetch for browsers and .NET.
        cls.env = {**os.environ, "WINEPREFIX": held.name, "WINEDEBUG": "-all",
                   "WINEDLLOVERRIDES": "mscoree=;mshtml="}
        cls.env.pop("DISPLAY", None)
        subprocess.run(["wineboot", "--init"], env=cls.env, capture_output=True,
                       timeout=MOST_SECONDS, check=False)
        cls.addClassCleanup(subprocess.run, ["wineserver", "--kill"], env=cls.env,
                            capture_output=True, check=False)

    def surroundings(self):
        return self.env

    def linked(self, library):
        return [str(library / "xaropinto.lib")]

    def compile(self, source, linked, work):
        for library in linked:
            shutil.copy(Path(library).with_suffix(".dll"), work)
        return super().compile(source, linked, work)

    def started(self, program):
        return ["wine", str(program)]

    def test_caller_in_c(self):
        self.run_caller("DLL", self.linked(self.folder))


if __name__ == "__main__":
    sys.exit(run_unit_tests(sys.modules[__name__]))
