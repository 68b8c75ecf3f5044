"""The proved calls in WebAssembly, through web/src/calls.js under node: the suites of the calls."""

import re
import shutil
import sys
import tempfile
from pathlib import Path
from unittest import mock

from tests import ROOT
from tests.support.command import run
from tests.support.debian import install
from tests.support.report import run_unit_tests
from tests.targets import bridged
from tools.targets import build
from tools.targets.capture import captured
from tools.targets.retarget import WASM32

NODE, PACKAGE = "node", "nodejs"
SERVER = ROOT / "tests" / "web" / "call_server.mjs"
ARGUMENTS = ROOT / "tests" / "web" / "call_arguments.mjs"
SAMPLES = ROOT / "samples"
TEST = re.compile(r"^(ok|FAILED) (.*)$", re.M)
SMALL_STACK_BYTES = 4_096
MOST_SECONDS = 60
# By suite: all together take less than a minute.
NUMBERS = {
    "tests.api.test_age_basis": 2_000,
    "tests.api.test_base_calls": 200,
    "tests.api.test_claims_variation": 24_000,
    "tests.api.test_cost_rates": 6_000,
    "tests.api.test_funds": 60,
    "tests.api.test_in_force": 60,
    "tests.api.test_listing": 60,
    "tests.api.test_practice_book": 50,
    "tests.api.test_standard_deviation": 800,
    "tests.api.test_write_read": 200,
    "tests.api.test_year_report": 60,
}


class WebAssemblyCalls(bridged.BridgedCase):
    """Each suite, each sample, and a changed module."""

    target, numbers = WASM32, NUMBERS

    @classmethod
    def setUpClass(cls):
        if not shutil.which(NODE):
            install([PACKAGE])
        super().setUpClass()

    def command(self, library, work):
        return [NODE, str(SERVER), str(library / "xaropinto.wasm")]

    def test_arguments_memory_and_traps(self):
        with tempfile.TemporaryDirectory() as folder:
            with mock.patch.object(build, "STACK_BYTES", SMALL_STACK_BYTES):
                [small] = build.build_target(captured(), WASM32, folder)
            code, text = run([NODE, str(ARGUMENTS), str(self.folder / "xaropinto.wasm"), str(small),
                              str(SAMPLES)], MOST_SECONDS, Path(folder))
        self.assertEqual(code, 0, text)
        for state, name in TEST.findall(text):
            self.check(name, state == "ok", text)


if __name__ == "__main__":
    sys.exit(run_unit_tests(sys.modules[__name__]))
