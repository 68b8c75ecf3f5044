"""The proved code for other targets than Linux on x86-64: WebAssembly, Windows, Linux on arm64.

The kit compiles the C API from one LLVM module, which is captured, changed only where it names its
target, and compiled again by the kit's own clang and linkers.
"""

from tests import ROOT

FOLDER = ROOT / "target" / "targets"
HEADER = ROOT / "include" / "xaropinto.h"


class BuildError(Exception):
    """A target cannot be built; the message says why."""
