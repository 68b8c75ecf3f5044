"""The library for Linux on arm64, under qemu: the C tests, all suites of the calls, the samples."""

import sys

from tests.platforms import native
from tests.support.report import run_unit_tests
from tools.targets.retarget import ARM64

# Where the cross compiler's C library is.
SYSTEM = "/usr/aarch64-linux-gnu"


class Arm64(native.NativeCase):
    """The shared library answers the suites; the C tests are linked with the archive too."""

    target = ARM64
    compiler = "aarch64-linux-gnu-gcc"
    packages = {"qemu-aarch64": ["qemu-user"],
                compiler: ["gcc-aarch64-linux-gnu", "libc6-dev-arm64-cross"]}

    def linked(self, library):
        return [str(library / "libxaropinto.so.2"), f"-Wl,-rpath,{library}"]

    def started(self, program):
        return ["qemu-aarch64", "-L", SYSTEM, str(program)]

    def test_caller_in_c(self):
        self.run_caller("shared library", self.linked(self.folder))
        self.run_caller("archive", [str(self.folder / "libxaropinto.a"), "-static"])


if __name__ == "__main__":
    sys.exit(run_unit_tests(sys.modules[__name__]))
