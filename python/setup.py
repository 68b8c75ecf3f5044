"""Makes the wheel one of a platform: it holds the shared library, and runs on any Python 3."""

import sys
from pathlib import Path

from setuptools import setup
from setuptools.command.build_py import build_py

try:
    from setuptools.command.bdist_wheel import bdist_wheel
except ImportError:  # setuptools before 70.1
    from wheel.bdist_wheel import bdist_wheel

HERE = Path(__file__).resolve().parent
PACKAGE = HERE / "xaropinto"
LIBRARY = PACKAGE / ("xaropinto.dll" if sys.platform == "win32" else "libxaropinto.so")
IDENTITY = HERE.parent / "tools" / "dist" / "identity.py"


class PackageBuild(build_py):
    """In the repository the package also gets what `xaropinto --version` prints."""

    def run(self):
        super().run()
        if IDENTITY.is_file():
            sys.path.insert(0, str(HERE.parent))
            from tools.dist.identity import build_json

            (Path(self.build_lib) / "xaropinto" / "build.json").write_bytes(build_json())


class PlatformWheel(bdist_wheel):
    """A wheel with the shared library, which `make lib` puts beside the modules."""

    def finalize_options(self):
        if not LIBRARY.is_file():
            raise FileNotFoundError(f"{LIBRARY} is missing: run `make lib` in the repository first")
        super().finalize_options()
        self.root_is_pure = False

    def get_tag(self):
        return "py3", "none", super().get_tag()[2]


setup(cmdclass={"bdist_wheel": PlatformWheel, "build_py": PackageBuild})
