"""Where openpyxl stands, for workbooks: of this interpreter, or of the system's."""

import atexit
import functools
import importlib.util
import sys
import tempfile
from pathlib import Path

from tests.support.debian import install

SYSTEM = Path("/usr/lib/python3/dist-packages")
NEEDED = ("openpyxl", "et_xmlfile")
PACKAGE = "python3-openpyxl"


def installed(package):
    """The folder of a package; where it is missing it is installed."""
    spec = importlib.util.find_spec(package)
    path = Path(spec.origin).parent if spec and spec.origin else SYSTEM / package
    if not path.is_dir():
        install([PACKAGE])
    if not path.is_dir():
        raise FileNotFoundError(f"{package} is not installed: Debian's {PACKAGE} has it")
    return path


@functools.cache
def openpyxl_folder():
    """A folder, until this run ends, with openpyxl and what it needs and nothing else."""
    held = tempfile.TemporaryDirectory()
    atexit.register(held.cleanup)
    for package in NEEDED:
        (Path(held.name) / package).symlink_to(installed(package), target_is_directory=True)
    return held.name


@functools.cache
def import_openpyxl():
    """The package."""
    sys.path.append(openpyxl_folder())
    return importlib.import_module("openpyxl")
