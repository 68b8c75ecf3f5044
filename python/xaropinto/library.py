"""Where the shared library with the proved calls is found, and how it is loaded."""

import ctypes
import os
import sys
import sysconfig
from functools import lru_cache
from pathlib import Path
from typing import NamedTuple

from xaropinto.version import VERSION

# A path set here is the only one that is tried.
VARIABLE = "XAROPINTO_LIBRARY"
HERE = Path(__file__).resolve().parent
# Lengths are passed as 64-bit numbers.
LARGEST_64_BIT = 2**63 - 1


class Build(NamedTuple):
    """The library of a platform: the name of its file, and where it is built below target/ in the
    repository."""

    name: str
    built: str


# By what Python calls the platform that it was built for.
BUILDS = {
    "linux-x86_64": Build("libxaropinto.so", "lib/libxaropinto.so"),
    "linux-aarch64": Build("libxaropinto.so", "targets/linux-arm64/libxaropinto.so.2"),
    "win-amd64": Build("xaropinto.dll", "targets/windows-x86_64/xaropinto.dll"),
}
SUPPORTED = "Linux on x86-64 and arm64, and Windows on x86-64"


class LibraryError(ImportError):
    """The shared library is not there, cannot be loaded, or lacks a call."""


def build_of_this_platform() -> Build:
    """The library for the Python that runs."""
    here = sysconfig.get_platform()
    if here not in BUILDS:
        raise LibraryError(
            f"there is no library for a Python of {here}, only for {SUPPORTED};"
            f" {VARIABLE} names one that was built for it"
        )
    return BUILDS[here]


def places() -> list[Path]:
    """Where it may stand: beside the package, or where it is built in the repository."""
    build = build_of_this_platform()
    return [HERE / build.name, HERE.parents[1] / "target" / build.built]


def find_library() -> Path:
    """The shared library's path."""
    if sys.maxsize < LARGEST_64_BIT:
        raise LibraryError("this Python has 32 bits; one with 64 is needed")
    named = os.environ.get(VARIABLE)
    candidates = [Path(named)] if named else places()
    for path in candidates:
        if path.is_file():
            # A name without a folder would be searched for where the system keeps libraries.
            return path.absolute()
    tried = ", ".join(map(str, candidates))
    raise LibraryError(
        f"no library at {tried}: run `make lib` in the repository, or set {VARIABLE} to its path"
    )


@lru_cache(maxsize=None)
def loaded_library() -> ctypes.CDLL:
    """The shared library, loaded once."""
    path = find_library()
    try:
        library = ctypes.CDLL(str(path))
    except OSError as error:
        raise LibraryError(f"{path} cannot be loaded: {error}") from error
    found = version_of(library)
    if found != VERSION:
        raise LibraryError(f"{path} is of version {found}, this package of {VERSION}")
    return library


def version_of(library: ctypes.CDLL) -> str:
    """The version of a library, which 2.1.0 and later ones can say."""
    try:
        function = library.xaropinto_version
    except AttributeError:
        return "2.0.0 or older"
    function.restype = ctypes.c_uint64
    number = function()
    return f"{number // 10_000}.{number // 100 % 100}.{number % 100}"
