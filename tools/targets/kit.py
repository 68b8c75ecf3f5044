"""The kit of `rt`, and the LLVM of its toolchain."""

import shutil
import subprocess
from pathlib import Path

from tools.targets import BuildError

MOST_SECONDS = 300


def home():
    """The kit's folder, found as `rt` itself finds it: by where its program stands."""
    program = shutil.which("rt")
    if not program:
        raise BuildError("rt is not on the path: the toolchain is needed")
    return Path(program).resolve().parent.parent


def clang():
    """The kit's clang. It is all tools of LLVM: its name at the start says which."""
    path = home() / "toolchain" / "bin" / "clang"
    if not path.is_file():
        raise BuildError(f"the kit has no {path.relative_to(home())}")
    return path


def run_tool(name, *words, folder=None):
    """Run a tool of the kit's LLVM by its name; what it printed."""
    program = clang()
    # Clang looks for itself by its path.
    called = str(program) if name == program.name else name
    ended = subprocess.run(
        [called, *map(str, words)], executable=program, cwd=folder, stdin=subprocess.DEVNULL,
        capture_output=True, text=True, timeout=MOST_SECONDS, check=False)
    if ended.returncode:
        raise BuildError(f"{name} ended with {ended.returncode}: {ended.stderr or ended.stdout}")
    return ended.stdout
