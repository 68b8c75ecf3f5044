"""The command, run by its words: what it wrote, its errors, and its exit code."""

import os
import subprocess
import sys
from typing import NamedTuple

from tests import ROOT

DONE, REFUSED, TROUBLE = 0, 1, 2
MOST_SECONDS = 60
SAMPLES = ROOT / "samples"


class Run(NamedTuple):
    """How the command ended."""

    code: int
    out: bytes
    errors: str


def surroundings(**more):
    """The environment in which the package of this tree is found."""
    return {**os.environ, "PYTHONPATH": str(ROOT / "python"), **more}


def xaropinto(*words, sent=b"", output=subprocess.PIPE, env=None):
    """Run the command with these words, and bytes on its standard input."""
    line = [sys.executable, "-m", "xaropinto", *map(str, words)]
    ended = subprocess.run(line, input=sent, stdout=output, stderr=subprocess.PIPE,
                           timeout=MOST_SECONDS, check=False, env=env or surroundings())
    return Run(ended.returncode, ended.stdout or b"", ended.stderr.decode("utf-8", "replace"))


def sample(name):
    """The path of a sample book."""
    return SAMPLES / f"{name}.book"


def without_warnings(errors):
    """The lines on standard error that are no warnings."""
    return [line for line in errors.splitlines() if "warning: " not in line]
