"""The built programs, run on the bytes of their input."""

import subprocess

from tests import ROOT
from tests.vectors.files import book_frame

MOST_SECONDS = 600


class ProgramFailed(Exception):
    """The program is not built, or could not be run to its end."""


def program_path(name):
    """Where a built program stands."""
    path = ROOT / "target" / "bin" / name
    if not path.is_file():
        raise ProgramFailed(f"{path.relative_to(ROOT)} is not built yet")
    return path


def run_program(name, sent, *words):
    """The bytes that a program, started with these words, writes for its input; its exit code."""
    run = run_to_its_end(name, sent, words)
    return run.stdout, run.returncode


def run_to_its_end(name, sent, words=(), errors=None):
    """The program's run, with what it writes to standard error where `errors` is a pipe."""
    try:
        return subprocess.run([program_path(name), *words], input=sent, stdout=subprocess.PIPE,
                              stderr=errors, timeout=MOST_SECONDS, check=False)
    except (OSError, subprocess.TimeoutExpired) as trouble:
        raise ProgramFailed(f"{name} could not be run to its end: {trouble}") from trouble


def run_with_errors(name, sent):
    """What a program writes to standard output, to standard error, and its exit code."""
    run = run_to_its_end(name, sent, errors=subprocess.PIPE)
    return run.stdout, run.stderr, run.returncode


def verdict_lines(books):
    """The lines that the test program of the check writes for these books, and its exit code."""
    written, code = run_program("test_check", b"".join(map(book_frame, books)))
    # What follows the last byte 10 is no line.
    return written.decode("ascii", "replace").split("\n")[:-1], code
