"""Standard output and standard error. A failed write to either is never silent."""

import io
import os
import sys
from typing import TextIO

from xaropinto.cli.errors import CommandError, reason_of

_failed: list[str] = []


def use_utf8() -> None:
    """UTF-8 and single line feeds on both streams, whatever the code page of a console or the
    system's encoding is; the answer is written as bytes and has them anyway."""
    for stream in (sys.stdout, sys.stderr):
        if isinstance(stream, io.TextIOWrapper):
            stream.reconfigure(encoding="utf-8", errors="backslashreplace", newline="\n")


def put_bytes(held: bytes) -> None:
    """The answer, whole, on standard output; an output that is closed or full is an error."""
    if sys.stdout is None:
        raise CommandError("standard output is closed")
    try:
        sys.stdout.buffer.write(held)
        sys.stdout.buffer.flush()
    except (OSError, ValueError) as error:
        silence(sys.stdout)
        raise CommandError(f"standard output: {reason_of(error)}") from error


def to_stderr(line: str) -> None:
    """What is not the answer. Where standard error is closed nothing is written anywhere."""
    if sys.stderr is None:
        return
    try:
        print(line, file=sys.stderr, flush=True)
    except (OSError, ValueError) as error:
        silence(sys.stderr)
        _failed.append(reason_of(error))


def stderr_failed() -> bool:
    """Has a line for standard error been lost since this was last asked?"""
    lost = bool(_failed)
    _failed.clear()
    return lost


def silence(stream: TextIO) -> None:
    """What could not be written stays unwritten: the interpreter shall not try again at its end."""
    nowhere = os.open(os.devnull, os.O_WRONLY)
    os.dup2(nowhere, stream.fileno())
    os.close(nowhere)
