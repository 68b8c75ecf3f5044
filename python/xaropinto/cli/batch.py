"""Verbs that take many files, and put what each gives into a folder."""

import argparse
import os
from pathlib import Path
from typing import Callable, Optional, Sequence

from xaropinto.answers import RefusedError
from xaropinto.cli.errors import DONE, CommandError, reason_of
from xaropinto.cli.files import STANDARD, read_file
from xaropinto.cli.outcome import Answer, attempt, put_to
from xaropinto.cli.streams import to_stderr

# What is made of a book, by its name and bytes.
Make = Callable[[str, bytes], Answer]
# What is reported of it then, with a prefix for the lines; the exit code.
After = Callable[[bytes, str], int]


def add_files(verb: argparse.ArgumentParser, ending: str) -> None:
    """One file, to standard output or with -o; or many, with --folder."""
    verb.add_argument("files", nargs="+", metavar="FILE")
    where = verb.add_mutually_exclusive_group()
    where.add_argument("-o", dest="out", metavar="PATH", help="the file that is written")
    where.add_argument(
        "--folder",
        dest="into",
        metavar="OUT",
        help=f"for one file or many: OUT/NAME{ending} of each NAME.book",
    )


def run_files(
    chosen: argparse.Namespace, ending: str, make: Make, after: After = lambda book, prefix: DONE
) -> int:
    """What each file gives, to its own place; the worst exit code."""
    many = len(chosen.files) > 1
    if many and chosen.into is None:
        raise CommandError("many files want --folder OUT")
    places = [chosen.out] if chosen.into is None else places_in(chosen.into, chosen.files, ending)

    def run(path: str, place: Optional[str]) -> int:
        prefix = f"{path}: " if many else ""

        def act() -> int:
            book = read_file(path)
            answer = made(path, book, place, make)
            if chosen.into is not None:
                make_folder(chosen.into)
            put_to(place, answer)
            return after(book, prefix)

        return attempt(path, act, prefix)

    return max(run(path, place) for path, place in zip(chosen.files, places))


def made(path: str, book: bytes, place: Optional[str], make: Make) -> Answer:
    """What a book gives; where it is refused, a file of an earlier run stays, and is named."""
    try:
        return make(path, book)
    except RefusedError:
        if place and os.path.isfile(place):
            to_stderr(f"{place}: of an earlier run, left as it was")
        raise


def places_in(into: str, files: Sequence[str], ending: str) -> list[Optional[str]]:
    """A path in the folder for each file; no two files may share one. On Windows two names that
    differ in capitals alone are one."""
    places: dict[str, tuple[str, str]] = {}
    for path in files:
        name = "standard_input" if path == STANDARD else Path(path).name.removesuffix(".book")
        place = os.path.join(into, name + ending)
        key = os.path.normcase(place)
        if key in places:
            raise CommandError(f"{places[key][0]} and {path} would both be written to {place}")
        places[key] = (path, place)
    return [place for _, place in places.values()]


def make_folder(path: str) -> None:
    """The folder for outputs, where it is not there; the one above it must be."""
    try:
        if not os.path.isdir(path):
            os.mkdir(path)
    except (OSError, ValueError) as error:
        raise CommandError(f"{path}: {reason_of(error)}") from error
