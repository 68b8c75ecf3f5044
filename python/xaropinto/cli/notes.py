"""Warnings about an accepted book, which check, list and page report on standard error."""

import argparse
from datetime import date

from xaropinto.cli.errors import DONE, REFUSED
from xaropinto.cli.outcome import put_notes
from xaropinto.plausibility import notes_of


def add_notes(verb: argparse.ArgumentParser) -> None:
    """The options of a verb that reports warnings."""
    verb.add_argument("--strict", action="store_true", help="exit code 1 where there is a warning")
    verb.add_argument(
        "--today",
        type=day,
        metavar="YYYY-MM-DD",
        help="the day of the run, in place of the clock's",
    )


def day(word: str) -> date:
    """A day as 2026-11-17."""
    try:
        return date.fromisoformat(word)
    except ValueError as error:
        raise argparse.ArgumentTypeError(f"{word!r} is not a day as 2026-11-17") from error


def report_notes(book: bytes, chosen: argparse.Namespace, prefix: str = "") -> int:
    """Each warning as a line; the exit code, which they change only with --strict."""
    notes = notes_of(book, chosen.today)
    put_notes(notes, prefix)
    return REFUSED if notes and chosen.strict else DONE
