"""The verb `page`: a page to print and to keep."""

import argparse
from datetime import date
from pathlib import Path

from xaropinto.cli.batch import add_files, run_files
from xaropinto.cli.errors import CommandError
from xaropinto.cli.files import STANDARD
from xaropinto.cli.notes import add_notes, report_notes
from xaropinto.cli.outcome import Fields
from xaropinto.cli.words import Verbs, add_parser
from xaropinto.page import Imprint, page_of

PAGE = ".html"


def add_verbs(verbs: Verbs) -> None:
    """Its words."""
    page = add_parser(verbs, "page", write_page,
                      "a page to print and to keep: verdict, totals, charts",
                      "xaropinto page mine.book -o mine.html --insurer 'Example Health Ltd'")
    add_files(page, PAGE)
    add_insurer(page)
    add_notes(page)


def add_insurer(verb: argparse.ArgumentParser) -> None:
    """What a page says at its top."""
    verb.add_argument("--insurer", default="", metavar="NAME", help="whose book it is, on the page")


def imprint_of(chosen: argparse.Namespace) -> Imprint:
    """What a page says of its making."""
    return Imprint(chosen.today or date.today(), chosen.insurer)


def name_of(path: str) -> str:
    """How a page calls a book."""
    return "standard input" if path == STANDARD else Path(path).name


def write_page(chosen: argparse.Namespace) -> int:
    """The page of a book; a refused one has none."""
    if chosen.out is None and chosen.into is None:
        raise CommandError("page wants -o PATH or --folder OUT")

    def page_answer(path: str, book: bytes) -> Fields:
        """The page by the name of its file."""
        return Fields(page_of(name_of(path), book, imprint_of(chosen)))

    return run_files(chosen, PAGE, page_answer,
                     lambda book, prefix: report_notes(book, chosen, prefix))
