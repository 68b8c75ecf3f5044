"""The verbs that write and read books: write, read, convert, split, funds."""

import argparse
from pathlib import Path

from xaropinto import answers
from xaropinto.cli.errors import DONE, REFUSED, CommandError, reason_of
from xaropinto.cli.files import read_file, write_file, write_folder
from xaropinto.cli.outcome import Table, begin_input, put, report_refusal
from xaropinto.cli.words import Verbs, add_verb
from xaropinto.layout import HEADER_BYTES, TABLES_AT
from xaropinto.messages import refused_file
from xaropinto.sheets import csv_files, folder_tables, read_sheets
from xaropinto.workbook import NoWorkbookError, is_workbook, workbook_of, workbook_tables

TABLE_FILE, FUND_FILE = "table", "fund"


def add_verbs(verbs: Verbs) -> None:
    """Their words."""
    add_write(verbs)
    read = add_verb(
        verbs,
        "read",
        read_book,
        "a book as a workbook, or as a folder of comma-separated files",
        "xaropinto read mine.book -o book.xlsx",
    )
    add_output(read, "the workbook (.xlsx) or folder")
    add_replace(read)
    convert = add_verb(
        verbs,
        "convert",
        convert_book,
        "a book of age basis 2 as one of basis 1",
        "xaropinto convert newer.book -o mine.book",
    )
    add_output(convert, "the book")
    add_fund_verbs(verbs)


def add_write(verbs: Verbs) -> None:
    """The verb that takes sheets."""
    write = verbs.add_parser(
        "write",
        help="a book out of a workbook, or of a folder of comma-separated files",
        epilog="Example: xaropinto write book.xlsx -o mine.book",
    )
    write.add_argument(
        "sheets",
        metavar="SHEETS",
        help="a workbook (.xlsx) with the sheets header, cost_rates, curve, mortality and "
        "portfolio, or a folder with these as .csv, as `read` writes them",
    )
    add_output(write, "the book")
    write.set_defaults(run=write_book)


def add_fund_verbs(verbs: Verbs) -> None:
    """The verbs of the table file and fund files."""
    split = add_verb(
        verbs,
        "split",
        split_book,
        "the table file and the fund file of a book",
        "xaropinto split mine.book -o parts, for parts/table and parts/fund",
    )
    add_output(split, "the folder")
    add_replace(split)
    funds = verbs.add_parser(
        "funds",
        help="the eight totals of two funds on the same tables",
        epilog="Example: xaropinto funds parts/table parts/fund other/fund",
    )
    for name in ("table", "first", "second"):
        funds.add_argument(name, metavar=name.upper())
    funds.set_defaults(run=show_funds)


def add_output(verb: argparse.ArgumentParser, what: str) -> None:
    """Where to write."""
    verb.add_argument(
        "-o", dest="out", metavar="PATH", required=True, help=f"{what} that is written"
    )


def add_replace(verb: argparse.ArgumentParser) -> None:
    """Whether a folder may give way."""
    verb.add_argument(
        "--replace", action="store_true", help="replace a folder that holds such files only"
    )


def write_book(chosen: argparse.Namespace) -> None:
    """The book of a workbook or folder; nothing is written where a line is bad."""
    path = Path(chosen.sheets)
    try:
        if is_workbook(chosen.sheets) and not path.is_dir():
            tables = workbook_tables(path.name, read_file(chosen.sheets))
        elif path.is_file():
            raise CommandError(f"{chosen.sheets}: neither a folder nor a workbook (.xlsx)")
        else:
            tables = folder_tables(path)
        values = read_sheets(tables)
    except (OSError, ValueError, NoWorkbookError) as error:
        file = getattr(error, "filename", None) or chosen.sheets
        raise CommandError(f"{file}: {reason_of(error)}") from error
    write_file(chosen.out, answers.write(values))


def read_book(chosen: argparse.Namespace) -> None:
    """The tables of a book."""
    values = answers.read(read_file(chosen.file))
    if not is_workbook(chosen.out) or Path(chosen.out).is_dir():
        write_folder(chosen.out, csv_files(values), chosen.replace)
        return
    try:
        held = workbook_of(values)
    except NoWorkbookError as error:
        raise CommandError(f"{chosen.out}: {error}") from error
    write_file(chosen.out, held)


def convert_book(chosen: argparse.Namespace) -> None:
    """The converted book."""
    write_file(chosen.out, answers.convert(read_file(chosen.file)))


def split_book(chosen: argparse.Namespace) -> None:
    """The two files of an accepted book; Funds joins them to the same book again."""
    book = read_file(chosen.file)
    answers.check(book)
    write_folder(
        chosen.out,
        {
            TABLE_FILE: book[TABLES_AT:HEADER_BYTES],
            FUND_FILE: book[:TABLES_AT] + book[HEADER_BYTES:],
        },
        chosen.replace,
    )


def show_funds(chosen: argparse.Namespace) -> int:
    """Fund, setting, total and n; one fund is shown though the other is refused."""
    table, first, second = (read_file(path) for path in (chosen.table, chosen.first, chosen.second))
    rows: list[tuple[int, int, int, int]] = []
    # By path and place: a fault of the table file is that of both funds.
    refused: dict[tuple[str, int], answers.RefusedError] = {}
    files = ((chosen.first, first), (chosen.second, second))
    for fund, (path, held), reply in zip((1, 2), files, answers.funds(table, first, second)):
        if isinstance(reply, answers.RefusedError):
            file, place = refused_file(reply.number, reply.place, held)
            at_fault = chosen.table if file == TABLE_FILE else path
            refused[at_fault, place] = reply.moved(place)
        else:
            rows += [(fund, setting, each, reply.n) for setting, each in enumerate(reply.totals)]
    if rows:
        put(Table(("fund", "setting", "total", "n"), rows))
    for (path, _), error in refused.items():
        begin_input(path)
        report_refusal(error, f"{path}: ")
    return REFUSED if refused else DONE
