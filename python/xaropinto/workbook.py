"""A book as one workbook, through openpyxl: five sheets, named as the five files are."""

import importlib
import io
import zipfile
from typing import Any

from xaropinto.book_values import BookValues
from xaropinto.sheets import KINDS, Tables, written_tables
from xaropinto.tables import BadLineError, Kind, Table, letters, same_word

SUFFIX = ".xlsx"
# No workbook of a book is a tenth as long when it is unpacked.
MOST_BYTES = 64 * 1024 * 1024
# Whole numbers up to here are exact in the doubles that a workbook holds.
EXACT = 2**53
REFUSED_TYPES = {"f": "a formula", "d": "a date", "b": "true or false", "e": "an error"}


class NoWorkbookError(Exception):
    """Why a workbook cannot be read or written: openpyxl is missing, or the file is none."""


def is_workbook(path: str) -> bool:
    """Does a path name a workbook?"""
    return path.casefold().endswith(SUFFIX)


def openpyxl() -> Any:
    """The package that reads and writes workbooks."""
    try:
        return importlib.import_module("openpyxl")
    except ImportError as missing:
        raise NoWorkbookError(
            "a workbook needs openpyxl: pip install 'xaropinto[xlsx]', "
            "or Debian's package python3-openpyxl"
        ) from missing


def workbook_tables(file: str, held: bytes) -> Tables:
    """The tables of a workbook; `BadLineError` where it has other sheets than the five."""
    sheets = loaded(held)
    names = [kind.name for kind in KINDS]
    for title in sheets.sheetnames:
        if not any(same_word(title, name) for name in names):
            rule = f"the sheets are {', '.join(names)}"
            raise BadLineError(f"{file}, sheet {title}", title, rule)
    by_name = {sheet.title.casefold(): sheet for sheet in sheets.worksheets}

    def table(kind: Kind) -> Table:
        if kind.name not in by_name:
            raise BadLineError(f"{file}, sheet {kind.name}", "", "this sheet is missing")
        return sheet_table(file, kind.name, by_name[kind.name])

    return table


def loaded(held: bytes) -> Any:
    """The workbook of a file's bytes."""
    package = openpyxl()
    try:
        with zipfile.ZipFile(io.BytesIO(held)) as archive:
            if sum(part.file_size for part in archive.infolist()) > MOST_BYTES:
                raise NoWorkbookError(f"longer than {MOST_BYTES:,} bytes when it is unpacked")
        return package.load_workbook(io.BytesIO(held))
    except NoWorkbookError:
        raise
    except Exception as wrong:  # openpyxl promises no kind of exception for a damaged file
        raise NoWorkbookError(f"no workbook that openpyxl can read: {wrong}") from wrong


def sheet_table(file: str, name: str, sheet: Any) -> Table:
    """The cells of a sheet as words."""
    lines = tuple(
        (line, tuple(word_of(file, name, cell) for cell in cells))
        for line, cells in enumerate(sheet.iter_rows(), start=1)
    )
    return Table(file, lines, name)


def word_of(file: str, name: str, cell: Any) -> str:
    """A cell's word; `BadLineError` where it is neither text nor a whole number."""
    place, value = f"{file}, sheet {name}, cell {letters(cell.column - 1)}{cell.row}", cell.value
    if value is None:
        return ""
    if cell.data_type in REFUSED_TYPES:
        raise BadLineError(
            place, str(value), f"this is {REFUSED_TYPES[cell.data_type]}; a plain value is due"
        )
    if isinstance(value, str):
        return value
    if "%" in cell.number_format:
        raise BadLineError(
            place,
            str(value),
            "a cell shown in percent can be read in two ways; " "a plain number is due",
        )
    if not (abs(value) < EXACT and value == int(value)):
        raise BadLineError(
            place, str(value), "a number in a workbook is whole; others are entered as text"
        )
    return str(int(value))


def workbook_of(values: BookValues) -> bytes:
    """The workbook of a book."""
    book = openpyxl().Workbook()
    book.remove(book.active)
    for kind, lines in written_tables(values).items():
        sheet = book.create_sheet(kind.name)
        for line in [kind.columns, *lines]:
            sheet.append(line)
    held = io.BytesIO()
    book.save(held)
    return held.getvalue()
