"""The verbs that ask a book for its verdict and its figures: check, list, years, group, cell,
record."""

import argparse

from xaropinto import answers
from xaropinto.cli.batch import add_files, run_files
from xaropinto.cli.check import add_check
from xaropinto.cli.files import read_file
from xaropinto.cli.notes import add_notes, report_notes
from xaropinto.cli.outcome import Fields, Json, Table, put
from xaropinto.cli.record import show_record
from xaropinto.cli.words import (
    GROUP_HELP,
    Verbs,
    add_parser,
    add_setting,
    add_verb,
    number,
    product_group,
)
from xaropinto.distances import group_distance
from xaropinto.layout import SEXES, SUBGROUPS

LISTING, YEARS = ".listing", ".years-{}.csv"


def add_verbs(verbs: Verbs) -> None:
    """Their words."""
    add_check(verbs)
    listing = add_parser(
        verbs,
        "list",
        show_listing,
        "the listing to file",
        "xaropinto list mine.book -o mine.listing",
    )
    add_files(listing, LISTING)
    add_notes(listing)
    years = add_parser(
        verbs,
        "years",
        show_years,
        "the year report of a setting, as comma-separated lines",
        "xaropinto years mine.book --setting 7",
    )
    add_files(years, YEARS.format("S"))
    add_setting(years)
    add_group(verbs)
    add_cell(verbs)
    record = add_verb(
        verbs,
        "record",
        show_record,
        "the fields of a record, counted from 1, of a refused book too",
        "xaropinto record mine.book 17",
    )
    record.add_argument("number", type=number)


def add_group(verbs: Verbs) -> None:
    """A product group's figures."""
    group = add_verb(
        verbs,
        "group",
        show_group,
        "liability, n and promised distance of a product group",
        "xaropinto group mine.book --setting 0 --group PG2",
    )
    add_setting(group)
    group.add_argument("--group", type=product_group, required=True, help=GROUP_HELP)


def add_cell(verbs: Verbs) -> None:
    """One cell of a book."""
    cell = add_verb(
        verbs,
        "cell",
        show_cell,
        "in force of one cell over fifty years, in billionths of a contract",
        "xaropinto cell mine.book --setting 0 --subgroup PG2 --sex men --class 40",
    )
    add_setting(cell)
    cell.add_argument("--subgroup", choices=SUBGROUPS, required=True)
    cell.add_argument("--sex", choices=SEXES, required=True)
    cell.add_argument("--class", dest="age_class", type=number, required=True, help="0 to 120")


def show_listing(chosen: argparse.Namespace) -> int:
    """The text to file."""
    return run_files(
        chosen,
        LISTING,
        lambda _, book: listing_of(book),
        lambda book, prefix: report_notes(book, chosen, prefix),
    )


def listing_of(book: bytes) -> Fields:
    """The listing, and its lines as rows."""
    text = answers.listing(book)
    rows: list[Json] = [
        dict(zip(("setting", "total", "n"), map(int, line.split()))) for line in text.splitlines()
    ]
    return Fields(text, {"text": text, "lines": rows})


def show_years(chosen: argparse.Namespace) -> int:
    """The year report."""
    return run_files(
        chosen, YEARS.format(chosen.setting), lambda _, book: years_of(book, chosen.setting)
    )


def years_of(book: bytes, setting: int) -> Table:
    """The lines of the report."""
    headings, *rows = (line.split(",") for line in answers.report(book, setting).splitlines())
    return Table(headings, [[int(cell) for cell in row] for row in rows])


def show_group(chosen: argparse.Namespace) -> None:
    """A product group's figures."""
    book = read_file(chosen.file)
    reply = answers.group(book, chosen.setting, chosen.group)
    distance = group_distance(reply.n, is_ordinary(book))
    put(
        Fields(
            f"liability {reply.liability} centimes\nn {reply.n}\ndistance {distance} centimes\n",
            {"liability": reply.liability, "n": reply.n, "distance": distance},
        )
    )


def is_ordinary(book: bytes) -> bool:
    """Has an accepted book no curve rate below zero?"""
    return min(answers.read(book).curve) >= 0


def show_cell(chosen: argparse.Namespace) -> None:
    """Year and in force, comma-separated."""
    code, sex = SUBGROUPS.index(chosen.subgroup) + 1, SEXES.index(chosen.sex)
    run = answers.cell(read_file(chosen.file), chosen.setting, code, sex, chosen.age_class).in_force
    put(Table(("year", "in_force"), list(enumerate(run))))
