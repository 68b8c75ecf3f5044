"""A book as five tables of a spreadsheet: files of a folder, or sheets of a workbook."""

from pathlib import Path
from typing import Callable, NamedTuple, Union

from xaropinto.book_values import BookValues, Chain
from xaropinto.layout import (
    CURVE_RATES,
    GROUPS,
    LAST_CLASS,
    NO_CLASS,
    SEXES,
    SUBGROUPS,
    Record,
    header_fields,
    percentages,
)
from xaropinto.tables import BadLineError, Kind, Row, Table, in_order, rows_of, saved_table

__all__ = ["BadLineError", "KINDS", "csv_files", "folder_tables", "read_sheets", "written_tables"]

HEADER = Kind("header", ("field", "value"))
COST_RATES = Kind("cost_rates", ("group", "cost_rate_millionths"))
CURVE = Kind("curve", ("year", "rate_millionths"))
MORTALITY = Kind("mortality", ("class", "men_millionths", "women_millionths"))
PORTFOLIO = Kind(
    "portfolio",
    (
        "subgroup",
        "sex",
        "class",
        "count",
        "lapse_millionths",
        "premium_centimes",
        "claims_centimes",
    ),
)
KINDS = (HEADER, COST_RATES, CURVE, MORTALITY, PORTFOLIO)
# The rows of the header; the age basis may be left out, and is 1 then.
EDITION, AGE_BASIS, SST_YEAR = "edition", "age_basis", "sst_year"
PERCENTAGES = tuple(f"mortality_percentage_{people}" for people in SEXES)
RANGES = {field.name: field for field in header_fields()}
# What stands in a book of edition 1 for the percentages.
NO_PERCENTAGE = 0
BASIS_RULE = {
    1: "on age basis 1 a class is SST year - birth year - 1, from 0 to 120; where yours are "
    "SST year - birth year, the header's age_basis is 2",
    2: "on age basis 2 a class is SST year - birth year, from 1 to 121",
}
# Where a table is found by its kind; and what is written into one.
Tables = Callable[[Kind], Table]
Lines = list[tuple[Union[str, int], ...]]


class Header(NamedTuple):
    """What the header says."""

    edition: int
    age_basis: int
    year: int
    percentages: tuple[int, int]


def folder_tables(folder: Path) -> Tables:
    """The tables of a folder of separated values."""
    return lambda kind: saved_table(folder / csv_file(kind))


def csv_file(kind: Kind) -> str:
    """The name of a table's file."""
    return f"{kind.name}.csv"


def read_sheets(tables: Tables) -> BookValues:
    """The values of five tables, on age basis 1; `BadLineError` for the first fault."""
    header = read_header(tables(HEADER))
    cost_rates = [
        row.ranged("cost_rate_millionths", RANGES[f"cost rate of {group}"])
        for group, row in zip(GROUPS, ordered(tables(COST_RATES), COST_RATES, list(GROUPS)))
    ]
    years = [str(k) for k in range(1, CURVE_RATES + 1)]
    curve = [
        row.ranged("rate_millionths", RANGES[f"curve rate of year {k}"])
        for k, row in zip(years, ordered(tables(CURVE), CURVE, years))
    ]
    classes = [str(age_class) for age_class in range(LAST_CLASS + 1)]
    mortality_rows = ordered(tables(MORTALITY), MORTALITY, classes)
    mortality = [
        row.ranged(f"{people}_millionths", RANGES[f"mortality of {people}, class {age_class}"])
        for people in SEXES
        for age_class, row in zip(classes, mortality_rows)
    ]
    return BookValues(
        header.edition,
        header.percentages,
        header.year,
        tuple(cost_rates),
        tuple(curve),
        tuple(mortality),
        read_portfolio(tables(PORTFOLIO), header.age_basis),
    )


def ordered(table: Table, kind: Kind, firsts: list[str]) -> list[Row]:
    """The rows of a table whose first column holds these words."""
    return in_order(rows_of(table, kind), table, firsts)


def read_header(table: Table) -> Header:
    """Edition, age basis, SST year and the two percentages."""
    rows = rows_of(table, HEADER)
    has_basis = any(row.word("field").casefold() == AGE_BASIS for row in rows)
    names = [EDITION, *([AGE_BASIS] if has_basis else []), SST_YEAR, *PERCENTAGES]
    held = dict(zip(names, in_order(rows, table, names)))
    edition = held[EDITION].ranged("value", RANGES["edition"])
    age_basis = held[AGE_BASIS].number("value", 1, 2) if has_basis else 1
    year = held[SST_YEAR].ranged("value", RANGES["SST year"])
    low, high = (
        (percentages()[0].low, percentages()[0].high)
        if edition == 2
        else (NO_PERCENTAGE, NO_PERCENTAGE)
    )
    men, women = (held[name].number("value", low, high) for name in PERCENTAGES)
    return Header(edition, age_basis, year, (men, women))


def read_portfolio(table: Table, age_basis: int) -> tuple[Chain, ...]:
    """The 14 chains on age basis 1; lines in any order, each class once and none left out."""
    held: list[dict[int, Row]] = [{} for _ in range(2 * len(SUBGROUPS))]
    for row in rows_of(table, PORTFOLIO):
        chain = held[2 * row.choice("subgroup", SUBGROUPS) + row.choice("sex", SEXES)]
        age_class = class_on_basis_1(row, age_basis)
        if age_class in chain:
            row.bad(
                "class", f"this class of the chain stands in line {chain[age_class].line} already"
            )
        chain[age_class] = row
    return tuple(chain_of_rows(rows, age_basis) for rows in held)


def class_on_basis_1(row: Row, age_basis: int) -> int:
    """A row's class; on age basis 2 it is one less than what the row says."""
    shift = age_basis - 1
    try:
        return row.number("class", shift, LAST_CLASS + shift) - shift
    except BadLineError as wrong:
        rule = f"{wrong.rule}: {BASIS_RULE[age_basis]}"
        raise BadLineError(wrong.place, wrong.value, rule) from wrong


def chain_of_rows(rows: dict[int, Row], age_basis: int) -> Chain:
    """A chain of its rows by class on basis 1."""
    if not rows:
        return Chain(NO_CLASS, (), (), (), ())
    first, shift = min(rows), age_basis - 1
    for age_class in range(first, LAST_CLASS + 1):
        if age_class not in rows:
            rows[age_class - 1].bad(
                "class",
                f"class {age_class + shift} of this chain is missing; "
                f"a chain goes up to {LAST_CLASS + shift}",
            )
    in_chain = [rows[age_class] for age_class in range(first, LAST_CLASS + 1)]
    lists = (
        tuple(row.ranged(column, field) for row in in_chain)
        for column, field in zip(PORTFOLIO.columns[3:], Record(1, 0).fields())
    )
    return Chain(first, *lists)


def written_tables(values: BookValues) -> dict[Kind, Lines]:
    """The five tables of a book, below their headings."""
    by_class: Lines = [
        (age_class, *(values.mortality[sex * NO_CLASS + age_class] for sex in range(2)))
        for age_class in range(NO_CLASS)
    ]
    portfolio: Lines = [
        (
            SUBGROUPS[number // 2],
            SEXES[number % 2],
            chain.first_class + offset,
            *(each[offset] for each in chain.lists()),
        )
        for number, chain in enumerate(values.chains)
        for offset in range(len(chain.counts))
    ]
    return {
        HEADER: [
            (EDITION, values.edition),
            (AGE_BASIS, 1),
            (SST_YEAR, values.year),
            *zip(PERCENTAGES, values.percentages),
        ],
        COST_RATES: list(zip(GROUPS, values.cost_rates)),
        CURVE: list(enumerate(values.curve, start=1)),
        MORTALITY: by_class,
        PORTFOLIO: portfolio,
    }


def csv_files(values: BookValues) -> dict[str, bytes]:
    """The files of a folder, by their names."""
    return {
        csv_file(kind): "".join(
            ",".join(map(str, line)) + "\n" for line in [kind.columns, *lines]
        ).encode()
        for kind, lines in written_tables(values).items()
    }
