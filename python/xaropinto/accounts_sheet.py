"""Three years of accounts as one file of separated values, and a risk model as another."""

from pathlib import Path
from typing import NamedTuple

from xaropinto.layout import GROUPS
from xaropinto.tables import Kind, Row, in_order, rows_of, saved_table

YEARS = ("1", "2", "3")
WORD_LIMIT = 2**64
EXPENSES = "expenses_francs"
FIGURES = ("stock_contracts", "claims_francs", "premium_francs")
COLUMNS = ("year", "group", EXPENSES, *FIGURES)
FACTORS = ("mortality", "lapse", "costs", "claims")
COEFFICIENT = "coefficient_millionths"
CORRELATIONS = tuple(f"{factor}_thousandths" for factor in FACTORS)
FACTOR_COLUMNS = ("factor", COEFFICIENT, *CORRELATIONS)


class Accounts(NamedTuple):
    """Expenses of three years; stock, claims and premium of three years and five groups."""

    expenses: tuple[int, ...]
    stock: tuple[tuple[int, ...], ...]
    claims: tuple[tuple[int, ...], ...]
    premium: tuple[tuple[int, ...], ...]


class AccountsSheet(NamedTuple):
    """The accounts, and the rows of each year that they stand in."""

    accounts: Accounts
    by_year: list[list[Row]]


class RiskModel(NamedTuple):
    """The coefficients of the four factors, and their correlation."""

    coefficients: tuple[int, ...]
    correlation: tuple[tuple[int, ...], ...]


class FactorsSheet(NamedTuple):
    """The risk model, and the row of each factor."""

    model: RiskModel
    rows: list[Row]


def read_accounts(path: Path) -> AccountsSheet:
    """A line for each year and group; a year's expenses stand on its first line."""
    table = saved_table(path)
    rows = in_order(
        rows_of(table, Kind(path.name, COLUMNS)), table, [year for year in YEARS for _ in GROUPS]
    )
    by_year = [rows[at:at + len(GROUPS)] for at in range(0, len(rows), len(GROUPS))]
    for year in by_year:
        for group, row in zip(GROUPS, year):
            if row.word("group").casefold() != group.casefold():
                row.bad("group", f"{group} is due here")
    for row in (row for year in by_year for row in year[1:]):
        if row.word(EXPENSES):
            row.bad(EXPENSES, "a year's expenses stand on its first line alone")
    expenses = tuple(any_number(year[0], EXPENSES) for year in by_year)
    stock, claims, premium = (
        tuple(tuple(any_number(row, column) for row in year) for year in by_year)
        for column in FIGURES
    )
    return AccountsSheet(Accounts(expenses, stock, claims, premium), by_year)


def any_number(row: Row, column: str) -> int:
    """A number that the call can be asked with; which of these it takes, the call says."""
    return row.number(column, 0, WORD_LIMIT - 1)


def read_factors(path: Path) -> FactorsSheet:
    """A line for each factor: its coefficient, and its correlation with all four."""
    table = saved_table(path)
    rows = in_order(rows_of(table, Kind(path.name, FACTOR_COLUMNS)), table, list(FACTORS))
    coefficients = tuple(any_number(row, COEFFICIENT) for row in rows)
    half = WORD_LIMIT // 2
    correlation = tuple(
        tuple(row.number(column, -half, half - 1) for column in CORRELATIONS) for row in rows
    )
    return FactorsSheet(RiskModel(coefficients, correlation), rows)
