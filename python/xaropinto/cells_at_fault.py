"""Which cells of a sheet are refused, found by asking the proved call again with other figures."""

from itertools import combinations_with_replacement
from typing import Iterator, NamedTuple, Optional

from xaropinto import calls
from xaropinto.accounts_sheet import (
    COEFFICIENT,
    CORRELATIONS,
    EXPENSES,
    FACTORS,
    FIGURES,
    Accounts,
    AccountsSheet,
    FactorsSheet,
    RiskModel,
)
from xaropinto.layout import GROUPS
from xaropinto.tables import Row


def replaced(numbers: tuple[int, ...], at: int, number: int) -> tuple[int, ...]:
    """The numbers with another in one place."""
    return (*numbers[:at], number, *numbers[at + 1:])


OUT_OF_RANGE = 17
BAD_MODEL = 29
# More cells than these are no help to whoever looks for one.
MOST_NAMED = 5
YEARS = range(3)
PERMITTED = Accounts((1,) * 3, *[((1,) * len(GROUPS),) * 3] * 3)
FACTOR_COUNT = len(FACTORS)
UNCORRELATED = RiskModel(
    (0,) * FACTOR_COUNT,
    tuple(replaced((0,) * FACTOR_COUNT, at, 1_000) for at in range(FACTOR_COUNT)),
)


class Figure(NamedTuple):
    """A cell of the accounts: the year, the kind of figure, and the group; expenses have none."""

    year: int
    kind: int
    group: Optional[int]

    def read(self, accounts: Accounts) -> int:
        """Its number."""
        if self.group is None:
            return accounts.expenses[self.year]
        return rows_in(accounts, self.kind)[self.year][self.group]

    def put(self, accounts: Accounts, number: int) -> Accounts:
        """The accounts with another number there."""
        if self.group is None:
            return accounts._replace(expenses=replaced(accounts.expenses, self.year, number))
        rows = rows_in(accounts, self.kind)
        changed = replaced(rows[self.year], self.group, number)
        lists = [
            changed_rows(rows, self.year, changed) if kind == self.kind else rows_in(accounts, kind)
            for kind in range(len(FIGURES))
        ]
        return Accounts(accounts.expenses, *lists)

    def cell(self, sheet: AccountsSheet) -> tuple[Row, str]:
        """Its row and column."""
        column = EXPENSES if self.group is None else FIGURES[self.kind]
        return sheet.by_year[self.year][self.group or 0], column


def rows_in(accounts: Accounts, kind: int) -> tuple[tuple[int, ...], ...]:
    """Stock, claims or premium."""
    return (accounts.stock, accounts.claims, accounts.premium)[kind]


def changed_rows(
    rows: tuple[tuple[int, ...], ...], at: int, row: tuple[int, ...]
) -> tuple[tuple[int, ...], ...]:
    """The rows with another in one place."""
    return (*rows[:at], row, *rows[at + 1:])


def figures() -> Iterator[Figure]:
    """Every cell of the accounts that holds a figure, in the order of the lines."""
    for year in YEARS:
        yield Figure(year, 0, None)
        for group in range(len(GROUPS)):
            for kind in range(len(FIGURES)):
                yield Figure(year, kind, group)


def in_accounts(number: int, sheet: AccountsSheet) -> str:
    """The cells that accounts are refused for; nothing where the fault is in no few of them."""
    accounts = sheet.accounts
    if number == OUT_OF_RANGE:
        return named(
            [
                figure.cell(sheet)
                for figure in figures()
                if calls.cost_rates(*figure.put(PERMITTED, figure.read(accounts))).refusal == number
            ]
        )
    found = [figure.cell(sheet) for figure in figures() if helps(number, figure, accounts)]
    if not 0 < len(found) <= MOST_NAMED:
        return ""
    which = "this cell" if len(found) == 1 else "one of these cells"
    return f"{named(found)}; with the figure of another year in {which}, the rule is kept"


def helps(number: int, figure: Figure, accounts: Accounts) -> bool:
    """Is the refusal gone with this figure as it is in another year?"""
    others = [figure._replace(year=year).read(accounts) for year in YEARS if year != figure.year]
    return any(calls.cost_rates(*figure.put(accounts, other)).refusal != number for other in others)


def in_factors(book: bytes, number: int, sheet: FactorsSheet) -> str:
    """The cells that a model is refused for with 29: each by itself, or two that must be equal."""
    if number != BAD_MODEL:
        return ""
    coefficients, correlation = sheet.model
    found = [
        (sheet.rows[at], COEFFICIENT)
        for at in range(FACTOR_COUNT)
        if is_bad(
            book,
            UNCORRELATED._replace(coefficients=replaced((0,) * FACTOR_COUNT, at, coefficients[at])),
        )
    ]
    for one, other in combinations_with_replacement(range(FACTOR_COUNT), 2):
        pair = dict.fromkeys(((one, other), (other, one)))
        held = {(row, column): correlation[row][column] for row, column in pair}
        bad = [
            at
            for at, number in held.items()
            if is_bad(book, with_correlations(dict.fromkeys(pair, number)))
        ]
        if not bad and is_bad(book, with_correlations(held)):
            bad = list(pair)
        found += [(sheet.rows[row], CORRELATIONS[column]) for row, column in bad]
    return named(found)


def is_bad(book: bytes, model: RiskModel) -> bool:
    """Is a model refused with 29?"""
    return calls.deviation(book, model.coefficients, model.correlation).refusal == BAD_MODEL


def with_correlations(cells: dict[tuple[int, int], int]) -> RiskModel:
    """A permitted model but for these cells of its correlation."""
    rows = tuple(
        tuple(cells.get((row, column), number) for column, number in enumerate(numbers))
        for row, numbers in enumerate(UNCORRELATED.correlation)
    )
    return UNCORRELATED._replace(correlation=rows)


def named(cells: list[tuple[Row, str]]) -> str:
    """The cells in words, the first few of them."""
    words = [f"{row.place(column)}: {row.word(column)!r}" for row, column in cells[:MOST_NAMED]]
    more = len(cells) - len(words)
    return "; ".join([*words, *([f"and {more} more cells"] if more else [])])
