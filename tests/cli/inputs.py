"""Sheets that the command reads beside books: accounts and risk factors."""

from reference.layout import GROUPS

FACTOR_NAMES = ("mortality", "lapse", "costs", "claims")
# A row for each factor: its coefficient, and its correlation with all four.
FACTORS = (
    (60_000, (1_000, 0, 250, 0)),
    (210_000, (0, 1_000, 0, -300)),
    (100_000, (250, 0, 1_000, 0)),
    (70_000, (0, -300, 0, 1_000)),
)
# Three years: expenses; then stock, claims and premium of five groups.
ACCOUNTS = (
    (900_000, 1_000_000, 1_100_001),
    ((100, 20, 0, 3, 1), (110, 21, 0, 3, 1), (120, 22, 0, 2, 1)),
    ((50_000, 9_000, 0, 500, 100), (52_000, 9_100, 0, 400, 1), (51_000, 9_200, 0, 300, 7)),
    (
        (9_000_000, 900_000, 0, 90_000, 80_000),
        (9_100_000, 910_000, 0, 91_000, 81_000),
        (9_200_000, 920_000, 0, 92_000, 82_000),
    ),
)


def factors_text(rows=tuple((coefficient, *row) for coefficient, row in FACTORS)):
    """The factors with commas: a row of five numbers for each."""
    columns = [
        "factor",
        "coefficient_millionths",
        *(f"{name}_thousandths" for name in FACTOR_NAMES),
    ]
    lines = [[name, *row] for name, row in zip(FACTOR_NAMES, rows)]
    return "".join(",".join(map(str, line)) + "\n" for line in [columns, *lines])


def put_factors(path):
    """The factors as a spreadsheet saves them: semicolons, a mark, line ends of Windows."""
    path.write_bytes(
        b"\xef\xbb\xbf" + factors_text().replace(",", ";").replace("\n", "\r\n").encode()
    )


def accounts_text(accounts=ACCOUNTS):
    """The accounts with commas."""
    expenses, stock, claims, premium = accounts
    lines = ["year,group,expenses_francs,stock_contracts,claims_francs,premium_francs"]
    for year in range(3):
        for at, name in enumerate(GROUPS):
            expense = expenses[year] if at == 0 else ""
            lines.append(
                f"{year + 1},{name},{expense},{stock[year][at]},{claims[year][at]},"
                f"{premium[year][at]}"
            )
    return "\n".join(lines) + "\n"


def put_accounts(path):
    """The accounts in a file."""
    path.write_text(accounts_text(), encoding="utf-8")
