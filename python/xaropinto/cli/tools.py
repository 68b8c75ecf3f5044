"""The verbs beside the book: rates, spread, deviation, practice."""

import argparse
from pathlib import Path
from typing import Callable, TypeVar

from xaropinto import answers
from xaropinto.accounts_sheet import read_accounts, read_factors
from xaropinto.cells_at_fault import in_accounts, in_factors
from xaropinto.cli.books import add_output
from xaropinto.cli.errors import CommandError, reason_of
from xaropinto.cli.files import read_file, write_file
from xaropinto.cli.outcome import Fields, Table, put
from xaropinto.cli.words import Verbs, add_verb, number
from xaropinto.layout import GROUPS

Held = TypeVar("Held")
FIVE = ("lowest", "first_quartile", "median", "third_quartile", "highest")


def add_verbs(verbs: Verbs) -> None:
    """Their words."""
    rates = verbs.add_parser(
        "rates",
        help="the five cost rates out of three years of accounts, in millionths",
        epilog="Example: xaropinto rates accounts.csv. Columns: year (1 to 3), group, "
        "expenses_francs (on a year's first line), stock_contracts, claims_francs, "
        "premium_francs",
    )
    rates.add_argument("accounts", metavar="ACCOUNTS.csv")
    rates.set_defaults(run=show_rates)
    add_spread(verbs)
    deviation = add_verb(
        verbs,
        "deviation",
        show_deviation,
        "one standard deviation of the four factors",
        "xaropinto deviation mine.book factors.csv. Columns: factor, coefficient_millionths, and "
        "the correlation with mortality_, lapse_, costs_ and claims_thousandths",
    )
    deviation.add_argument("factors", metavar="FACTORS.csv")
    practice = verbs.add_parser(
        "practice",
        help="a large book that holds no insurer's data",
        epilog="Example: xaropinto practice 2021 -o practice.book",
    )
    practice.add_argument("start", type=number, metavar="START")
    add_output(practice, "the book")
    practice.set_defaults(run=write_practice)


def add_spread(verbs: Verbs) -> None:
    """Five figures and two factors."""
    spread = verbs.add_parser(
        "spread",
        help="mean and coefficient of yearly claims",
        epilog="Example: xaropinto spread 100 200 300 400 900 --xi 2.5 --eta 1.3",
    )
    for name in FIVE:
        spread.add_argument(name, type=number, help="centimes")
    for name in ("--xi", "--eta"):
        spread.add_argument(name, type=float, required=True, help="sample factor")
    spread.set_defaults(run=show_spread)


def read_input(path: str, reading: Callable[[Path], Held]) -> Held:
    """What a comma-separated file holds."""
    try:
        return reading(Path(path))
    except (OSError, ValueError) as error:
        raise CommandError(f"{path}: {reason_of(error)}") from error


def show_rates(chosen: argparse.Namespace) -> None:
    """As cost_rates.csv wants them."""
    held = read_input(chosen.accounts, read_accounts)
    try:
        rates = answers.cost_rates(*held.accounts)
    except answers.RefusedError as refused:
        raise refused.at(in_accounts(refused.number, held)) from refused
    put(Table(("group", "cost_rate_millionths"), list(zip(GROUPS, rates))))


def show_spread(chosen: argparse.Namespace) -> None:
    """Mean and coefficient, with all their digits."""
    lowest, first_quartile, median, third_quartile, highest = (
        getattr(chosen, name) for name in FIVE
    )
    reply = answers.spread(
        lowest, first_quartile, median, third_quartile, highest, chosen.xi, chosen.eta
    )
    coefficient = "level" if reply.coefficient is None else repr(reply.coefficient)
    put(
        Fields(
            f"mean {reply.mean!r}\ncoefficient {coefficient}\n",
            {"mean": reply.mean, "coefficient": reply.coefficient},
        )
    )


def show_deviation(chosen: argparse.Namespace) -> None:
    """In thousand francs."""
    held, book = read_input(chosen.factors, read_factors), read_file(chosen.file)
    try:
        reply = answers.deviation(book, *held.model)
    except answers.RefusedError as refused:
        raise refused.at(in_factors(book, refused.number, held)) from refused
    put(
        Fields(
            f"deviation {reply.thousand_francs} thousand francs\n",
            {"deviation_thousand_francs": reply.thousand_francs},
        )
    )


def write_practice(chosen: argparse.Namespace) -> None:
    """A practice book."""
    write_file(chosen.out, answers.practice(chosen.start))
