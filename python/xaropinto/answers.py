"""The calls as functions that answer with figures, or raise `RefusedError`."""

from array import array
from typing import NamedTuple, Optional, Sequence, Union

from xaropinto import calls
from xaropinto.book_values import BookValues, taken_apart
from xaropinto.layout import HEADER_BYTES, LONGEST_BOOK, MOST_RECORDS, RECORD_BYTES, YEARS
from xaropinto.messages import (
    CONVERT,
    FUNDS,
    GROUP,
    PRACTICE,
    READ,
    RECORD,
    WRITE,
    explain,
    explain_fund,
)
from xaropinto.refusals import BOOK, refusal_of

TABLE_NUMBERS = 4 * YEARS
MOST_LISTING_BYTES = 512


class RefusedError(Exception):
    """The first rule that is broken: its number, the place, both in words, and the owner."""

    def __init__(self, number: int, place: int, words: str, owner: str = ""):
        super().__init__(f"refused {number} {place}: {words}")
        self.number, self.place, self.words, self.owner = number, place, words, owner

    def at(self, found: str) -> "RefusedError":
        """The same refusal, with words of what it was found in before its own."""
        words = f"{found}; {self.words}" if found else self.words
        return RefusedError(self.number, self.place, words, self.owner)

    def moved(self, place: int) -> "RefusedError":
        """The same refusal, at its place in another file."""
        return RefusedError(self.number, place, self.words, self.owner)


class Group(NamedTuple):
    """A product group in a setting: liability in centimes, n, and fifty years.

    A year has premium after the cap, outgo, and both discounted.
    """

    liability: int
    n: int
    years: tuple[tuple[int, int, int, int], ...]


class Totals(NamedTuple):
    """The totals by setting in centimes; the differences of settings 1 less 2, 3 less 4, 5 less 6,
    7 less 0."""

    n: int
    totals: tuple[int, ...]
    differences: tuple[int, ...]


class Cell(NamedTuple):
    """In force of a cell in billionths of a contract, for k = 0 to 49."""

    in_force: tuple[int, ...]


class Spread(NamedTuple):
    """Mean and coefficient of yearly claims; no coefficient where all are level."""

    mean: float
    coefficient: Optional[float]


class Deviation(NamedTuple):
    """One standard deviation of the four factors, in thousand francs."""

    thousand_francs: int


class FundTotals(NamedTuple):
    """n and the totals by setting of one of two funds, in centimes."""

    n: int
    totals: tuple[int, ...]


FundReply = Union[FundTotals, RefusedError]


def need_accepted(number: int, place: int, book: Optional[bytes] = None, call: str = BOOK) -> None:
    """Raise where a call refused, in the words of the call."""
    if number:
        words = explain(number, place, book, call)
        raise RefusedError(number, place, words, refusal_of(number, call).owner)


def check(book: bytes) -> int:
    """n, the number of linked records that hold contracts."""
    reply = calls.check(book)
    need_accepted(reply.refusal, reply.place, book)
    return reply.n


def group(book: bytes, setting: int, product_group: int) -> Group:
    """The liability of a product group in a setting, with its years."""
    table = array("Q", bytes(8 * TABLE_NUMBERS))
    reply = calls.group(book, setting, product_group, table)
    need_accepted(reply.refusal, reply.place, book, GROUP)
    years = tuple(
        (table[at], table[at + 1], table[at + 2], table[at + 3])
        for at in range(0, TABLE_NUMBERS, 4)
    )
    return Group(reply.liability, reply.n, years)


def totals(book: bytes) -> Totals:
    """The eight totals and the four differences."""
    reply = calls.totals(book)
    need_accepted(reply.refusal, reply.place, book)
    return Totals(reply.n, reply.totals, reply.differences)


def listing(book: bytes) -> str:
    """The text to file: a line for each setting."""
    buffer = bytearray(MOST_LISTING_BYTES)
    reply = calls.listing(book, buffer)
    need_accepted(reply.refusal, reply.place, book)
    return buffer[: reply.length].decode("ascii")


def report(book: bytes, setting: int) -> str:
    """The year report of a setting, as comma-separated lines."""
    needed = calls.report_room(book, setting)
    need_accepted(needed.refusal, needed.place, book)
    buffer = bytearray(needed.length)
    reply = calls.report(book, setting, buffer)
    need_accepted(reply.refusal, reply.place, book)
    return buffer[: reply.length].decode("ascii")


def record(book: bytes, number: int) -> bytes:
    """The 24 bytes of a record, counted from 1."""
    reply = calls.record(book, number)
    need_accepted(reply.refusal, reply.place, book, BOOK if reply.place else RECORD)
    return bytes(book[reply.start:reply.start + reply.length])


def cell(book: bytes, setting: int, code: int, sex: int, age_class: int) -> Cell:
    """In force of one cell over fifty years."""
    numbers = array("Q", bytes(8 * YEARS))
    reply = calls.in_force(book, setting, code, sex, age_class, numbers)
    need_accepted(reply.refusal, reply.place, book)
    return Cell(tuple(numbers))


def read(book: bytes) -> BookValues:
    """The values and lists of a book."""
    counts, lapses, premiums, claims = (array("Q", bytes(8 * MOST_RECORDS)) for _ in range(4))
    reply = calls.read(book, counts, lapses, premiums, claims)
    need_accepted(reply.refusal, reply.place, book, READ)
    return taken_apart(reply.values, (counts, lapses, premiums, claims))


def write(values: BookValues) -> bytes:
    """The book of values and lists."""
    buffer = bytearray(HEADER_BYTES + RECORD_BYTES * max(0, values.records()))
    reply = calls.write(values.header(), *values.lists(), buffer)
    need_accepted(reply.refusal, reply.place, call=WRITE)
    return bytes(buffer[: reply.length])


def convert(book: bytes) -> bytes:
    """The book of age basis 2 on basis 1."""
    buffer = bytearray(len(book))
    reply = calls.convert(book, buffer)
    need_accepted(reply.refusal, reply.place, book, CONVERT)
    return bytes(buffer)


def funds(table: bytes, first: bytes, second: bytes) -> tuple[FundReply, FundReply]:
    """Each fund's n and totals, or the error that it is refused with: one fund does not hold back
    the other."""
    numbers = array("q", bytes(8 * 16))
    one, other = calls.funds(table, first, second, numbers)
    return (
        fund_reply(one, numbers[:8], table, first),
        fund_reply(other, numbers[8:], table, second),
    )


def fund_reply(
    verdict: calls.Verdict, numbers: Sequence[int], table: bytes, fund: bytes
) -> FundReply:
    """What is answered of one fund."""
    if not verdict.refusal:
        return FundTotals(verdict.n, tuple(numbers))
    words = explain_fund(verdict.refusal, verdict.place, table, fund)
    owner = refusal_of(verdict.refusal, FUNDS).owner
    return RefusedError(verdict.refusal, verdict.place, words, owner)


def cost_rates(
    expenses: Sequence[int],
    stock: Sequence[Sequence[int]],
    claims: Sequence[Sequence[int]],
    premium: Sequence[Sequence[int]],
) -> tuple[int, ...]:
    """The cost rates of PG1 to PG5 out of three years of accounts, in millionths."""
    reply = calls.cost_rates(expenses, stock, claims, premium)
    need_accepted(reply.refusal, reply.place)
    return reply.rates


def spread(
    lowest: int,
    first_quartile: int,
    median: int,
    third_quartile: int,
    highest: int,
    xi: float,
    eta: float,
) -> Spread:
    """Mean and coefficient of yearly claims."""
    reply = calls.spread(lowest, first_quartile, median, third_quartile, highest, xi, eta)
    need_accepted(reply.refusal, reply.place)
    return Spread(reply.mean, None if reply.level else reply.coefficient)


def deviation(
    book: bytes, coefficients: Sequence[int], correlation: Sequence[Sequence[int]]
) -> Deviation:
    """One standard deviation of the four factors."""
    reply = calls.deviation(book, coefficients, correlation)
    need_accepted(reply.refusal, reply.place, book)
    return Deviation(reply.deviation)


def practice(start: int) -> bytes:
    """The practice book of a start number."""
    buffer = bytearray(LONGEST_BOOK)
    reply = calls.practice(start, buffer)
    need_accepted(reply.refusal, reply.place, call=PRACTICE)
    return bytes(buffer[: reply.length])
