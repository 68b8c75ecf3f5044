"""The proved check and valuation of a parameter book, its cost rates, and the spread of claims,
called through ctypes.

`make lib` links the shared library; `xaropinto.library` finds it. `include/xaropinto.h` says what
each call answers and which refusals it gives. A book is `bytes`, which nothing can change and which
is passed as it is, or anything else with bytes, such as a `bytearray`, which is copied first: other
threads run during a call and may write to it. A table, or a buffer to be written, is passed as it
is.
"""

import ctypes
from typing import Any, Callable, NamedTuple, Optional, Sequence, Union

from xaropinto.library import LibraryError, loaded_library

WORD_LIMIT = 2**64
# A book; a table, list or buffer that is passed is anything with the numbers of its kind.
Bytes = Union[bytes, bytearray, memoryview]
Row = Sequence[int]
Rows = Sequence[Row]
Numbers = tuple[int, ...]


class Verdict(NamedTuple):
    """Refusal 0 means accepted; n counts the linked records whose count is not 0."""

    refusal: int
    place: int
    n: int


class GroupReply(NamedTuple):
    """The liability of a product group in centimes, negative where it is a credit, and the group's
    n."""

    refusal: int
    place: int
    liability: int
    n: int


class TotalsReply(NamedTuple):
    """Totals by setting; differences of settings 1 less 2, 3 less 4, 5 less 6, 7 less 0."""

    refusal: int
    place: int
    n: int
    totals: Numbers
    differences: Numbers


class RecordReply(NamedTuple):
    """Where a record starts in the book, and its length."""

    refusal: int
    place: int
    start: int
    length: int


class CostRates(NamedTuple):
    """The rates of PG1 to PG5 in millionths of premium, each at most 1,000,000."""

    refusal: int
    place: int
    rates: Numbers


class ReportReply(NamedTuple):
    """The length of the listing or report written, or of the buffer that a report wants."""

    refusal: int
    place: int
    length: int


class Values(NamedTuple):
    """A book's values: the edition, and its mortality percentages of men and women, both 0 in
    edition 1; the SST year; 5 cost rates, 49 curve rates, 242 of mortality; the first classes of 14
    chains."""

    edition: int
    percentages: Numbers
    year: int
    cost_rates: Numbers
    curve: Numbers
    mortality: Numbers
    first_classes: Numbers


class WriteReply(NamedTuple):
    """The length of the book that was written."""

    refusal: int
    place: int
    length: int


class ReadReply(NamedTuple):
    """The values of the book that was read; zeros where it is refused."""

    refusal: int
    place: int
    values: Values


class InForceReply(NamedTuple):
    """Refusal 0 means that the numbers are filled."""

    refusal: int
    place: int


class Spread(NamedTuple):
    """Mean and coefficient of yearly claims, doubles; where they are level, the mean alone and a
    coefficient of 0."""

    refusal: int
    place: int
    level: bool
    mean: float
    coefficient: float


class DeviationReply(NamedTuple):
    """One standard deviation of the four factors, in thousand francs."""

    refusal: int
    place: int
    deviation: int


class _Verdict(ctypes.Structure):
    _fields_ = [("refusal", ctypes.c_uint64), ("place", ctypes.c_uint64), ("n", ctypes.c_uint64)]


class _GroupReply(ctypes.Structure):
    _fields_ = [
        ("refusal", ctypes.c_uint64),
        ("place", ctypes.c_uint64),
        ("liability", ctypes.c_int64),
        ("n", ctypes.c_uint64),
    ]


class _TotalsReply(ctypes.Structure):
    _fields_ = [
        ("refusal", ctypes.c_uint64),
        ("place", ctypes.c_uint64),
        ("n", ctypes.c_uint64),
        ("totals", ctypes.c_int64 * 8),
        ("differences", ctypes.c_int64 * 4),
    ]


class _RecordReply(ctypes.Structure):
    _fields_ = [
        ("refusal", ctypes.c_uint64),
        ("place", ctypes.c_uint64),
        ("start", ctypes.c_uint64),
        ("length", ctypes.c_uint64),
    ]


_YEARS, _PRODUCT_GROUPS = 3, 5
_ROWS = ctypes.c_uint64 * (_YEARS * _PRODUCT_GROUPS)


class _Accounts(ctypes.Structure):
    _fields_ = [
        ("expenses", ctypes.c_uint64 * _YEARS),
        ("stock", _ROWS),
        ("claims", _ROWS),
        ("premium", _ROWS),
    ]


class _CostRates(ctypes.Structure):
    _fields_ = [
        ("refusal", ctypes.c_uint64),
        ("place", ctypes.c_uint64),
        ("rates", ctypes.c_uint64 * _PRODUCT_GROUPS),
    ]


class _ReportReply(ctypes.Structure):
    _fields_ = [
        ("refusal", ctypes.c_uint64),
        ("place", ctypes.c_uint64),
        ("length", ctypes.c_uint64),
    ]


class _Values(ctypes.Structure):
    _fields_ = [
        ("edition", ctypes.c_uint64),
        ("percentages", ctypes.c_uint64 * 2),
        ("year", ctypes.c_uint64),
        ("cost_rates", ctypes.c_uint64 * 5),
        ("curve", ctypes.c_int64 * 49),
        ("mortality", ctypes.c_uint64 * 242),
        ("first_classes", ctypes.c_uint64 * 14),
    ]


class _WriteReply(ctypes.Structure):
    _fields_ = [
        ("refusal", ctypes.c_uint64),
        ("place", ctypes.c_uint64),
        ("length", ctypes.c_uint64),
    ]


class _ReadReply(ctypes.Structure):
    _fields_ = [("refusal", ctypes.c_uint64), ("place", ctypes.c_uint64), ("values", _Values)]


class _FundsReply(ctypes.Structure):
    _fields_ = [("first", _Verdict), ("second", _Verdict)]


class _InForceReply(ctypes.Structure):
    _fields_ = [("refusal", ctypes.c_uint64), ("place", ctypes.c_uint64)]


class _Summary(ctypes.Structure):
    _fields_ = [
        ("lowest", ctypes.c_uint64),
        ("first_quartile", ctypes.c_uint64),
        ("median", ctypes.c_uint64),
        ("third_quartile", ctypes.c_uint64),
        ("highest", ctypes.c_uint64),
    ]


class _SpreadReply(ctypes.Structure):
    _fields_ = [
        ("refusal", ctypes.c_uint64),
        ("place", ctypes.c_uint64),
        ("level", ctypes.c_uint64),
        ("mean", ctypes.c_double),
        ("coefficient", ctypes.c_double),
    ]


_FACTORS = 4


class _RiskModel(ctypes.Structure):
    _fields_ = [
        ("coefficients", ctypes.c_uint64 * _FACTORS),
        ("correlation", ctypes.c_int64 * (_FACTORS * _FACTORS)),
    ]


class _DeviationReply(ctypes.Structure):
    _fields_ = [
        ("refusal", ctypes.c_uint64),
        ("place", ctypes.c_uint64),
        ("deviation", ctypes.c_uint64),
    ]


# The words or bytes of a buffer that is passed to a call.
_Words = ctypes.Array[Any]
_Word = Union[ctypes.c_uint64, ctypes.c_int64]
# What is passed: a pointer and a length.
_BOOK = (ctypes.c_char_p, ctypes.c_size_t)
_NUMBERS = (ctypes.POINTER(ctypes.c_uint64), ctypes.c_size_t)
_BYTES = (ctypes.POINTER(ctypes.c_uint8), ctypes.c_size_t)
# How a buffer names numbers that may be unsigned and of 64 bits; its item size tells.
_UNSIGNED = {order + letter for order in ("", "@", "=", "<") for letter in "QL"}
# And signed.
_SIGNED = {order + letter for order in ("", "@", "=", "<") for letter in "ql"}


class _Call:
    """A function of the library, found when it is first called: help and words do without the
    library."""

    def __init__(self, name: str, reply: Any, *arguments: Any):
        self.name, self.reply, self.arguments = name, reply, arguments
        self.function: Optional[Callable[..., Any]] = None

    def __call__(self, *arguments: Any) -> Any:
        if self.function is None:
            try:
                function = getattr(loaded_library(), self.name)
            except AttributeError as error:
                raise LibraryError(
                    f"the library has no {self.name}: it is of another version"
                ) from error
            function.restype, function.argtypes = self.reply, self.arguments
            self.function = function
        return self.function(*arguments)


_VERSION = _Call("xaropinto_version", ctypes.c_uint64)
_CHECK = _Call("xaropinto_check", _Verdict, *_BOOK)
_GROUP = _Call("xaropinto_group", _GroupReply, *_BOOK, ctypes.c_size_t, ctypes.c_size_t, *_NUMBERS)
_TOTALS = _Call("xaropinto_totals", _TotalsReply, *_BOOK)
_LISTING = _Call("xaropinto_listing", _ReportReply, *_BOOK, *_BYTES)
_RECORD = _Call("xaropinto_record", _RecordReply, *_BOOK, ctypes.c_size_t)
_COST_RATES = _Call("xaropinto_cost_rates", _CostRates, _Accounts)
_REPORT = _Call("xaropinto_report", _ReportReply, *_BOOK, ctypes.c_size_t, *_BYTES)
_REPORT_ROOM = _Call("xaropinto_report_room", _ReportReply, *_BOOK, ctypes.c_size_t)
_CONVERT = _Call("xaropinto_convert", _Verdict, *_BOOK, *_BYTES)
_READ = _Call("xaropinto_read", _ReadReply, *_BOOK, *_NUMBERS * 4)
_WRITE = _Call("xaropinto_write", _WriteReply, _Values, *_NUMBERS * 4, *_BYTES)
_FUNDS = _Call(
    "xaropinto_funds", _FundsReply, *_BOOK * 3, ctypes.POINTER(ctypes.c_int64), ctypes.c_size_t
)
_IN_FORCE = _Call("xaropinto_in_force", _InForceReply, *_BOOK, *[ctypes.c_size_t] * 4, *_NUMBERS)
_SPREAD = _Call("xaropinto_spread", _SpreadReply, _Summary, ctypes.c_double, ctypes.c_double)
_DEVIATION = _Call("xaropinto_deviation", _DeviationReply, *_BOOK, _RiskModel)
_PRACTICE = _Call("xaropinto_practice", _WriteReply, ctypes.c_uint64, *_BYTES)


def version() -> int:
    """The version of the library as one number: 20200 for 2.2.0."""
    number: int = _VERSION()
    return number


def check(book: Bytes) -> Verdict:
    """Is this a book?"""
    reply = _CHECK(*_passed_book(book))
    return Verdict(reply.refusal, reply.place, reply.n)


def group(book: Bytes, setting: int, product_group: int, table: Any) -> GroupReply:
    """The liability of a product group in a setting.

    The table is one row of unsigned 64-bit numbers that can be written, such as an
    `array.array("Q")` or a `(ctypes.c_uint64 * 200)()`, or rows of such, fifty of four; it starts
    at a multiple of 8 bytes. Where accepted, its first 200 become the fifty years; all others stay
    as they were.
    """
    numbers = _passed_table(table)
    reply = _GROUP(*_passed_book(book), _word(setting), _word(product_group), numbers, len(numbers))
    return GroupReply(reply.refusal, reply.place, reply.liability, reply.n)


def totals(book: Bytes) -> TotalsReply:
    """The eight totals and the four differences."""
    reply = _TOTALS(*_passed_book(book))
    return TotalsReply(
        reply.refusal, reply.place, reply.n, tuple(reply.totals), tuple(reply.differences)
    )


def listing(book: Bytes, out: Any) -> ReportReply:
    """Write the listing of a book to the start of a passed buffer of bytes; its length.

    No listing is longer than 512 bytes. Where refused, and past the listing, the buffer stays as it
    was; 20 where it is shorter than the listing.
    """
    buffer = _passed_buffer(out)
    reply = _LISTING(*_passed_book(book), buffer, len(buffer))
    return ReportReply(reply.refusal, reply.place, reply.length)


def record(book: Bytes, number: int) -> RecordReply:
    """Where the record of this number, counted from 1, stands in the book."""
    reply = _RECORD(*_passed_book(book), _word(number))
    return RecordReply(reply.refusal, reply.place, reply.start, reply.length)


def cost_rates(expenses: Row, stock: Rows, claims: Rows, premium: Rows) -> CostRates:
    """The cost rates of the five product groups out of three years of accounts.

    Expenses are three numbers; stock, claims and premium are three rows of five, a row for each
    year. Stock is in contracts, all else in whole francs.
    """
    reply = _COST_RATES(
        _Accounts(_numbers(expenses, _YEARS), _rows(stock), _rows(claims), _rows(premium))
    )
    return CostRates(reply.refusal, reply.place, tuple(reply.rates))


def _numbers(row: Row, count: int) -> Numbers:
    """So many numbers of 64 bits."""
    numbers = tuple(row)
    if len(numbers) != count:
        raise ValueError(f"{len(numbers)} numbers where {count} are due")
    return tuple(map(_word, numbers))


def _rows(rows: Rows) -> Numbers:
    """Three rows of five numbers, end to end."""
    held = tuple(rows)
    if len(held) != _YEARS:
        raise ValueError(f"{len(held)} rows where {_YEARS} are due")
    return tuple(number for row in held for number in _numbers(row, _PRODUCT_GROUPS))


def report(book: Bytes, setting: int, out: Any) -> ReportReply:
    """Write the year report of a setting to the start of a passed buffer.

    The buffer is one row of bytes that can be written, such as a `bytearray`, at least as long as
    `report_room` tells. Where refused, and past the report, it stays as it was.
    """
    buffer = _passed_buffer(out)
    reply = _REPORT(*_passed_book(book), _word(setting), buffer, len(buffer))
    return ReportReply(reply.refusal, reply.place, reply.length)


def report_room(book: Bytes, setting: int) -> ReportReply:
    """How long a buffer `report` wants for this book and setting: the report's length, to the
    byte."""
    reply = _REPORT_ROOM(*_passed_book(book), _word(setting))
    return ReportReply(reply.refusal, reply.place, reply.length)


def convert(book: Bytes, out: Any) -> Verdict:
    """The book of age basis 2 turned into basis 1.

    `out` is one row of bytes that can be written, such as a `bytearray`. Where accepted, its first
    bytes, as many as the book has, become the converted book; all others stay as they were.
    """
    buffer = _passed_buffer(out)
    reply = _CONVERT(*_passed_book(book), buffer, len(buffer))
    return Verdict(reply.refusal, reply.place, reply.n)


def write(
    values: Values, counts: Any, lapses: Any, premiums: Any, claims: Any, out: Any
) -> WriteReply:
    """The book of the values and lists, written into a buffer of bytes; its length.

    The lists of one kind stand end to end, in head order, in one row of unsigned 64-bit numbers
    that can be written, such as an `array.array("Q")`; each list has 121 less its chain's first
    class. Bytes of the buffer past the book stay as they were.
    """
    lists = [_passed_table(numbers) for numbers in (counts, lapses, premiums, claims)]
    buffer = _passed_buffer(out)
    for numbers in lists:
        _need_apart(numbers, buffer)
    reply = _WRITE(_passed_values(values), *_with_lengths(lists), buffer, len(buffer))
    return WriteReply(reply.refusal, reply.place, reply.length)


def read(book: Bytes, counts: Any, lapses: Any, premiums: Any, claims: Any) -> ReadReply:
    """The values of a book; its lists fill the four rows, whose later numbers stay as they were."""
    lists = [_passed_table(numbers) for numbers in (counts, lapses, premiums, claims)]
    for at, numbers in enumerate(lists):
        for others in lists[:at]:
            _need_apart(numbers, others)
    reply = _READ(*_passed_book(book), *_with_lengths(lists))
    held = reply.values
    values = Values(
        held.edition,
        tuple(held.percentages),
        held.year,
        tuple(held.cost_rates),
        tuple(held.curve),
        tuple(held.mortality),
        tuple(held.first_classes),
    )
    return ReadReply(reply.refusal, reply.place, values)


def funds(table: Bytes, first: Bytes, second: Bytes, numbers: Any) -> tuple[Verdict, ...]:
    """Two funds on the same tables: the verdict of each.

    The table file and the fund files are taken as books are. `numbers` is one row of signed 64-bit
    numbers that can be written, such as an `array.array("q")`, and starts at a multiple of 8 bytes.
    Where accepted, the first fund's totals come in numbers 0 to 7, the second's in 8 to 15; all
    others stay as they were.
    """
    passed = _passed_signed(numbers)
    reply = _FUNDS(
        *_passed_book(table), *_passed_book(first), *_passed_book(second), passed, len(passed)
    )
    return tuple(Verdict(each.refusal, each.place, each.n) for each in (reply.first, reply.second))


def in_force(
    book: Bytes, setting: int, code: int, sex: int, age_class: int, numbers: Any
) -> InForceReply:
    """What is in force of one cell, year by year, in billionths of a contract.

    The numbers are passed as a table is in `group`. Where accepted, the first 50 become those of
    the linked record of this subgroup code, sex and class; all others stay as they were.
    """
    passed = _passed_table(numbers)
    reply = _IN_FORCE(
        *_passed_book(book),
        _word(setting),
        _word(code),
        _word(sex),
        _word(age_class),
        passed,
        len(passed),
    )
    return InForceReply(reply.refusal, reply.place)


def spread(
    lowest: int,
    first_quartile: int,
    median: int,
    third_quartile: int,
    highest: int,
    xi: float,
    eta: float,
) -> Spread:
    """Mean and coefficient of yearly claims, given by five whole numbers of centimes and two sample
    factors.

    A factor is a float, or a whole number that a double holds; one that would have to be rounded is
    turned away.
    """
    five = (lowest, first_quartile, median, third_quartile, highest)
    reply = _SPREAD(_Summary(*map(_word, five)), _double(xi), _double(eta))
    return Spread(reply.refusal, reply.place, reply.level != 0, reply.mean, reply.coefficient)


def _double(number: float) -> float:
    """The number as a double, which must be the number itself."""
    if isinstance(number, float):
        return number
    if not isinstance(number, int):
        raise TypeError(f"{number!r} is neither a float nor a whole number")
    if abs(number) > 2**53:
        raise ValueError(f"{number} may be no double")
    return float(number)


def deviation(book: Bytes, coefficients: Row, correlation: Rows) -> DeviationReply:
    """One standard deviation of the four factors of a book: mortality, lapse, costs and claims.

    Coefficients are four numbers in millionths, the correlation is four rows of four in
    thousandths.
    """
    model = _RiskModel(_numbers(coefficients, _FACTORS), _square(correlation))
    reply = _DEVIATION(*_passed_book(book), model)
    return DeviationReply(reply.refusal, reply.place, reply.deviation)


def _square(rows: Rows) -> Numbers:
    """Four rows of four signed numbers, end to end."""
    held = tuple(tuple(row) for row in rows)
    if [len(row) for row in held] != [_FACTORS] * _FACTORS:
        raise ValueError(f"{_FACTORS} rows of {_FACTORS} numbers are due")
    return tuple(_signed_word(number) for row in held for number in row)


def practice(start: int, out: Any) -> WriteReply:
    """The practice book of a start number, written into a buffer of bytes; its length.

    The start number is any of 64 bits but 0. Bytes of the buffer past the book stay as they were.
    """
    buffer = _passed_buffer(out)
    reply = _PRACTICE(_word(start), buffer, len(buffer))
    return WriteReply(reply.refusal, reply.place, reply.length)


def _passed_values(values: Values) -> _Values:
    """The values in C's form; each table has the length that it must have, and each number fits."""
    passed = _Values(edition=_word(values.edition), year=_word(values.year))
    for name in ("percentages", "cost_rates", "curve", "mortality", "first_classes"):
        table, place = tuple(getattr(values, name)), getattr(passed, name)
        if len(table) != len(place):
            raise ValueError(f"{name} must have {len(place)} numbers")
        place[:] = tuple(map(_signed_word if name == "curve" else _word, table))
    return passed


def _with_lengths(lists: Sequence[_Words]) -> list[Any]:
    """Each list and then its length."""
    return [word for numbers in lists for word in (numbers, len(numbers))]


def _need_apart(one: _Words, other: _Words) -> None:
    """Two passed buffers, one of which the call writes, must not overlap."""
    start, other_start = ctypes.addressof(one), ctypes.addressof(other)
    if start < other_start + ctypes.sizeof(other) and other_start < start + ctypes.sizeof(one):
        raise ValueError("buffers that are passed together must not overlap")


def _passed_book(book: Bytes) -> tuple[bytes, int]:
    """Bytes that stay as they are during a call, and how many they are."""
    if not isinstance(book, bytes):
        book = bytes(memoryview(book))
    return book, len(book)


def _passed_table(table: Any) -> _Words:
    """The table's own numbers; rows of a table, such as fifty of four, stand one after the
    other."""
    view = memoryview(table)
    if (
        view.ndim not in (1, 2)
        or not view.c_contiguous
        or view.itemsize != 8
        or view.format not in _UNSIGNED
    ):
        raise TypeError("the table must be rows of unsigned 64-bit numbers, one after the other")
    if view.ndim == 2 and view.nbytes:
        view = view.cast("B").cast("Q")
    return _passed_words(view, ctypes.c_uint64)


def _passed_signed(numbers: Any) -> _Words:
    """The same of signed numbers."""
    view = memoryview(numbers)
    if view.ndim != 1 or view.itemsize != 8 or view.format not in _SIGNED:
        raise TypeError("the numbers must be one row of signed 64-bit numbers")
    return _passed_words(view, ctypes.c_int64)


def _passed_words(view: memoryview, kind: type[_Word]) -> _Words:
    """A row's own words of 64 bits."""
    if view.nbytes == 0:
        # An empty buffer may stand anywhere.
        return (kind * 0)()
    numbers = (kind * len(view)).from_buffer(view)
    if ctypes.addressof(numbers) % 8 != 0:
        raise ValueError("the table must start at a multiple of 8 bytes")
    return numbers


def _passed_buffer(out: Any) -> _Words:
    """The buffer's own bytes."""
    view = memoryview(out)
    if view.ndim != 1 or view.itemsize != 1:
        raise TypeError("the buffer must be one row of bytes")
    if len(view) == 0:
        # An empty buffer may stand anywhere.
        return (ctypes.c_uint8 * 0)()
    return (ctypes.c_uint8 * len(view)).from_buffer(view)


def _word(number: int) -> int:
    """A number that fits; ctypes would cut it silently."""
    if not 0 <= number < WORD_LIMIT:
        raise ValueError(f"{number} does not fit in 64 bits")
    return number


def _signed_word(number: int) -> int:
    """The same of a signed number."""
    if not -(WORD_LIMIT // 2) <= number < WORD_LIMIT // 2:
        raise ValueError(f"{number} does not fit in 64 bits")
    return number
