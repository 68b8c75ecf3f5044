"""Where every field of a parameter book stands, and the range that each must keep."""

from functools import lru_cache
from typing import NamedTuple

OLDEST_CLASS = 120
CLASSES = OLDEST_CLASS + 1
MOST_RECORDS = 1_694
FIRST_RECORD_PLACE = 1_220
RECORD_SIZE = 24
LONGEST_BOOK = FIRST_RECORD_PLACE + RECORD_SIZE * MOST_RECORDS
# A reader takes one byte more than the longest book, to see that a file runs on.
MOST_BYTES_TAKEN = LONGEST_BOOK + 1
ONE_IN_MILLIONTHS = 1_000_000

SUBGROUPS = ("PG1a", "PG1b", "PG1c", "PG2", "PG3", "PG4", "PG5")
GROUPS = ("PG1", "PG2", "PG3", "PG4", "PG5")
SEXES = ("men", "women")
SETTINGS = range(8)
PRODUCT_GROUPS = range(1, len(GROUPS) + 1)


class Field(NamedTuple):
    """One number in a book; `low` and `high` are the last values that pass."""

    name: str
    offset: int
    size: int
    low: int
    high: int
    signed: bool = False

    def read(self, book):
        """The number as it stands in the book."""
        number = book[self.offset:self.offset + self.size]
        return int.from_bytes(number, "little", signed=self.signed)

    def put(self, book, number):
        """Write any number into a bytearray, within its range or not."""
        low_bits = number % (1 << 8 * self.size)
        book[self.offset:self.offset + self.size] = low_bits.to_bytes(self.size, "little")

    def keeps_range(self, book):
        """Does the number in the book lie within its range?"""
        return self.low <= self.read(book) <= self.high

    def is_within(self, book):
        """Is the book long enough to hold the whole field?"""
        return self.offset + self.size <= len(book)

    def extremes(self):
        """The least and the greatest number that the field's bytes can hold."""
        bits = 8 * self.size
        if self.signed:
            return -(1 << bits - 1), (1 << bits - 1) - 1
        return 0, (1 << bits) - 1


class Basis(NamedTuple):
    """An age basis: what byte 1 says, and the first and last class of a chain's records."""

    number: int
    youngest_class: int
    oldest_class: int


class Chain(NamedTuple):
    """One of the 14 chains: what its records must carry, and where it starts."""

    name: str
    code: int
    sex: int
    head: Field


class Record(NamedTuple):
    """The fields of one record, at their places in the book."""

    number: int
    start: int
    code: Field
    sex: Field
    age_class: Field
    spares: tuple
    next: Field
    amounts: tuple


def four_byte_fields(offset, names, low, high, signed=False):
    """Four-byte fields one behind the other, of the same range."""
    return tuple(Field(name, offset + 4 * step, 4, low, high, signed)
                 for step, name in enumerate(names))


def all_chains():
    """The 14 chains in head order: by code, men before women."""
    chains = []
    for code, subgroup in enumerate(SUBGROUPS, start=1):
        for sex, people in enumerate(SEXES):
            name = f"{subgroup} {people}"
            head = Field(f"head of {name}", 8 + 2 * len(chains), 2, 0, MOST_RECORDS)
            chains.append(Chain(name, code, sex, head))
    return tuple(chains)


EDITION = Field("edition", 0, 1, 1, 2)
AGE_BASIS = Field("age basis", 1, 1, 1, 1)
SST_YEAR = Field("SST year", 2, 2, 2017, 2100)
RECORD_COUNT = Field("number of records", 4, 2, 0, MOST_RECORDS)
# Bytes 6 and 7 are spare in edition 1; edition 2 has the mortality percentages there.
HEADER_SPARE = Field("spare bytes 6 and 7", 6, 2, 0, 0)
PERCENTAGES = tuple(Field(f"mortality percentage of {people}", 6 + sex, 1, 1, 100)
                    for sex, people in enumerate(SEXES))
CHAINS = all_chains()
COST_RATES = four_byte_fields(
    36, [f"cost rate of {group}" for group in GROUPS], 0, ONE_IN_MILLIONTHS)
CURVE = four_byte_fields(
    56, [f"curve rate for k = {k}" for k in range(1, 50)], -10_000, 200_000, signed=True)
MORTALITY = four_byte_fields(
    252,
    [f"mortality of {people}, class {age}" for people in SEXES for age in range(CLASSES)],
    0, ONE_IN_MILLIONTHS)
BASIS_1 = Basis(1, 0, OLDEST_CLASS)
# Counts a class one higher, and leaves no class below 1.
BASIS_2 = Basis(2, 1, OLDEST_CLASS + 1)
HEADER_FIELDS = (EDITION, AGE_BASIS, SST_YEAR, RECORD_COUNT, HEADER_SPARE)


def record_start(number):
    """The place of a record's first byte; records are numbered from 1."""
    return FIRST_RECORD_PLACE + RECORD_SIZE * (number - 1)


@lru_cache(maxsize=None)
def record(number):
    """The fields of the record of this number."""
    start = record_start(number)

    def field(name, offset, size, low, high):
        return Field(f"record {number}, {name}", start + offset, size, low, high)

    return Record(
        number=number,
        start=start,
        code=field("subgroup code", 0, 1, 1, len(SUBGROUPS)),
        sex=field("sex", 1, 1, 0, 1),
        age_class=field("class", 2, 1, 0, OLDEST_CLASS),
        spares=tuple(field(f"spare byte {offset}", offset, 1, 0, 0) for offset in (3, 6, 7)),
        next=field("next", 4, 2, 0, MOST_RECORDS),
        amounts=(
            field("count", 8, 4, 0, 100_000),
            field("lapse", 12, 4, 0, ONE_IN_MILLIONTHS),
            field("premium", 16, 4, 0, 10_000_000),
            field("claims", 20, 4, 0, 10_000_000),
        ),
    )


def changed(book, *changes):
    """The book with (field, number) changes made; the numbers may break any rule."""
    altered = bytearray(book)
    for field, number in changes:
        field.put(altered, number)
    return bytes(altered)
