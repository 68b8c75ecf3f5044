"""Where the fields of a book stand, so that a refusal's place can be put into words. No figure
comes from it."""

from typing import Iterator, NamedTuple

HEADER_BYTES, RECORD_BYTES, MOST_RECORDS = 1_220, 24, 1_694
LONGEST_BOOK = HEADER_BYTES + RECORD_BYTES * MOST_RECORDS
TABLES_AT = 56
LAST_CLASS = 120
# The first class of a chain without records.
NO_CLASS = LAST_CLASS + 1
YEARS, CURVE_RATES = 50, 49
SUBGROUPS = ("PG1a", "PG1b", "PG1c", "PG2", "PG3", "PG4", "PG5")
GROUPS = ("PG1", "PG2", "PG3", "PG4", "PG5")
SEXES = ("men", "women")
CHAINS = tuple(f"{subgroup} {people}" for subgroup in SUBGROUPS for people in SEXES)
SETTINGS = (
    "base",
    "mortality up",
    "mortality down",
    "lapse up",
    "lapse down",
    "costs up",
    "costs down",
    "claims up",
)
MILLIONTHS, CENTIMES = "millionths", "centimes"


class Field(NamedTuple):
    """A number of a book: its name, where it stands, the range that it must keep, and its unit."""

    name: str
    at: int
    size: int
    low: int
    high: int
    unit: str = ""
    signed: bool = False

    def read(self, book: bytes) -> int:
        """The number as it stands in the book."""
        return int.from_bytes(book[self.at:self.at + self.size], "little", signed=self.signed)


class Record(NamedTuple):
    """Where a record stands, and its fields that have a range of their own."""

    number: int
    start: int

    def fields(self) -> tuple[Field, ...]:
        """Its amounts."""
        return (
            Field("count", self.start + 8, 4, 0, 100_000, "contracts"),
            Field("lapse", self.start + 12, 4, 0, 1_000_000, MILLIONTHS),
            Field("premium", self.start + 16, 4, 0, 10_000_000, CENTIMES),
            Field("claims", self.start + 20, 4, 0, 10_000_000, CENTIMES),
        )


def header_fields() -> Iterator[Field]:
    """The fields of header and tables that have a range, in the order of their places."""
    yield Field("edition", 0, 1, 1, 2)
    yield Field("age basis", 1, 1, 1, 1)
    yield Field("SST year", 2, 2, 2017, 2100)
    yield Field("number of records", 4, 2, 0, MOST_RECORDS)
    for code, group in enumerate(GROUPS):
        yield Field(f"cost rate of {group}", 36 + 4 * code, 4, 0, 1_000_000, MILLIONTHS)
    for k in range(1, CURVE_RATES + 1):
        yield Field(
            f"curve rate of year {k}",
            TABLES_AT + 4 * (k - 1),
            4,
            -10_000,
            200_000,
            MILLIONTHS,
            True,
        )
    for sex, people in enumerate(SEXES):
        for age_class in range(LAST_CLASS + 1):
            at = 252 + 484 * sex + 4 * age_class
            yield Field(
                f"mortality of {people}, class {age_class}", at, 4, 0, 1_000_000, MILLIONTHS
            )


def percentages() -> tuple[Field, ...]:
    """What bytes 6 and 7 are in edition 2."""
    return tuple(
        Field(f"mortality percentage of {people}", 6 + sex, 1, 1, 100, "percent")
        for sex, people in enumerate(SEXES)
    )


def heads() -> tuple[Field, ...]:
    """The heads of the 14 chains; a book's N is the most that one may be."""
    return tuple(
        Field(f"head of {chain}", 8 + 2 * number, 2, 0, MOST_RECORDS)
        for number, chain in enumerate(CHAINS)
    )


def record_at(place: int) -> Record:
    """The record that a place belongs to."""
    number = (place - HEADER_BYTES) // RECORD_BYTES + 1
    return Record(number, HEADER_BYTES + RECORD_BYTES * (number - 1))


def record_count(book: bytes) -> int:
    """N, as the header says it."""
    return int.from_bytes(book[4:6], "little")
