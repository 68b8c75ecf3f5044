"""Numbers as spreadsheets save them: a word is one exact number, or is turned away."""

import re
from decimal import Decimal
from fractions import Fraction
from typing import NamedTuple

# Thousands are apart by nothing, or by one kind of apostrophe; more digits are beyond every range.
THOUSANDS = "|".join(rf"[0-9]{{1,3}}(?:{mark}[0-9]{{3}}){{1,8}}" for mark in ("'", "\u2019"))
NUMBER = re.compile(
    rf"(?P<sign>-?)(?P<whole>[0-9]{{1,24}}|{THOUSANDS})(?:\.(?P<part>[0-9]{{1,24}}))?"
)
# A comma is a decimal mark in one country and parts thousands in another; so is a point before
# three digits.
TWO_READINGS = re.compile(r"-?[0-9.'\u2019]*[0-9],[0-9.,'\u2019]*|-?[1-9][0-9]{0,2}\.[0-9]{3}")
TWO_WAYS = (
    "this can be read in two ways; a point is the decimal mark, and with exactly three digits "
    "after it one more digit is due (1.2340); thousands are apart by an apostrophe or by nothing"
)


class NoNumberError(ValueError):
    """Why a word is not the number that is due."""


class Unit(NamedTuple):
    """The unit of a column, what a book counts in, and how many of these make one of the unit."""

    name: str
    base: str
    factor: int

    def in_words(self, number: int) -> str:
        """A number of the base, in this unit."""
        return plain(number) if self.factor == 1 else f"{Decimal(number) / self.factor:,}"


PLAIN = Unit("", "", 1)
# For each ending of a heading, the unit that may stand in its place.
OTHER_UNITS = {
    "millionths": Unit("percent", "millionths", 10_000),
    "centimes": Unit("francs", "centimes", 100),
    "thousandths": Unit("percent", "thousandths", 10),
}


def plain(number: int) -> str:
    """A number as people read it; years have no separator."""
    return str(number) if 2017 <= number <= 2100 else f"{number:,}"


def headings_of(column: str) -> dict[str, Unit]:
    """The headings that a column may have, each with the unit of its numbers."""
    stem, _, base = column.rpartition("_")
    held = {column: Unit(base, base, 1) if base in OTHER_UNITS else PLAIN}
    if base in OTHER_UNITS:
        held[f"{stem}_{OTHER_UNITS[base].name}"] = OTHER_UNITS[base]
    return held


def number_of(word: str, unit: Unit, low: int, high: int) -> int:
    """The number of a word, in the book's own unit; `NoNumberError` where it is none or out of
    range."""
    if TWO_READINGS.fullmatch(word):
        raise NoNumberError(TWO_WAYS)
    found = NUMBER.fullmatch(word)
    if not found or (found["part"] and unit.factor == 1):
        raise NoNumberError(due(unit, low, high))
    whole = found["whole"].replace("'", "").replace("\u2019", "")
    scaled = Fraction(f"{found['sign']}{whole}.{found['part'] or 0}") * unit.factor
    if scaled.denominator != 1:
        raise NoNumberError(f"this is no whole number of {unit.base}")
    if not low <= scaled <= high:
        raise NoNumberError(due(unit, low, high))
    return int(scaled)


def due(unit: Unit, low: int, high: int) -> str:
    """What a cell must hold."""
    kind = "a whole number" if unit.factor == 1 else "a number"
    name = f" {unit.name}" if unit.name else ""
    if low == high:
        return f"{unit.in_words(low)}{name} is due"
    return f"{kind} from {unit.in_words(low)} to {unit.in_words(high)}{name} is due"
