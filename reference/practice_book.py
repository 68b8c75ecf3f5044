"""Practice books from a start number, worked from the customer's paper alone."""

from typing import NamedTuple

from reference.write_read import book_of
from reference.layout import (CHAINS, COST_RATES, CURVE, LONGEST_BOOK, MORTALITY, MOST_RECORDS,
                              record)

WORD = 2**64
COUNTER_STEP = 362_437
SST_YEAR = 2021


class Values(NamedTuple):
    """What Write is given beside the lists."""

    edition: int
    percentages: tuple
    year: int
    cost_rates: tuple
    curve: tuple
    mortality: tuple
    first_classes: tuple


def draws(start):
    """The draws of a start number, one after the other without an end."""
    word, counter = start, 0
    while True:
        word ^= word << 13 & WORD - 1
        word ^= word >> 7
        word ^= word << 17 & WORD - 1
        counter = (counter + COUNTER_STEP) % WORD
        yield (word + counter) % WORD


def drawn(field, draw):
    """The number of a field that a draw gives."""
    return draw % (field.high - field.low + 1) + field.low


def practice_book(start):
    """The book: every field that is drawn takes the next draw, in the order of the fields."""
    source = draws(start)
    tables = [tuple(drawn(field, next(source)) for field in fields)
              for fields in (COST_RATES, CURVE, MORTALITY)]
    records = [[drawn(field, next(source)) for field in record(number).amounts]
               for number in range(1, MOST_RECORDS + 1)]
    values = Values(1, (0, 0), SST_YEAR, *tables, (0,) * len(CHAINS))
    return book_of(values, list(zip(*records)))


def practice(start, length):
    """(refusal, book): the book's bytes, none where it is refused; a refusal's place is 0."""
    if length < LONGEST_BOOK:
        return 16, b""
    if start == 0:
        return 32, b""
    return 0, practice_book(start)
