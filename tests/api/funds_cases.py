"""Pairs of funds worked by hand."""

from array import array
from typing import NamedTuple

from reference.book import Cell, Portfolio, Values, make_book, one_record_book
from reference.funds import FRONT_BYTES, TABLE_BYTES
from reference.layout import (AGE_BASIS, CHAINS, COST_RATES, CURVE, EDITION, FIRST_RECORD_PLACE,
                              HEADER_SPARE, LONGEST_BOOK, MORTALITY, PERCENTAGES, RECORD_COUNT,
                              SST_YEAR, changed, record)

PG3_WOMEN = 9
# The longest fund file that makes a book.
LONGEST_FUND = LONGEST_BOOK - TABLE_BYTES
# Numbers passed beside the sixteen, to be left alone.
MORE = 4


def fund_of(book):
    """A book's fund file: all but its tables."""
    return book[:FRONT_BYTES] + book[FIRST_RECORD_PLACE:]


def table_of(book):
    """A book's table file."""
    return book[FRONT_BYTES:FIRST_RECORD_PLACE]


def marks(count):
    """Numbers that no total is."""
    return array("q", [-(10**15) - number for number in range(count)])


# The paper's book: ten contracts of PG2 men at class 120, no deaths, no interest, costs of a tenth.
MEN_BOOK = one_record_book()
MEN = fund_of(MEN_BOOK)
MEN_TOTALS = [-5_000_000] * 5 + [-4_900_000, -5_100_000, -4_800_000]
# One contract of PG3 women at class 120 with claims of a franc in each of fifty years; in setting 7
# five are dearer.
WOMEN_BOOK = make_book(Values(portfolios={PG3_WOMEN: Portfolio(120, (Cell(1, 0, 0, 100),))}))
WOMEN = fund_of(WOMEN_BOOK)
WOMEN_TOTALS = [5_000] * 7 + [5_025]
TABLE = table_of(MEN_BOOK)
# Mortality of 1,000,000 millionths: in setting 0 the women's claims are 100, 14 and 1 centimes, in
# setting 1 100 alone, in setting 2 100, 31, 9 and 3, in setting 7 105, 14 and 1.
DEADLY_TABLE = table_of(changed(MEN_BOOK, *((field, 1_000_000) for field in MORTALITY)))
DEADLY_TOTALS = [115, 100, 143, 115, 115, 115, 115, 120]


def long_fund(length, *changes):
    """A fund file of this length that begins as the men's, with changes to its header."""
    return changed(MEN, *changes).ljust(length, b"\0")


class Pair(NamedTuple):
    """A rule with its input and what is due: both verdicts, and the halves that are written."""

    rule: str
    table: bytes
    first: bytes
    second: bytes
    due: tuple
    halves: tuple = (None, None)


def refused_men(rule, verdict, *changes, table=TABLE):
    """The men's fund refused beside the women's, which is valued."""
    return Pair(rule, table, fund_of(changed(MEN_BOOK, *changes)), WOMEN, (verdict, (0, 0, 1)),
                (None, WOMEN_TOTALS))


def refused_file(rule, file, verdict):
    """A file that is no fund in second place, beside the men's, which is valued."""
    return Pair(rule, TABLE, MEN, file, ((0, 0, 1), verdict), (MEN_TOTALS, None))


BOTH = ((0, 0, 1), (0, 0, 1))
CASES = [
    Pair("both funds are valued, the first in numbers 0 to 7", TABLE, MEN, WOMEN, BOTH,
         (MEN_TOTALS, WOMEN_TOTALS)),
    Pair("in the other order, the halves change places", TABLE, WOMEN, MEN, BOTH,
         (WOMEN_TOTALS, MEN_TOTALS)),
    Pair("a fund may stand beside itself", TABLE, MEN, MEN, BOTH, (MEN_TOTALS, MEN_TOTALS)),
    Pair("a refused first fund does not stop the second", TABLE, b"", WOMEN, ((1, 0, 0), (0, 0, 1)),
         (None, WOMEN_TOTALS)),
    Pair("a bad rate in the table file refuses both",
         changed(TABLE, (CURVE[0]._replace(offset=0), 200_001)), MEN, WOMEN,
         ((7, 56, 0), (7, 56, 0))),
    Pair("a header comes before the table file's rates",
         changed(TABLE, (MORTALITY[241]._replace(offset=TABLE_BYTES - 4), 1_000_001)),
         changed(MEN, (EDITION, 3)), WOMEN, ((2, 0, 0), (8, 1_216, 0))),
    Pair("a table file of 1,163 bytes refuses both", TABLE[:-1], MEN, b"",
         ((24, 0, 0), (24, 0, 0))),
    Pair("a table file of 1,165 bytes refuses both", TABLE + b"\0", b"", WOMEN,
         ((24, 0, 0), (24, 0, 0))),
    Pair("an empty table file refuses both", b"", MEN, WOMEN, ((24, 0, 0), (24, 0, 0))),
    refused_men("edition 3 is refused", (2, 0, 0), (EDITION, 3)),
    refused_men("age basis 2 is refused", (3, 1, 0), (AGE_BASIS, 2)),
    refused_men("SST year 2016 is refused", (4, 2, 0), (SST_YEAR, 2016)),
    refused_men("spare bytes of edition 1 are tested", (4, 6, 0), (HEADER_SPARE, 256)),
    refused_men("percentages of edition 2 are tested", (23, 7, 0), (EDITION, 2),
                (PERCENTAGES[0], 80)),
    refused_men("N of 2 wants another length, which is the joined book's", (5, 1_244, 0),
                (RECORD_COUNT, 2)),
    refused_men("a cost rate is refused", (6, 40, 0), (COST_RATES[1], 1_000_001)),
    refused_men("a head above N is refused", (9, 8, 0), (CHAINS[0].head, 2)),
    refused_men("a record's place is that of the joined book", (10, 1_220, 0), (record(1).sex, 1)),
    refused_men("a class is placed in the joined book", (11, 1_222, 0), (record(1).age_class, 121)),
    refused_men("claims are placed in the joined book", (12, 1_240, 0),
                (record(1).amounts[3], 10_000_001)),
    refused_men("a next is placed in the joined book", (13, 1_224, 0), (record(1).next, 1)),
    refused_file("a file of 55 bytes is 1 with its own length", MEN[:55], (1, 55, 0)),
    refused_file("a file of 56 bytes makes a book of 1,220", MEN[:56], (5, 1_220, 0)),
    refused_file("a file of one byte more is placed at the joined length", MEN + b"\0",
                 (5, 1_245, 0)),
    refused_file("the longest file of a book is no book of one record", long_fund(LONGEST_FUND),
                 (5, 41_876, 0)),
    refused_file("a longer file is placed at the joined length", long_fund(LONGEST_FUND + 1),
                 (5, 41_877, 0)),
    refused_file("a file of twice the longest book likewise", long_fund(2 * LONGEST_BOOK),
                 (5, 84_916, 0)),
    refused_file("a longer file with another edition is 2",
                 long_fund(LONGEST_FUND + 1, (EDITION, 0)), (2, 0, 0)),
    refused_file("a longer file of age basis 2 is 3", long_fund(LONGEST_FUND + 1, (AGE_BASIS, 2)),
                 (3, 1, 0)),
    refused_file("a longer file with too many records is 4",
                 long_fund(LONGEST_FUND + 1, (RECORD_COUNT, 1_695)), (4, 4, 0)),
    refused_file("a longer file with a percentage of 0 is 23",
                 long_fund(LONGEST_FUND + 1, (EDITION, 2), (PERCENTAGES[0], 100)), (23, 7, 0)),
]


def after_of(case, before):
    """The numbers that a case leaves."""
    after = list(before)
    for start, half in zip((0, 8), case.halves):
        if half is not None:
            after[start:start + 8] = half
    return after
