"""Conversions worked by hand."""

from reference.layout import (AGE_BASIS, CHAINS, CURVE, EDITION, MORTALITY, PERCENTAGES,
                              RECORD_COUNT, SST_YEAR, changed, record, record_start)


def pair_book(first_class, second_class, *changes):
    """PG1a men on basis 2: record 1 with contracts leads to record 2 without; 3 is not linked."""
    book = changed(bytes(record_start(4)), (EDITION, 1), (AGE_BASIS, 2), (SST_YEAR, 2021),
                   (RECORD_COUNT, 3), (CHAINS[0].head, 1), (record(1).next, 2),
                   (record(1).amounts[0], 5))
    return changed(book, (record(1).code, 1), (record(2).code, 1),
                   (record(1).age_class, first_class), (record(2).age_class, second_class),
                   *changes)


# The rule, the book, and the reply where the buffer is long enough.
CASES = [
    ("a chain ends at class 121", pair_book(120, 121), (0, 0, 1)),
    ("a record with no contracts is not counted", pair_book(120, 121, (record(1).amounts[0], 0)),
     (0, 0, 0)),
    ("an unlinked class may be anything", pair_book(120, 121, (record(3).age_class, 255)),
     (0, 0, 1)),
    ("basis 1 is refused", pair_book(120, 121, (AGE_BASIS, 1)), (3, 1, 0)),
    ("basis 3 is refused", pair_book(120, 121, (AGE_BASIS, 3)), (3, 1, 0)),
    ("edition comes before basis", pair_book(120, 121, (AGE_BASIS, 1), (EDITION, 3)), (2, 0, 0)),
    ("percentages of edition 2 are tested", pair_book(120, 121, (EDITION, 2), (PERCENTAGES[0], 1)),
     (23, 7, 0)),
    ("a rate of the curve is refused", pair_book(0, 121, (CURVE[0], 200_001)), (7, 56, 0)),
    ("a mortality is refused", pair_book(0, 121, (MORTALITY[120], 1_000_001)), (8, 732, 0)),
    ("a head above N is refused", pair_book(120, 121, (CHAINS[3].head, 4)), (9, 14, 0)),
    ("a next above N is refused", pair_book(120, 121, (record(1).next, 4)), (9, 1_224, 0)),
    ("class 0 of a first record is refused", pair_book(0, 121), (21, 1_222, 0)),
    ("class 0 of a later record is refused, and not as a wrong class", pair_book(120, 0),
     (21, 1_246, 0)),
    ("the owner comes before class 0", pair_book(0, 121, (record(1).sex, 1)), (10, 1_220, 0)),
    ("class 0 comes before the amounts", pair_book(0, 121, (record(1).amounts[1], 1_000_001)),
     (21, 1_222, 0)),
    ("a first class of 122 is refused", pair_book(122, 123), (11, 1_222, 0)),
    ("a class left out is refused", pair_book(119, 121), (11, 1_246, 0)),
    ("amounts too large are refused", pair_book(120, 121, (record(2).amounts[3], 10_000_001)),
     (12, 1_264, 0)),
    ("a chain that ends at class 120 is refused", pair_book(119, 120), (13, 1_248, 0)),
    ("a chain that goes on from class 121 is refused", pair_book(121, 122), (13, 1_224, 0)),
]
