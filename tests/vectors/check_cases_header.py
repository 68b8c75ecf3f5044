"""Named books for the header and the tables: refusals 1 to 8 and the ends of their ranges."""

import random
from typing import NamedTuple

from reference.book import (Portfolio, empty_book, full_book, make_book, one_record_book,
                            realistic_cell, realistic_tables)
from reference.layout import (AGE_BASIS, CLASSES, COST_RATES, CURVE, EDITION, HEADER_SPARE,
                              MORTALITY, MOST_BYTES_TAKEN, MOST_RECORDS, PERCENTAGES, RECORD_COUNT,
                              RECORD_SIZE, SST_YEAR, changed, record)


class Case(NamedTuple):
    """A book and the rule it tries."""

    name: str
    book: bytes


def slug(field):
    """A field's name as part of a case's name."""
    return field.name.lower().replace(", ", "_").replace(" = ", "_").replace(" ", "_")


def base_values():
    """PG1a men and women from class 117, PG2 women at class 120."""
    chooser = random.Random(117)
    values = realistic_tables(chooser)
    for chain, first_class in ((0, 117), (1, 117), (7, 120)):
        cells = tuple(realistic_cell(chooser) for _ in range(first_class, CLASSES))
        values.portfolios[chain] = Portfolio(first_class, cells)
    return values


def base_book():
    """A small valid book: records 1 to 4, 5 to 8 and 9 are its three chains."""
    return make_book(base_values())


def length_cases():
    """Refusals 1 and 5: the length."""
    empty, base = empty_book(), base_book()
    yield Case("all_zero_bytes_of_the_shortest_book", bytes(1_220))
    yield Case("all_zero_bytes_one_too_few", bytes(1_219))
    for length in (0, 1, 2, 3, 4, 5, 6, 7, 8, 36, 56, 252, 1_218, 1_219):
        yield Case(f"only_{length}_bytes_of_a_valid_book", base[:length])
    yield Case("shortest_book", empty)
    yield Case("shortest_book_and_one_byte", empty + b"\0")
    yield Case("shortest_book_and_a_record_too_many", empty + bytes(RECORD_SIZE))
    yield Case("one_byte_too_few", base[:-1])
    yield Case("one_byte_too_many", base + b"\0")
    yield Case("one_record_too_few", base[:-RECORD_SIZE])
    yield Case("one_record_too_many", base + bytes(RECORD_SIZE))
    yield Case("no_records_though_some_are_named", base[:1_220])
    for more in (-1, 1):
        count = RECORD_COUNT.read(base) + more
        yield Case(f"number_of_records_off_by_{more}", changed(base, (RECORD_COUNT, count)))


def full_cases():
    """The largest books; kept few for their size."""
    full = full_book(random.Random(1694))
    yield Case("full_book_in_chain_order", full)
    yield Case("full_book_shuffled", full_book(random.Random(4961), shuffle=True))
    yield Case("full_book_and_one_byte", full + b"\0")
    yield Case("full_book_less_one_byte", full[:-1])
    last = record(MOST_RECORDS)
    claims = last.amounts[3]
    yield Case("full_book_claims_of_the_last_record_one_above",
               changed(full, (claims, claims.high + 1)))
    yield Case("full_book_runs_on_at_its_last_record", changed(full, (last.next, MOST_RECORDS)))
    one_more = (full + bytes(RECORD_SIZE))[:MOST_BYTES_TAKEN]
    yield Case("one_record_above_the_most", changed(one_more, (RECORD_COUNT, 1_695)))


def identity_cases():
    """Refusals 2 to 4, and 23: the first eight bytes."""
    base = base_book()
    for field in (EDITION, AGE_BASIS):
        for number in (0, 1, 2, 3, 127, 128, 255):
            yield Case(f"{slug(field)}_{number}", changed(base, (field, number)))
    for year in (0, 1, 2_016, 2_017, 2_018, 2_099, 2_100, 2_101, 32_768, 65_535):
        yield Case(f"sst_year_{year}", changed(base, (SST_YEAR, year)))
    for count in (1_695, 1_696, 32_768, 65_535):
        yield Case(f"number_of_records_{count}", changed(base, (RECORD_COUNT, count)))
    for spare in (1, 128, 255, 256, 32_768, 65_280, 65_535):
        yield Case(f"header_spare_bytes_hold_{spare}", changed(base, (HEADER_SPARE, spare)))
    second = changed(base, (EDITION, 2), *((field, 50) for field in PERCENTAGES))
    for field in PERCENTAGES:
        for number in (0, 1, 87, 100, 101, 255):
            yield Case(f"{slug(field)}_{number}", changed(second, (field, number)))


def range_numbers(field):
    """The words and numbers that try a field's range on both sides."""
    least, greatest = field.extremes()
    yield "at_the_low_end", field.low
    yield "at_the_high_end", field.high
    yield "one_above_the_high_end", field.high + 1
    yield "at_the_greatest_its_bytes_hold", greatest
    yield "with_only_its_top_byte", 1 << 24
    if field.signed:
        yield "one_below_the_low_end", field.low - 1
        yield "at_the_least_its_bytes_hold", least
        yield "at_minus_one", -1
    else:
        yield "with_only_its_top_bit", 1 << 31


def range_cases(book, fields):
    """Each of the fields tried at both ends of its range and beyond."""
    for field in fields:
        for words, number in range_numbers(field):
            yield Case(f"{slug(field)}_{words}", changed(book, (field, number)))


def table_cases():
    """Refusals 6 to 8: the ends of every range, and every field of the tables."""
    base, empty = base_book(), empty_book()
    curve_tried = (CURVE[0], CURVE[24], CURVE[48])
    men, women = MORTALITY[:CLASSES], MORTALITY[CLASSES:]
    mortality_tried = (men[0], men[60], men[120], women[0], women[60], women[120])
    yield from range_cases(base, COST_RATES)
    yield from range_cases(base, curve_tried)
    yield from range_cases(base, mortality_tried)
    for field in CURVE:
        if field not in curve_tried:
            for words, number in (("above", field.high + 1), ("below", field.low - 1)):
                yield Case(f"{slug(field)}_one_{words}_in_an_empty_book",
                           changed(empty, (field, number)))
    for field in MORTALITY[1::7]:
        yield Case(f"{slug(field)}_one_above_in_an_empty_book",
                   changed(empty, (field, field.high + 1)))


def end_cases():
    """Whole tables at one end of their ranges, and the two books of the paper."""
    base = base_book()
    tables = (*COST_RATES, *CURVE, *MORTALITY)
    yield Case("every_table_at_its_low_end", changed(base, *((f, f.low) for f in tables)))
    yield Case("every_table_at_its_high_end", changed(base, *((f, f.high) for f in tables)))
    yield Case("every_table_above_its_high_end", changed(base, *((f, f.high + 1) for f in tables)))
    yield Case("base_book", base)
    yield Case("one_record_book_of_the_paper", one_record_book())


def header_cases():
    """All cases of this module."""
    for cases in (length_cases, full_cases, identity_cases, table_cases, end_cases):
        yield from cases()
