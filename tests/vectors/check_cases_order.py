"""Named books in which two or more refusals apply, so that their order is tried."""

from itertools import combinations

from reference.book import make_book, slots_in_chain_order
from reference.layout import (AGE_BASIS, CHAINS, COST_RATES, CURVE, EDITION, HEADER_SPARE,
                              MORTALITY, PERCENTAGES, RECORD_COUNT, SST_YEAR, changed, record)
from tests.vectors.check_cases_chain import BASE_COUNT
from tests.vectors.check_cases_header import Case, base_book, base_values, slug

# The refusals of a book: 1 to 13, and 23.
BOOK_REFUSALS = (*range(1, 14), 23)
HEADER_SPOILS = {2: (EDITION, 3), 3: (AGE_BASIS, 0), 4: (SST_YEAR, 2_101),
                 6: (COST_RATES[2], 1_000_001), 7: (CURVE[24], 200_001),
                 8: (MORTALITY[150], 1_000_001)}


def record_spoils(number):
    """For each refusal of a linked record below class 120, the change that causes it."""
    linked = record(number)
    lapse = linked.amounts[1]
    return {9: (linked.next, BASE_COUNT + 1), 10: (linked.code, 7), 11: (linked.age_class, 5),
            12: (lapse, lapse.high + 1), 13: (linked.next, 0)}


def spoiled(numbers, base=None):
    """The base book, or one linked like it, with these refusals; those of a record in record 2."""
    spoils = HEADER_SPOILS | record_spoils(2)
    book = changed(base or base_book(), *(spoils[number] for number in numbers if number in spoils))
    if 23 in numbers:
        book = changed(book, (EDITION, 2), *zip(PERCENTAGES, (101, 100)))
    if 5 in numbers:
        book += b"\0"
    if 1 in numbers:
        book = book[:1_219]
    return book


def header_pairs():
    """Every pair that begins with a refusal of the header and can be caused together."""
    pairs = [(first, other) for first, other in combinations(range(1, 14), 2) if first <= 8]
    # No record stands in a book that is too short, so 1 never meets 10 to 13.
    return [(first, other) for first, other in pairs if first > 1 or other <= 9]


def header_order_cases():
    """Refusals 1 to 8 before each other and before the chains."""
    for first, other in header_pairs():
        if (first, other) == (1, 9):
            book = changed(base_book(), (CHAINS[0].head, BASE_COUNT + 1))[:1_219]
        else:
            book = spoiled((first, other))
        yield Case(f"refusal_{first}_before_{other}", book)
    for first in range(1, 9):
        numbers = tuple(range(first, 9))
        yield Case(f"refusals_{first}_to_8_all_at_once", spoiled(numbers))
    wrong_count = changed(base_book(), (RECORD_COUNT, 1_695))
    yield Case("number_of_records_before_length", wrong_count)
    yield Case("spare_before_length", changed(base_book() + b"\0", (HEADER_SPARE, 1)))
    yield from percentage_order_cases()


def percentage_order_cases():
    """23 stands where 4 tests bytes 6 and 7: after its other places, before 5 to 8 and chains."""
    for number in (1, 3, 4):
        yield Case(f"refusal_{number}_before_23", spoiled((number, 23)))
    for number in range(5, 14):
        yield Case(f"refusal_23_before_{number}", spoiled((number, 23)))
    yield Case("number_of_records_before_23", changed(spoiled((23,)), (RECORD_COUNT, 1_695)))
    # 23 is of edition 2 alone.
    yield Case("edition_3_whatever_its_percentages", changed(spoiled((23,)), (EDITION, 3)))


def same_record_cases():
    """10, 11, 12, 13 and the next's 9 in one record."""
    base = base_book()
    spoils = record_spoils(2)
    for first, other in combinations((10, 11, 12, 13), 2):
        yield Case(f"in_a_record_{first}_before_{other}",
                   changed(base, spoils[first], spoils[other]))
    for first in (10, 11, 12):
        yield Case(f"in_a_record_{first}_before_its_next_9",
                   changed(base, spoils[first], spoils[9]))
    for beyond in (BASE_COUNT + 1, 65_535):
        yield Case(f"in_a_record_13_before_its_next_{beyond}",
                   changed(base, (record(4).next, beyond)))
    yield Case("in_a_record_all_from_10_to_13", changed(base, *(spoils[n] for n in range(10, 14))))


def same_chain_cases():
    """A record before the record it leads to, whatever the two numbers."""
    base = base_book()
    for first in (10, 11, 12):
        for later in (9, 10, 11, 12, 13):
            yield Case(f"along_a_chain_{first}_before_{later}",
                       changed(base, record_spoils(2)[first], record_spoils(3)[later]))


def chain_spoils(chain, number):
    """Changes that cause each of 9 to 13 in a chain of the base book, 9 at head and at next."""
    spoils = {f"{refusal}": change for refusal, change in record_spoils(number).items()}
    spoils["9_at_head"] = (CHAINS[chain].head, BASE_COUNT + 1)
    spoils["9_at_next"] = spoils.pop("9")
    return spoils


def across_chain_cases():
    """An earlier chain before a later one, whatever the two numbers."""
    base = base_book()
    for first, change in chain_spoils(0, 2).items():
        for later, later_change in chain_spoils(1, 6).items():
            yield Case(f"earlier_chain_{first}_before_later_chain_{later}",
                       changed(base, change, later_change))
    every_head = [(chain.head, BASE_COUNT + 1) for chain in CHAINS]
    for start in range(len(CHAINS)):
        if start not in (1, 7):
            book = changed(base, *every_head[start:])
            yield Case(f"{slug(CHAINS[start].head)}_before_all_later_heads", book)


def same_number_cases():
    """Two bad fields of one kind: the earlier place is named."""
    base = base_book()
    men, women = PERCENTAGES
    both_wrong = changed(base, (EDITION, 2), (men, 101), (women, 0))
    yield Case(f"{slug(men)}_before_{slug(women)}", both_wrong)
    header = ((SST_YEAR, 2_016), (RECORD_COUNT, 1_695), (HEADER_SPARE, 1))
    for first, other in combinations(header, 2):
        yield Case(f"{slug(first[0])}_before_{slug(other[0])}", changed(base, first, other))
    yield Case("sst_year_before_both_others", changed(base, *header))
    pairs = list(combinations(COST_RATES, 2)) + list(combinations(record(2).amounts, 2))
    pairs += [(CURVE[0], CURVE[48]), (CURVE[23], CURVE[24]), (CURVE[47], CURVE[48])]
    men_first, men_last, women_first, women_last = (MORTALITY[i] for i in (0, 120, 121, 241))
    pairs += [(men_first, men_last), (men_last, women_first), (women_first, women_last)]
    for first, other in pairs:
        book = changed(base, (first, first.high + 1), (other, other.high + 1))
        yield Case(f"{slug(first)}_before_{slug(other)}", book)
    yield Case("negative_curve_rate_before_a_high_one",
               changed(base, (CURVE[3], -10_001), (CURVE[4], 200_001)))


def file_order_cases():
    """The chain's order decides, not the order in the file."""
    values = base_values()
    book = make_book(values, slots_in_chain_order(values)[::-1])
    # Reversed, PG1a men stand in records 9, 8, 7, 6 and PG1a women in 5, 4, 3, 2.
    for number in (9, 10, 11, 12, 13):
        near, far = record_spoils(8)[number], record_spoils(7)[number]
        if number not in (9, 13):
            yield Case(f"reversed_file_{number}_earlier_in_its_chain", changed(book, near, far))
        yield Case(f"reversed_file_{number}_in_the_earlier_chain",
                   changed(book, near, record_spoils(4)[number]))
    yield Case("reversed_file_valid", book)


def order_cases():
    """All cases of this module."""
    for cases in (header_order_cases, same_record_cases, same_chain_cases,
                  across_chain_cases, same_number_cases, file_order_cases):
        yield from cases()
