"""Named books for the chains: refusals 9 to 13, odd links and unlinked records."""

import random

from reference.book import (Cell, Portfolio, Slot, empty_book, make_book, one_record_book,
                            slots_in_chain_order, shuffled, with_junk)
from reference.layout import CHAINS, RECORD_SIZE, changed, record
from tests.vectors.check_cases_header import Case, base_book, base_values, range_cases, slug

# In the base book, records 1 to 4 are the chain of PG1a men, 5 to 8 of PG1a women.
FIRST, SECOND, THIRD, LAST = (record(number) for number in (1, 2, 3, 4))
BASE_COUNT = 9


def every_chain_book():
    """One record at class 120 for each of the 14 chains."""
    values = base_values()
    values.portfolios = {chain: Portfolio(120, (Cell(7, 50_000, 300_000, 250_000),))
                         for chain in range(len(CHAINS))}
    return make_book(values)


def link_cases():
    """Refusal 9, and heads and nexts at the ends of what they may hold."""
    base, empty, one = base_book(), empty_book(), one_record_book()
    for chain in CHAINS:
        yield Case(f"{slug(chain.head)}_1_in_an_empty_book", changed(empty, (chain.head, 1)))
    for chain in (CHAINS[0], CHAINS[6], CHAINS[13]):
        for words, number in (("0", 0), ("one_above_n", BASE_COUNT + 1), ("65535", 65_535)):
            yield Case(f"{slug(chain.head)}_{words}", changed(base, (chain.head, number)))
    yield Case("head_is_the_only_record", changed(one, (CHAINS[6].head, 1)))
    yield Case("head_one_above_the_only_record", changed(one, (CHAINS[6].head, 2)))
    yield Case("head_at_n", changed(base, (CHAINS[7].head, BASE_COUNT)))
    yield Case("head_by_its_high_byte_only", changed(base, (CHAINS[0].head, 256)))
    for linked in (FIRST, THIRD):
        for words, number in (("one_above_n", BASE_COUNT + 1), ("65535", 65_535),
                              ("by_its_high_byte_only", 256 + linked.number + 1)):
            yield Case(f"{slug(linked.next)}_{words}", changed(base, (linked.next, number)))
    yield Case("next_at_n", next_at_last_record())


def next_at_last_record():
    """A valid book whose first chain ends in the book's last record."""
    values = base_values()
    slots = slots_in_chain_order(values)
    slots.remove(Slot(0, 120))
    return make_book(values, slots + [Slot(0, 120)])


def ownership_cases():
    """Refusal 10: code, sex and spare bytes, at the start, middle and end of a chain."""
    base = base_book()
    for linked in (FIRST, SECOND, LAST):
        for number in (0, 2, 7, 8, 129, 255):
            yield Case(f"{slug(linked.code)}_{number}", changed(base, (linked.code, number)))
        for number in (1, 2, 128, 255):
            yield Case(f"{slug(linked.sex)}_{number}", changed(base, (linked.sex, number)))
        for spare in linked.spares:
            for number in (1, 128, 255):
                yield Case(f"{slug(spare)}_holds_{number}", changed(base, (spare, number)))
    every = every_chain_book()
    for number, chain in enumerate(CHAINS, start=1):
        owned = record(number)
        name = chain.name.lower().replace(" ", "_")
        yield Case(f"{name}_with_the_other_sex", changed(every, (owned.sex, 1 - chain.sex)))
        yield Case(f"{name}_with_the_code_above", changed(every, (owned.code, chain.code + 1)))
        yield Case(f"{name}_with_the_code_below", changed(every, (owned.code, chain.code - 1)))
    yield Case("every_chain_with_one_record", every)


def class_cases():
    """Refusal 11: a first class above 120, a later class that is not one more."""
    base = base_book()
    for number in (121, 122, 128, 255):
        yield Case(f"first_class_{number}", changed(base, (FIRST.age_class, number)))
        yield Case(f"last_class_{number}", changed(base, (LAST.age_class, number)))
    for number in (0, 1, 116, 117, 119, 120, 121, 255):
        yield Case(f"second_class_{number}_after_117", changed(base, (SECOND.age_class, number)))
    for number in (0, 115, 116, 118, 119):
        yield Case(f"first_class_{number}_before_118", changed(base, (FIRST.age_class, number)))
    yield Case("first_class_120_but_linked_on", changed(base, (FIRST.age_class, 120)))
    yield Case("last_class_one_too_low", changed(base, (LAST.age_class, 119)))


def amount_cases():
    """Refusal 12: each of the four amounts at both ends of its range, and what n counts."""
    base = base_book()
    for linked in (FIRST, THIRD, LAST):
        yield from range_cases(base, linked.amounts)
    counts = [record(number).amounts[0] for number in range(1, BASE_COUNT + 1)]
    amounts = [amount for number in range(1, BASE_COUNT + 1) for amount in record(number).amounts]
    for words, number in (("0", 0), ("1", 1), ("256", 256), ("65536", 65_536)):
        book = changed(base, *((count, number) for count in counts))
        yield Case(f"every_count_{words}", book)
    yield Case("every_amount_at_its_low_end", changed(base, *((a, a.low) for a in amounts)))
    yield Case("every_amount_at_its_high_end", changed(base, *((a, a.high) for a in amounts)))


def end_of_chain_cases():
    """Refusal 13: a chain that ends early or runs on."""
    base, one = base_book(), one_record_book()
    for linked in (FIRST, SECOND, THIRD):
        yield Case(f"{slug(linked.next)}_0_below_class_120", changed(base, (linked.next, 0)))
    for number in (1, 3, 5, BASE_COUNT, BASE_COUNT + 1, 256, 65_535):
        yield Case(f"next_{number}_at_class_120", changed(base, (LAST.next, number)))
    for number in (1, 2, 65_535):
        yield Case(f"next_{number}_at_the_only_record", changed(one, (record(1).next, number)))
    for number in (0, 1, 119):
        yield Case(f"only_record_at_class_{number}", changed(one, (record(1).age_class, number)))


def odd_link_cases():
    """Cycles, shared records and crossing chains."""
    base = base_book()
    men, women = CHAINS[0].head, CHAINS[1].head
    pg2_men = CHAINS[6].head
    yield Case("chain_into_itself_at_its_first", changed(base, (FIRST.next, 1)))
    yield Case("chain_into_itself_in_the_middle", changed(base, (THIRD.next, 3)))
    yield Case("chain_into_itself_at_class_120", changed(base, (LAST.next, 4)))
    yield Case("cycle_of_two", changed(base, (SECOND.next, 1)))
    yield Case("cycle_of_three", changed(base, (THIRD.next, 1)))
    yield Case("cycle_through_class_120", changed(base, (LAST.next, 1)))
    yield Case("two_heads_on_one_record", changed(base, (women, 1)))
    yield Case("two_heads_on_one_record_of_the_later_chain", changed(base, (men, 5)))
    yield Case("two_heads_on_a_record_of_another_subgroup", changed(base, (pg2_men, 9)))
    yield Case("every_head_on_record_1", changed(base, *((chain.head, 1) for chain in CHAINS)))
    yield Case("heads_swapped", changed(base, (men, 5), (women, 1)))
    yield Case("crossing_into_the_next_chain", changed(base, (FIRST.next, 6)))
    yield Case("crossing_into_an_earlier_chain", changed(base, (record(5).next, 2)))
    yield Case("crossing_chains_exchanged", changed(base, (FIRST.next, 6), (record(5).next, 2)))
    yield Case("crossing_into_another_subgroup", changed(base, (THIRD.next, 9)))
    yield Case("next_skips_a_class", changed(base, (FIRST.next, 3)))
    yield Case("head_on_the_second_record", changed(base, (men, 2)))
    yield Case("head_on_the_last_record", changed(base, (men, 4)))


def unlinked_cases():
    """Unlinked records: the same books again with other junk, accepted and refused."""
    chooser = random.Random(24)
    values = base_values()
    slots = with_junk(shuffled(slots_in_chain_order(values), chooser), 3, chooser)
    order = [bytes(RECORD_SIZE), *slots, bytes(RECORD_SIZE)]
    fills = (("zero_junk", lambda: bytes(RECORD_SIZE)),
             ("junk_of_255", lambda: b"\xff" * RECORD_SIZE),
             ("random_junk", lambda: chooser.randbytes(RECORD_SIZE)),
             ("other_random_junk", lambda: chooser.randbytes(RECORD_SIZE)))
    for words, fill in fills:
        filled = [slot if isinstance(slot, Slot) else fill() for slot in order]
        book = make_book(values, filled)
        lapse = record(filled.index(Slot(0, 119)) + 1).amounts[1]
        yield Case(f"accepted_with_{words}", book)
        yield Case(f"refused_with_{words}", changed(book, (lapse, lapse.high + 1)))
    only_junk = [chooser.randbytes(RECORD_SIZE) for _ in range(5)]
    values.portfolios = {}
    yield Case("only_unlinked_records", make_book(values, only_junk))
    yield Case("only_unlinked_records_changed", make_book(values, only_junk[::-1]))


def chain_cases():
    """All cases of this module."""
    for cases in (link_cases, ownership_cases, class_cases, amount_cases,
                  end_of_chain_cases, odd_link_cases, unlinked_cases):
        yield from cases()
