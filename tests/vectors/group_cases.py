"""The named calls of the group stream: settings, groups and tables, in range and out of it."""

import random
from typing import NamedTuple

from reference.book import PG2_MEN, empty_book, one_record_book, random_book
from reference.layout import CHAINS, CURVE, EDITION, PERCENTAGES, PRODUCT_GROUPS, SETTINGS, changed
from tests.fixtures import insurers as books
from tests.fixtures import trial_books as trials
from tests.vectors.check_cases_header import base_book
from tests.vectors.check_cases_order import BOOK_REFUSALS, spoiled

PG1C_WOMEN, PG3_MEN = 5, 8
FAR_NUMBERS = (2**32, 2**63, 2**64 - 1)


class Call(NamedTuple):
    """What a caller of Group lends."""

    name: str
    setting: int
    product_group: int
    book: bytes
    table_length: int = 200


def in_edition_2(book, men, women):
    """The book of edition 1 with these percentages."""
    return changed(book, (EDITION, 2), *zip(PERCENTAGES, (men, women)))


def group_of(chain):
    """The product group that a chain belongs to."""
    return max(1, CHAINS[chain].code - 2)


def insurer_calls():
    """Every setting and group of a plausible insurer, and some of one with other percentages."""
    many = books.insurer_book(books.MANY_PRODUCTS, 320)
    hospital = in_edition_2(books.insurer_book(books.HOSPITAL_PRODUCT, 302), 83, 91)
    for setting in SETTINGS:
        for product_group in PRODUCT_GROUPS:
            yield Call(f"insurer_setting_{setting}_group_{product_group}",
                       setting, product_group, many)
        product_group = 4 if setting % 3 else 1
        yield Call(f"hospital_insurer_setting_{setting}_group_{product_group}",
                   setting, product_group, hospital)


def trial_calls():
    """The paper's own book, the trial figures that a book can show, and the traps."""
    for setting in SETTINGS:
        yield Call(f"one_cell_of_the_paper_setting_{setting}", setting, 2, one_record_book())
    one = trials.one_contract_book
    yield Call("discounted_one_year", 0, 2, one(trials.in_year(1, 0, 99), curve=[-10_000] * 49))
    yield Call("discounted_two_years", 0, 2, one(trials.in_year(2, 0, 100), curve=[10_000] * 49))
    for k, premium, claims in ((5, 1_001, 900), (4, 1_001, 900), (5, 1_000, 899), (5, 1_000, 900),
                               (5, 1_000, 901), (5, 1_000, 0), (6, 1_001, 900), (49, 1_001, 900)):
        yield Call(f"premium_{premium}_outgo_{claims}_in_year_{k}", 0, 2,
                   one(trials.in_year(k, premium, claims)))
    for setting in (0, 1, 2):
        yield Call(f"certain_death_setting_{setting}", setting, 2,
                   trials.in_force_book(1_000_000, 0))
    for setting in (0, 1, 2, 7):
        for men, women in ((50, 1), (100, 100), (1, 100)):
            yield Call(f"certain_death_at_{men}_percent_setting_{setting}", setting, 2,
                       in_edition_2(trials.in_force_book(1_000_000, 0), men, women))
    for setting in (0, 3, 4):
        yield Call(f"a_third_lapses_setting_{setting}", setting, 2,
                   trials.in_force_book(0, 333_333))
    yield Call("rich_subgroup_behind_a_poor_one", 0, 1, trials.rich_and_poor_book())
    yield Call("rich_subgroup_and_the_cap", 0, 1, trials.richer_than_the_group_book())
    yield Call("death_and_lapse_in_turn", 0, 2, trials.death_and_lapse_book())
    yield Call("cost_before_the_cap", 0, 2, trials.cost_before_cap_book())
    yield Call("lapse_stays_up", 3, 2, trials.lasting_lapse_book())
    yield Call("lapse_stays_down", 4, 2, trials.lasting_lapse_book())
    yield Call("loss_in_discounting", 0, 2, trials.loss_in_discounting_book())
    yield Call("loss_in_every_step", 0, 2, trials.loss_in_every_step_book())
    for words, rate in (("below", -9_999), ("above", 1)):
        yield Call(f"loss_at_every_rounding_{words}_zero", 0, 2,
                   trials.loss_at_every_rounding_book(rate))


def class_calls():
    """Contracts that stay at class 120 from the start, after a year, or just within 50 years."""
    plain = books.Cell(3, 41_000, 250_000, 190_000)
    for chain, first_class in ((0, 120), (3, 119), (7, 120), (8, 119), (11, 119), (13, 120),
                               (4, 72), (6, 71), (9, 70)):
        values = books.flat_values(150_000, 12_345, 88_888)
        yield Call(f"{CHAINS[chain].name.replace(' ', '_')}_from_class_{first_class}",
                   chain % 8, group_of(chain),
                   books.repeated_book(values, chain, first_class, plain))
    for setting in (0, 1, 2, 3, 4):
        yield Call(f"very_old_setting_{setting}", setting, 2, trials.very_old_book())


def end_calls():
    """Fields at both ends of their ranges, mixed and all together."""
    for number, (rate, mortality, lapse) in enumerate(
            (rate, mortality, lapse) for rate in (-10_000, 200_000)
            for mortality in (0, 1_000_000) for lapse in (0, 1_000_000)):
        cell = books.HIGHEST._replace(lapse=lapse)
        values = books.flat_values(1_000_000, rate, mortality)
        yield Call(f"highest_amounts_rate_{rate}_mortality_{mortality}_lapse_{lapse}", number, 1,
                   books.repeated_book(values, PG1C_WOMEN, 61, cell))
    yield Call("lowest_of_all", 0, 3, books.repeated_book(
        books.flat_values(0, -10_000, 0), PG3_MEN, 61, books.LOWEST))
    yield Call("highest_premium_alone", 6, 2, books.repeated_book(
        books.flat_values(0, -10_000, 0), PG2_MEN, 61,
        books.Cell(100_000, 0, 10_000_000, 0)))
    for code in range(1, 8):
        for seed in (code, code + 7):
            yield Call(f"ends_of_ranges_{seed}", seed % 8, max(1, code - 2),
                       books.ends_book(code, seed))


def curve_calls():
    """Curves at the ends of their range."""
    alternating = [(-10_000, 200_000)[k % 2] for k in range(len(CURVE))]
    for words, rates in (("lowest", [-10_000] * 49), ("highest", [200_000] * 49),
                         ("alternating", alternating)):
        book = books.curve_book(rates, 49)
        yield Call(f"{words}_rates_group_3", 1, 3, book)
        yield Call(f"{words}_rates_group_5", 6, 5, book)


def size_calls():
    """Full books, empty ones, cells without contracts, random books."""
    yield Call("full_book_at_its_highest", 5, 1, books.highest_full_book())
    yield Call("full_book_dense", 3, 1, books.dense_full_book(1_694))
    yield Call("empty_book", 0, 1, empty_book())
    yield Call("other_groups_are_empty", 7, 5, one_record_book())
    for spacing in (0, 1, 2, 29):
        for product_group in (1, 2):
            yield Call(f"contracts_in_one_of_{spacing}_cells_group_{product_group}",
                       4 - product_group, product_group, books.thinned_book(29, spacing))
    for product_group in (1, 5):
        for seven_tenths_from in (75, 121):
            yield Call(f"rich_to_class_{seven_tenths_from}_group_{product_group}", 3, product_group,
                       books.rich_book(90, seven_tenths_from))
    chooser = random.Random(20_201_031)
    for number in range(10):
        yield Call(f"random_book_{number}", number % 8, number % 5 + 1,
                   random_book(chooser, 90, 14))


def table_calls():
    """Year tables longer than the 200 numbers, and too short."""
    for length in (200, 201, 250, 300):
        yield Call(f"table_of_{length}", 2, 2, base_book(), length)
    for length in (0, 1, 199):
        yield Call(f"table_of_{length}", 2, 2, base_book(), length)


def caller_calls():
    """Settings and groups out of range, and the order of the caller's refusals."""
    for setting in (8, 9, *FAR_NUMBERS):
        yield Call(f"setting_{setting}", setting, 1, base_book(), 300)
    for product_group in (0, 6, 7, *(number + 1 for number in FAR_NUMBERS[:2]), 2**64 - 1):
        yield Call(f"product_group_{product_group}", 0, product_group, base_book(), 300)
    for words, book in (("an_accepted", base_book()), ("a_refused", spoiled((1,)))):
        yield Call(f"all_three_wrong_with_{words}_book", 8, 0, book, 199)
        yield Call(f"setting_and_table_wrong_with_{words}_book", 8, 1, book, 199)
        yield Call(f"setting_and_group_wrong_with_{words}_book", 8, 6, book)
        yield Call(f"group_and_table_wrong_with_{words}_book", 7, 6, book, 0)
        yield Call(f"table_wrong_with_{words}_book", 7, 5, book, 199)
    yield Call("setting_wrong_with_a_refused_book", 8, 5, spoiled((13,)))
    yield Call("group_wrong_with_a_refused_book", 0, 6, spoiled((12,)))


def refused_calls():
    """Each refusal of the book, also where the defect stands in another group."""
    for refusal in BOOK_REFUSALS:
        yield Call(f"book_refused_by_{refusal}", refusal % 8, refusal % 5 + 1,
                   spoiled((refusal,)), 200 + refusal)
    yield Call("no_bytes", 0, 1, b"", 300)


def group_calls():
    """All calls of the stream."""
    for calls in (trial_calls, class_calls, insurer_calls, end_calls, curve_calls, size_calls,
                  table_calls, caller_calls, refused_calls):
        yield from calls()
