"""Tests of both valuations, rounded and exact: trial figures, traps, refusals, distances."""

import random
import sys
import unittest
from fractions import Fraction

from reference.book import (PG2_MEN, Cell, Portfolio, Values, empty_book, full_book, make_book,
                            one_record_book, random_book, random_values, read_values)
from reference.check import check
from reference.exact import exact_liability, exact_totals, group_distance, total_distance
from reference.layout import (CHAINS, CLASSES, CURVE, EDITION, HEADER_SPARE, OLDEST_CLASS,
                              PERCENTAGES, PRODUCT_GROUPS, SETTINGS, changed)
from reference.valuation import (capped, discounted, group, in_force_by_year, listing,
                                 next_in_force, outgo_of, mortality_weight, totals, weighted,
                                 weights_of)
from tests import ROOT
from tests.fixtures import trial_books as trials
from tests.support.report import run_unit_tests


def year(book, k, setting=0, product_group=2):
    """The four numbers of year k."""
    return tuple(group(book, setting, product_group, 200)[4][4 * k:4 * k + 4])


def in_force(book, k, setting=0):
    """What is in force of the first cell of PG2 men in year k."""
    return list(in_force_by_year(read_values(book), PG2_MEN, setting))[k][0]


def naive_liability(values, setting, product_group):
    """The exact value in plain fractions, slowly: a check on the faster one."""
    premium, claims = [Fraction(0)] * 50, [Fraction(0)] * 50
    for chain, (first_class, cells) in values.portfolios.items():
        _, code, sex, _ = CHAINS[chain]
        if max(1, code - 2) != product_group:
            continue
        for start, cell in enumerate(cells):
            contracts = Fraction(cell.count)
            for k in range(50):
                age_class = min(first_class + start + k, OLDEST_CLASS)
                reached = cells[age_class - first_class]
                premium[k] += contracts * reached.premium
                claims[k] += contracts * reached.claims
                weights = weights_of(setting, k)
                death = values.mortality[sex][age_class] * mortality_weight(values, weights, sex)
                contracts *= 1 - min(Fraction(death, 10**9), 1)
                contracts *= 1 - min(Fraction(reached.lapse * weights.lapse, 10**9), 1)
    liability = Fraction(0)
    for k in range(50):
        weights = weights_of(setting, k)
        cost_rate = Fraction(values.cost_rates[product_group - 1] * weights.costs, 10**9)
        outgo = claims[k] * Fraction(weights.claims, 1_000) + premium[k] * cost_rate
        counted = premium[k] if k < 5 else min(premium[k], 10 * outgo / 9)
        rate = values.curve[k - 1] if k > 0 else 0
        liability += (outgo - counted) * Fraction(10**6, 10**6 + rate)**k
    return liability


def off_by(book, product_group):
    """How far a liability of the base setting is from its exact value."""
    return abs(group(book, 0, product_group, 200)[2] - exact_liability(book, 0, product_group))


def off_by_all(book):
    """How far the total of the base setting is from its exact value."""
    return abs(totals(book)[3][0] - exact_totals(book)[0])


class TrialFigures(unittest.TestCase):
    """T1 to T12 and the figures beside them."""

    def test_discounting_t1_t2(self):
        self.assertEqual(discounted(99, -10_000, 1), 100)
        self.assertEqual(discounted(100, 10_000, 2), 98)
        one_year = trials.one_contract_book(trials.in_year(1, 0, 99), curve=[-10_000] + [0] * 48)
        self.assertEqual(year(one_year, 1), (0, 99, 0, 100))
        # Only the rate of the year itself counts, at each step back.
        two_years = trials.one_contract_book(trials.in_year(2, 0, 100),
                                             curve=[200_000, 10_000] + [200_000] * 47)
        self.assertEqual(year(two_years, 2), (0, 100, 0, 98))

    def test_cap_t3_to_t6(self):
        for k, premium, outgo, counted in ((5, 1_001, 900, 1_000), (4, 1_001, 900, 1_001),
                                           (5, 1_000, 899, 998), (5, 1_001, 0, 0)):
            self.assertEqual(capped(premium, outgo, k), counted)
            book = trials.one_contract_book(trials.in_year(k, premium, outgo))
            self.assertEqual(year(book, k), (counted, outgo, counted, outgo))

    def test_in_force_t7_to_t10(self):
        certain = trials.in_force_book(1_000_000, 0)
        for setting, contracts in ((0, 130_000_000), (1, 0), (2, 304_000_000)):
            self.assertEqual(in_force(certain, 1, setting), contracts)
            self.assertEqual(year(certain, 1, setting)[0], contracts // 100)
        lapsing = trials.in_force_book(0, 333_333)
        self.assertEqual([in_force(lapsing, k) for k in (0, 1, 2)],
                         [1_000_000_000, 666_667_000, 444_444_888])

    def test_edition_2_has_its_own_percentages(self):
        # Half of the men die in the base, three fifths and two fifths in settings 1 and 2.
        halved = changed(trials.in_force_book(1_000_000, 0), (EDITION, 2), (PERCENTAGES[0], 50),
                         (PERCENTAGES[1], 1))
        for setting, contracts in ((0, 500_000_000), (1, 400_000_000), (2, 600_000_000),
                                   (7, 500_000_000)):
            self.assertEqual(in_force(halved, 1, setting), contracts)
        none_left = changed(halved, (PERCENTAGES[0], 100))
        for setting, contracts in ((0, 0), (1, 0), (2, 200_000_000)):
            self.assertEqual(in_force(none_left, 1, setting), contracts)

    def test_87_and_86_in_edition_2_are_edition_1(self):
        book = make_book(random_values(random.Random(3), 4, 112))
        first = changed(book, (EDITION, 1), (HEADER_SPARE, 0))
        second = changed(book, (EDITION, 2), (PERCENTAGES[0], 87), (PERCENTAGES[1], 86))
        self.assertEqual(listing(first), listing(second))
        swapped = changed(book, (EDITION, 2), (PERCENTAGES[0], 86), (PERCENTAGES[1], 87))
        self.assertNotEqual(listing(first), listing(swapped))

    def test_refused_books_t11_t12(self):
        for book, refusal, place in ((bytes(1_220), 2, 0), (bytes(1_219), 1, 1_219)):
            self.assertEqual(group(book, 0, 1, 200), (refusal, place, 0, 0, None))
            self.assertEqual(totals(book), (refusal, place, 0, [0] * 8, [0] * 4))
            self.assertEqual(listing(book), f"refused {refusal} {place}\n".encode())

    def test_rate_200000_passes(self):
        self.assertEqual(listing(changed(empty_book(), (CURVE[3], 200_000))), listing(empty_book()))
        self.assertEqual(listing(changed(empty_book(), (CURVE[3], 200_001))), b"refused 7 68\n")

    def test_no_records_give_zeros(self):
        for setting in SETTINGS:
            for product_group in PRODUCT_GROUPS:
                self.assertEqual(group(empty_book(), setting, product_group, 200),
                                 (0, 0, 0, 0, [0] * 200))
        self.assertEqual(totals(empty_book()), (0, 0, 0, [0] * 8, [0] * 4))
        self.assertEqual(listing(empty_book()), b"".join(b"%d 0 0\n" % s for s in SETTINGS))

    def test_paper_listing(self):
        self.assertEqual(listing(one_record_book()), trials.PAPER_LISTING)
        self.assertEqual(totals(one_record_book())[4], [0, 0, 200_000, 200_000])

    def test_paper_listing_year_by_year(self):
        # Ten ninths of 900,000 are 1,000,000: from k = 5 the cap stands just at the premium and
        # cuts nothing.
        for k in range(50):
            self.assertEqual(year(one_record_book(), k), (1_000_000, 900_000) * 2)
        # Dearer or cheaper in the first five years alone, which have no cap.
        for setting, outgo in ((5, 920_000), (6, 880_000), (7, 940_000)):
            self.assertEqual(year(one_record_book(), 4, setting), (1_000_000, outgo) * 2)
            self.assertEqual(year(one_record_book(), 5, setting), (1_000_000, 900_000) * 2)

    def test_listing_takes_41877_bytes(self):
        full = full_book(random.Random(2))
        for more in (1, 2, 500):
            self.assertEqual(listing(full + bytes(more)), b"refused 5 41877\n")


class Traps(unittest.TestCase):
    """Each book would show another figure on the wrong road."""

    def test_cap_is_for_pg1_as_a_whole(self):
        # Apart, PG1a would have no outgo, hence no premium.
        self.assertEqual(year(trials.rich_and_poor_book(), 5, 0, 1), (1_000, 1_000) * 2)
        # Apart, 1,500 would become 111 and 100 would stay.
        self.assertEqual(year(trials.richer_than_the_group_book(), 5, 0, 1), (1_222, 1_100) * 2)

    def test_cap_starts_in_the_sixth_year(self):
        # A year later 1,001 would still stand.
        self.assertEqual(year(trials.sixth_year_book(), 5)[0], 1_000)

    def test_lapse_is_of_the_survivors(self):
        # Death and lapse added would leave nobody.
        self.assertEqual(year(trials.death_and_lapse_book(), 1)[0], 65_000)

    def test_costs_are_of_the_whole_premium(self):
        # On a premium first cut to 1,000 the cost would be 100, outgo 1,000.
        self.assertEqual(year(trials.cost_before_cap_book(), 5), (1_222, 1_100) * 2)

    def test_lapse_shift_lasts(self):
        # Ended after five years it would leave 4,485,788 and 6,261,195.
        self.assertEqual(year(trials.lasting_lapse_book(), 6, 3)[1], 10**7 * 87**6 // 100**6)
        self.assertEqual(year(trials.lasting_lapse_book(), 6, 4)[1], 10**7 * 93**6 // 100**6)


class Steps(unittest.TestCase):
    """Weights, classes and sums."""

    def test_mortality_and_lapse_are_cut_to_one(self):
        self.assertEqual(weighted(1_000_000, 1_044), 1_000_000_000)
        self.assertEqual(weighted(957_854, 1_044), 999_999_576)
        self.assertEqual(next_in_force(10**14, weighted(999_999, 1_044), 0), 0)
        leaving = trials.one_contract_book(trials.in_year(1, 0, 500), lapse=800_000)
        self.assertEqual([year(leaving, 1, setting)[1] for setting in (0, 3, 4)], [100, 0, 220])

    def test_cost_rate_is_not_cut(self):
        book = trials.one_contract_book([(1_000, 0)] * 6, cost_rate=1_000_000)
        self.assertEqual([year(book, k, 5)[1] for k in (0, 4, 5)], [1_200, 1_200, 1_000])
        self.assertEqual([year(book, k, 6)[1] for k in (0, 4, 5)], [800, 800, 1_000])

    def test_claims_shift_ends_after_five_years(self):
        book = trials.one_contract_book([(0, 1_000)] * 6)
        self.assertEqual([year(book, k, 7)[1] for k in (0, 4, 5)], [1_050, 1_050, 1_000])

    def test_mortality_shift_ends_after_five_years(self):
        book = trials.in_force_book(100_000, 0)
        for setting, first in ((1, 8_956), (2, 9_304)):
            contracts = 10**9
            for share in [first] * 5 + [9_130]:
                contracts = contracts * share // 10_000
            self.assertEqual(in_force(book, 6, setting), contracts)

    def test_rates_and_amounts_are_of_the_class_reached(self):
        cells = (Cell(1, 0, 1, 5), Cell(0, 500_000, 2, 600), Cell(0, 0, 3, 7_000))
        mortality = [[0] * CLASSES, [0] * CLASSES]
        mortality[1][118] = 1_000_000
        book = make_book(Values(mortality=mortality, portfolios={7: Portfolio(118, cells)}))
        # Of women 14 percent outlive class 118, and half of them leave in class 119. The others
        # stay in class 120.
        self.assertEqual([year(book, k)[1] for k in (0, 1, 2, 3, 49)], [5, 84, 490, 490, 490])

    def test_the_very_old_stay_insured(self):
        # Of men 0.565 outlive class 119 and 0.8 of these stay; in class 120 it is 0.913 and 0.95,
        # each year.
        book, contracts = trials.very_old_book(), 10**9
        self.assertEqual(year(book, 0), (10_000_000, 0) * 2)
        for k in range(1, 50):
            living, staying = (565, 800) if k == 1 else (913, 950)
            contracts = contracts * living // 1_000 * staying // 1_000
            self.assertEqual(in_force(book, k), contracts)
            self.assertEqual(year(book, k), (0, contracts // 100) * 2)

    def test_years_in_force_of_the_worked_example(self):
        # The table of docs/WORKED_EXAMPLES.md: the first year with nothing in force, for each of
        # the settings 0 to 4.
        values = read_values((ROOT / "samples" / "worked_example.book").read_bytes())
        worked = ((10, 9, 8), (3, 2, 1), (11, 10, 10), (9, 8, 7), (11, 10, 9))
        for setting, ends in enumerate(worked):
            by_year = list(in_force_by_year(values, PG2_MEN, setting))
            for cell, end in enumerate(ends):
                self.assertEqual([k for k in range(50) if by_year[k][cell]], list(range(end)))

    def test_the_very_old_have_the_exact_value_of_fifty_years(self):
        exact = sum(10**7 * Fraction(452, 1_000) * Fraction(86_735, 100_000)**years
                    for years in range(49))
        self.assertEqual(exact_liability(trials.very_old_book(), 0, 2), exact - 10**7)

    def test_each_subgroup_enters_its_group(self):
        for chain, product_group in enumerate((1, 1, 1, 1, 1, 1, 2, 2, 3, 3, 4, 4, 5, 5)):
            book = trials.one_contract_book([(0, 9)], chain=chain)
            found = [each for each in PRODUCT_GROUPS if group(book, 0, each, 200)[2:4] == (9, 1)]
            self.assertEqual(found, [product_group])

    def test_totals_are_sums_of_groups(self):
        book = random_book(random.Random(8), 100, 14)
        groups = [[group(book, setting, each, 200) for each in PRODUCT_GROUPS]
                  for setting in SETTINGS]
        refusal, place, n, by_setting, differences = totals(book)
        self.assertEqual((refusal, place, n), (0, 0, sum(reply[3] for reply in groups[0])))
        self.assertEqual(n, check(book)[1])
        self.assertEqual(by_setting, [sum(reply[2] for reply in replies) for replies in groups])
        zero, one, two, three, four, five, six, seven = by_setting
        self.assertEqual(differences, [one - two, three - four, five - six, seven - zero])

    def test_values_are_read_as_they_were_made(self):
        values = random_values(random.Random(3), 5, 90)
        self.assertEqual(read_values(make_book(values)), values)


class Rounding(unittest.TestCase):
    """Every division rounds down, at its own place."""

    def test_deaths_are_rounded_before_lapse(self):
        # Unrounded between, nine would stay of ten.
        self.assertEqual(next_in_force(10, 50_000_000, 50_000_000), 8)
        # Lapse first, one would stay of three.
        self.assertEqual(next_in_force(3, 500_000_000, 200_000_000), 0)

    def test_each_cell_is_rounded(self):
        cell = Cell(count=1, lapse=400_000, premium=1, claims=1)
        book = make_book(Values(portfolios={PG2_MEN: Portfolio(118, (cell,) * 3)}))
        # In the second year 0.6 of a centime three times is nothing.
        self.assertEqual([year(book, k)[:2] for k in (0, 1)], [(3, 3), (0, 0)])

    def test_cost_is_rounded_once_and_apart_from_claims(self):
        self.assertEqual(outgo_of(1, 0, 900_000, weights_of(5, 0)), 1)
        self.assertEqual(outgo_of(1, 10, 500_000, weights_of(7, 0)), 10)

    def test_each_year_of_discounting_is_rounded(self):
        # In a single division 50 would become 81.
        self.assertEqual(discounted(50, -10_000, 49), 50)


class Refusals(unittest.TestCase):
    """The caller's refusals come first, in their order."""

    def test_order(self):
        refused = bytes(1_220)
        for call, refusal in (((refused, 8, 0, 199), 14), ((refused, 7, 0, 199), 15),
                              ((refused, 7, 6, 199), 15), ((refused, 7, 5, 199), 16),
                              ((refused, 7, 5, 200), 2), ((empty_book(), 8, 1, 200), 14),
                              ((empty_book(), 2**64 - 1, 1, 200), 14),
                              ((empty_book(), 0, 2**64 - 1, 200), 15),
                              ((empty_book(), 0, 1, 0), 16)):
            self.assertEqual(group(*call), (refusal, 0, 0, 0, None))

    def test_longer_table_changes_no_number(self):
        self.assertEqual(group(one_record_book(), 5, 2, 300), group(one_record_book(), 5, 2, 200))


class Distance(unittest.TestCase):
    """Rounded against exact figures."""

    def test_exact_value_by_hand(self):
        book = trials.one_contract_book(trials.in_year(2, 0, 7), lapse=333_333,
                                        curve=[0, 10_000] + [0] * 47)
        self.assertEqual(exact_liability(book, 0, 2), 7 * Fraction(666_667, 1_010_000)**2)
        book = trials.one_contract_book(trials.in_year(5, 1_000, 899))
        self.assertEqual(exact_liability(book, 0, 2), Fraction(-899, 9))

    def test_exact_value_is_the_naive_one(self):
        for seed, extreme in ((11, False), (12, True)):
            values = random_values(random.Random(seed), 6, 110, extreme)
            for setting in SETTINGS:
                for product_group in PRODUCT_GROUPS:
                    self.assertEqual(exact_liability(make_book(values), setting, product_group),
                                     naive_liability(values, setting, product_group))

    def test_random_books_keep_the_distance(self):
        chooser = random.Random(1_694)
        for number in range(30):
            book = random_book(chooser, (60, 100, 115)[number % 3], 5)
            if number % 2:
                book = trials.without_rates_below_zero(book)
            for setting in chooser.sample(SETTINGS, 3):
                self.hold_book(book, setting)

    def test_which_distance_holds(self):
        for rates, of_group, of_all in (([0] * 49, 1_675, 7_375), ([1] * 49, 1_675, 7_375),
                                        ([0] * 48 + [-1], 3_350, 14_750),
                                        ([-1] + [0] * 48, 3_350, 14_750)):
            book = make_book(Values(curve=rates))
            self.assertEqual((group_distance(book, 1), total_distance(book, 1)), (of_group, of_all))

    def test_half_the_distance_needs_all_its_parts(self):
        # With 0 for 1,425: 250 would be allowed. With 0 for 7,125, 1,250; with one group's 1,425,
        # 2,675.
        self.assertEqual(int(off_by(trials.loss_at_every_rounding_book(1), 2)), 1_297)
        self.assertEqual(int(off_by_all(trials.loss_at_every_rounding_book(1, (0, 6, 8, 10, 12)))),
                         6_489)
        # With 0 for 250: 1,425. With the n of PG1 for that of the book, 7,125.
        self.assertEqual(int(off_by(trials.loss_in_every_cell_book((PG2_MEN,)), 2)), 3_459)
        self.assertEqual(int(off_by_all(trials.loss_in_every_cell_book(range(6, 14)))), 27_674)

    def test_a_curve_below_zero_comes_near_half_the_distance(self):
        # 1,675 is half the distance: no book is known that passes it (docs/ERROR_BOUND.md).
        self.assertEqual(int(off_by(trials.loss_at_every_rounding_book(-9_999), 2)), 1_594)

    def hold_book(self, book, setting):
        """Every group within its distance, the groups together within theirs."""
        together = 0
        for product_group in PRODUCT_GROUPS:
            _, _, liability, n, numbers = group(book, setting, product_group, 200)
            off = liability - exact_liability(book, setting, product_group)
            self.assertLessEqual(abs(off), group_distance(book, n))
            together += off
            for k in range(5, 50):
                self.assertLessEqual(9 * numbers[4 * k], 10 * numbers[4 * k + 1])
        self.assertLessEqual(abs(together), total_distance(book, check(book)[1]))


if __name__ == "__main__":
    sys.exit(run_unit_tests(sys.modules[__name__]))
