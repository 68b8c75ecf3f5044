"""Tests of the check and the book maker on books packed by hand from the paper's layout."""

import random
import struct
import sys
import unittest
from types import SimpleNamespace

from reference.book import (Cell, Portfolio, Values, empty_book, full_book, make_book,
                            one_record_book)
from reference.check import check, view
from reference.layout import BASIS_2
from tests.support.report import run_unit_tests


HEADER = {"year": 2021, "count": None, "spare": 0, "heads": {}, "costs": {}, "curve": {},
          "mortality": {}, "records": (), "edition": 1, "basis": 1}
RECORD = {"code": 1, "sex": 0, "age_class": 120, "following": 0, "count": 1, "lapse": 0,
          "premium": 0, "claims": 0, "spare_3": 0, "spares": 0}


def fields_of(usual, changes):
    """The usual fields, some of them changed; no other is known."""
    if not changes.keys() <= usual.keys():
        raise TypeError(f"no such field: {changes.keys() - usual.keys()}")
    return SimpleNamespace(**usual | changes)


def packed(**changes):
    """A book packed field by field; tables are maps from a position to a number."""
    def table(size, numbers):
        return [numbers.get(position, 0) for position in range(size)]

    book = fields_of(HEADER, changes)
    count = len(book.records) if book.count is None else book.count
    return (struct.pack("<BBHHH", book.edition, book.basis, book.year, count, book.spare)
            + struct.pack("<14H", *table(14, book.heads))
            + struct.pack("<5I", *table(5, book.costs))
            + struct.pack("<49i", *table(49, book.curve))
            + struct.pack("<242I", *table(242, book.mortality))
            + b"".join(book.records))


def packed_record(**changes):
    """A record's 24 bytes."""
    one = fields_of(RECORD, changes)
    return struct.pack("<BBBBHHIIII", one.code, one.sex, one.age_class, one.spare_3, one.following,
                       one.spares, one.count, one.lapse, one.premium, one.claims)


def pair_of_records(**second):
    """A chain of PG1a men at classes 119 and 120, the second record as given."""
    records = [packed_record(age_class=119, following=2), packed_record(**second)]
    return packed(heads={0: 1}, records=records)


class HeaderRules(unittest.TestCase):
    """Refusals 1 to 5, and 23."""

    def test_zero_bytes_are_refused_for_their_edition(self):
        self.assertEqual(check(bytes(1_220)), ("refused", 2, 0))

    def test_a_byte_too_few_is_refused_with_the_length(self):
        self.assertEqual(check(bytes(1_219)), ("refused", 1, 1_219))
        self.assertEqual(check(b""), ("refused", 1, 0))

    def test_age_basis_comes_after_edition(self):
        book = bytearray(packed())
        book[1] = 2
        self.assertEqual(check(bytes(book)), ("refused", 3, 1))
        book[0] = 3
        self.assertEqual(check(bytes(book)), ("refused", 2, 0))

    def test_year_runs_from_2017_to_2100(self):
        verdicts = [check(packed(year=year)) for year in (2_016, 2_017, 2_100, 2_101)]
        passed, refused = ("accepted", 0), ("refused", 4, 2)
        self.assertEqual(verdicts, [refused, passed, passed, refused])

    def test_more_than_1694_records_are_refused_before_the_length(self):
        self.assertEqual(check(packed(count=1_695)), ("refused", 4, 4))
        self.assertEqual(check(packed(count=1_694)), ("refused", 5, 1_220))

    def test_percentages_of_edition_2_run_from_1_to_100(self):
        def verdict(men, women):
            return check(packed(edition=2, spare=men + 256 * women))

        self.assertEqual([verdict(1, 100), verdict(100, 1)], [("accepted", 0)] * 2)
        self.assertEqual([verdict(0, 101), verdict(101, 0), verdict(255, 50)],
                         [("refused", 23, 6)] * 3)
        self.assertEqual([verdict(1, 0), verdict(100, 101)], [("refused", 23, 7)] * 2)

    def test_percentages_come_after_the_number_of_records_and_before_the_length(self):
        self.assertEqual(check(packed(edition=2, count=1_695)), ("refused", 4, 4))
        self.assertEqual(check(packed(edition=2, count=1)), ("refused", 23, 6))
        self.assertEqual(check(packed(edition=2, count=1, spare=257)), ("refused", 5, 1_220))

    def test_each_spare_byte_is_refused_at_6(self):
        self.assertEqual(check(packed(spare=1)), ("refused", 4, 6))
        self.assertEqual(check(packed(spare=256)), ("refused", 4, 6))

    def test_length_must_fit_the_number_of_records(self):
        self.assertEqual(check(packed() + b"\0"), ("refused", 5, 1_221))
        self.assertEqual(check(packed(records=[bytes(24)])[:-1]), ("refused", 5, 1_243))

    def test_no_records_and_no_heads_are_accepted(self):
        self.assertEqual(check(packed()), ("accepted", 0))


class TableRules(unittest.TestCase):
    """Refusals 6 to 8."""

    def test_cost_rate_above_one_is_refused_at_its_field(self):
        self.assertEqual(check(packed(costs={0: 1_000_000, 4: 1_000_000})), ("accepted", 0))
        self.assertEqual(check(packed(costs={0: 1_000_001})), ("refused", 6, 36))
        self.assertEqual(check(packed(costs={4: 1_000_001})), ("refused", 6, 52))

    def test_curve_rate_200000_passes_and_200001_does_not(self):
        self.assertEqual(check(packed(curve={0: 200_000})), ("accepted", 0))
        self.assertEqual(check(packed(curve={0: 200_001})), ("refused", 7, 56))

    def test_curve_rate_is_signed(self):
        self.assertEqual(check(packed(curve={48: -10_000})), ("accepted", 0))
        self.assertEqual(check(packed(curve={48: -10_001})), ("refused", 7, 248))

    def test_mortality_stands_men_first(self):
        self.assertEqual(check(packed(mortality={120: 1_000_001})), ("refused", 8, 732))
        self.assertEqual(check(packed(mortality={121: 1_000_001})), ("refused", 8, 736))
        self.assertEqual(check(packed(mortality={241: 1_000_001})), ("refused", 8, 1_216))

    def test_lower_number_comes_first_though_its_place_is_higher(self):
        book = packed(heads={0: 1}, costs={4: 1_000_001}, curve={0: 200_001})
        self.assertEqual(check(book), ("refused", 6, 52))


class ChainRules(unittest.TestCase):
    """Refusals 9 to 13."""

    def test_head_above_n_is_refused_at_the_head(self):
        self.assertEqual(check(packed(heads={13: 1})), ("refused", 9, 34))

    def test_next_above_n_is_refused_at_the_next(self):
        book = packed(heads={0: 1}, records=[packed_record(age_class=7, following=2)])
        self.assertEqual(check(book), ("refused", 9, 1_224))

    def test_earlier_chain_comes_before_a_later_head(self):
        book = packed(heads={0: 1, 1: 2}, records=[packed_record(count=100_001)])
        self.assertEqual(check(book), ("refused", 12, 1_228))

    def test_record_must_belong_to_its_chain(self):
        for wrong in ({"code": 2}, {"sex": 1}, {"spare_3": 1}, {"spares": 1}, {"spares": 256}):
            book = packed(heads={0: 1}, records=[packed_record(**wrong)])
            self.assertEqual(check(book), ("refused", 10, 1_220), wrong)

    def test_first_class_is_at_most_120(self):
        book = packed(heads={0: 1}, records=[packed_record(age_class=121)])
        self.assertEqual(check(book), ("refused", 11, 1_222))

    def test_later_class_is_one_more(self):
        self.assertEqual(check(pair_of_records()), ("accepted", 2))
        for age_class in (0, 118, 119, 121):
            self.assertEqual(check(pair_of_records(age_class=age_class)), ("refused", 11, 1_246))

    def test_each_amount_has_its_limit(self):
        limits = (("count", 100_000, 1_252), ("lapse", 1_000_000, 1_256),
                  ("premium", 10_000_000, 1_260), ("claims", 10_000_000, 1_264))
        for name, limit, place in limits:
            self.assertEqual(check(pair_of_records(**{name: limit})), ("accepted", 2))
            self.assertEqual(check(pair_of_records(**{name: limit + 1})), ("refused", 12, place))

    def test_chain_ends_at_class_120_and_nowhere_else(self):
        early = packed(heads={0: 1}, records=[packed_record(age_class=119)])
        self.assertEqual(check(early), ("refused", 13, 1_224))
        for following in (1, 2, 3, 65_535):
            self.assertEqual(check(pair_of_records(following=following)), ("refused", 13, 1_248))

    def test_wrong_owner_comes_before_wrong_class(self):
        book = packed(heads={0: 1}, records=[packed_record(sex=1, age_class=121)])
        self.assertEqual(check(book), ("refused", 10, 1_220))

    def test_wrong_class_comes_before_amounts(self):
        for wrong in ({"count": 100_001}, {"claims": 10_000_001}):
            first = packed(heads={0: 1}, records=[packed_record(age_class=121, **wrong)])
            self.assertEqual(check(first), ("refused", 11, 1_222), wrong)
            later = pair_of_records(age_class=119, **wrong)
            self.assertEqual(check(later), ("refused", 11, 1_246), wrong)

    def test_amounts_come_before_the_end_of_the_chain(self):
        early = packed(heads={0: 1}, records=[packed_record(age_class=119, claims=10_000_001)])
        self.assertEqual(check(early), ("refused", 12, 1_240))
        self.assertEqual(check(pair_of_records(following=1, count=100_001)), ("refused", 12, 1_252))

    def test_record_into_itself_is_refused_for_its_class(self):
        book = packed(heads={0: 1}, records=[packed_record(age_class=50, following=1)])
        self.assertEqual(check(book), ("refused", 11, 1_222))

    def test_second_head_on_a_record_is_refused_for_its_sex(self):
        book = packed(heads={0: 1, 1: 1}, records=[packed_record()])
        self.assertEqual(check(book), ("refused", 10, 1_220))

    def test_record_without_contracts_is_not_in_n(self):
        self.assertEqual(check(pair_of_records(count=0)), ("accepted", 1))

    def test_unlinked_records_do_not_matter(self):
        junk = b"\xff" * 24
        book = packed(heads={3: 2}, records=[junk, packed_record(code=2, sex=1), junk])
        self.assertEqual(check(book), ("accepted", 1))
        self.assertEqual(check(packed(records=[junk])), ("accepted", 0))


class NewerBasis(unittest.TestCase):
    """Refusal 21, and its place in the order, on age basis 2, where a chain ends at class 121."""

    def verdict(self, **second):
        """That on a chain of PG1a men at classes 120 and 121, the second record as given."""
        fields = {"age_class": 121, **second}
        records = [packed_record(age_class=120, following=2), packed_record(**fields)]
        return check(packed(heads={0: 1}, records=records, basis=2), BASIS_2)

    def test_chain_ends_at_class_121(self):
        self.assertEqual(self.verdict(), ("accepted", 2))

    def test_class_0_comes_before_a_wrong_class(self):
        self.assertEqual(self.verdict(age_class=119), ("refused", 11, 1_246))
        self.assertEqual(self.verdict(age_class=0), ("refused", 21, 1_246))

    def test_wrong_owner_comes_before_class_0(self):
        self.assertEqual(self.verdict(age_class=0, code=2), ("refused", 10, 1_244))
        self.assertEqual(self.verdict(age_class=0, spares=1), ("refused", 10, 1_244))

    def test_class_0_comes_before_amounts_and_the_end_of_the_chain(self):
        verdict = self.verdict(age_class=0, count=100_001, following=1)
        self.assertEqual(verdict, ("refused", 21, 1_246))

    def test_class_0_is_no_refusal_on_basis_1(self):
        youngest = packed_record(age_class=0, count=100_001, following=2)
        book = packed(heads={0: 1}, records=[youngest])
        self.assertEqual(check(book), ("refused", 12, 1_228))


class RecordView(unittest.TestCase):
    """The view of one record."""

    def test_record_is_returned_whole(self):
        junk = bytes(range(24))
        book = packed(heads={0: 1}, records=[packed_record(), junk])
        self.assertEqual(view(book, 1), (0, 0, packed_record()))
        self.assertEqual(view(book, 2), (0, 0, junk))

    def test_number_0_or_above_n_is_9_without_place(self):
        for number in (0, 2, 2**32 + 1, 2**64 - 1):
            self.assertEqual(view(one_record_book(), number), (9, 0, b""))

    def test_refusal_of_the_book_comes_first(self):
        self.assertEqual(view(bytes(1_219), 0), (1, 1_219, b""))
        self.assertEqual(view(packed(heads={5: 1}), 0), (9, 18, b""))


class BookMaker(unittest.TestCase):
    """Made books against packed ones."""

    def test_paper_book_is_as_packed_by_hand(self):
        cell = packed_record(code=4, count=10, premium=100_000, claims=80_000)
        book = packed(heads={6: 1}, costs={1: 100_000}, records=[cell])
        self.assertEqual(one_record_book(), book)
        self.assertEqual(check(book), ("accepted", 1))

    def test_empty_and_full_books_have_their_lengths(self):
        self.assertEqual(empty_book(), packed())
        full = full_book(random.Random(1))
        self.assertEqual(len(full), 41_876)
        self.assertEqual(check(full)[0], "accepted")

    def test_tables_stand_where_they_are_due(self):
        values = Values(curve=[-1] + [0] * 47 + [2], mortality=[[3] + [0] * 120, [0] * 120 + [4]])
        self.assertEqual(make_book(values), packed(curve={0: -1, 48: 2}, mortality={0: 3, 241: 4}))

    def test_percentages_stand_in_bytes_6_and_7(self):
        self.assertEqual(make_book(Values(2, (85, 84))), packed(edition=2, spare=85 + 256 * 84))

    def test_only_valid_values_make_a_book(self):
        with self.assertRaises(ValueError):
            make_book(Values(sst_year=2_016))
        for edition, percentages in ((1, (87, 86)), (2, (0, 86)), (2, (87, 101)), (3, (0, 0))):
            with self.assertRaises(ValueError):
                make_book(Values(edition, percentages))
        with self.assertRaises(ValueError):
            make_book(Values(portfolios={0: Portfolio(119, (Cell(1, 0, 0, 0),))}))


if __name__ == "__main__":
    sys.exit(run_unit_tests(sys.modules[__name__]))
