"""Compares the library's variation of claims with the reference, bit for bit."""

import math
import sys
from decimal import Decimal

from reference.claims_variation import spread, spread_in_fractions
from tests.fixtures.claims import (BY_HAND, EVEN, MOST, WORKED, at_claims, at_factors, bits,
                                   random_claims)
from tests.support.differential import Differential
from tests.support.library import LibraryCase
from tests.support.report import run_unit_tests

# The kinds of random claims, and how often each is due.
LEAST_TIMES = {"accepted": 10_000, "level": 500, "refused 27": 500, "refused 28": 1_000,
               "refused 27 with a bad factor": 50, "level but for a bad factor": 50,
               "a factor that is not a number": 50,
               "rounded otherwise over a common denominator": 1_000,
               "rounded otherwise in one step": 1_000}


def in_bits(reply):
    """A reply whose doubles are their bits, so that it equals another one only bit for bit."""
    refusal, place, level, mean, coefficient = reply
    return refusal, place, level, bits(mean), bits(coefficient)


def kinds(claims, due):
    """What the coverage counts of claims with this reply."""
    refusal, _, level, mean, coefficient = due
    yield f"refused {refusal}" if refusal else "level" if level else "accepted"
    bad_factor = spread(*EVEN.with_factors(claims.xi, claims.eta))[0] == 28
    if refusal == 27 and bad_factor:
        yield "refused 27 with a bad factor"
    if refusal == 28 and claims.lowest == claims.highest:
        yield "level but for a bad factor"
    if math.isnan(claims.xi) or math.isnan(claims.eta):
        yield "a factor that is not a number"
    if refusal == 0 and not level:
        if common_denominator(claims) / mean != coefficient:
            yield "rounded otherwise over a common denominator"
        if in_one_step(claims, mean) != coefficient:
            yield "rounded otherwise in one step"


def common_denominator(claims):
    """A deviation that is the same on paper, and not in doubles."""
    across, inner = claims.highest - claims.lowest, claims.third_quartile - claims.first_quartile
    return (across * claims.eta + inner * claims.xi) / (claims.xi * claims.eta) * 0.5


def in_one_step(claims, mean):
    """The coefficient with the mean in the denominators: the same on paper, and not in doubles."""
    across, inner = claims.highest - claims.lowest, claims.third_quartile - claims.first_quartile
    return across / (2 * claims.xi * mean) + inner / (2 * claims.eta * mean)


class Claims(LibraryCase):
    """Claims worked by hand, and at the edges of every rule."""

    def test_by_hand(self):
        for rule, claims, due in BY_HAND:
            given = [each(*claims) for each in (spread, spread_in_fractions, self.library.spread)]
            self.check(rule, all(in_bits(reply) == in_bits(due) for reply in given), given)

    def check_edges(self, name, cases):
        """All agree at every edge, and the refusal is the one that is due."""
        cases, wrong = list(cases), []
        for refusal, claims in cases:
            due, given = spread(*claims), self.library.spread(*claims)
            replies = {in_bits(each) for each in (due, given, spread_in_fractions(*claims))}
            if len(replies) > 1 or due[0] != refusal:
                wrong.append((refusal, due, given, claims))
        self.check(f"{len(cases)} claims {name}", cases and not wrong, wrong[:1])

    def test_edges_of_claims(self):
        self.check_edges("in and out of order, at and above the limit", at_claims())

    def test_edges_of_factors(self):
        self.check_edges("with factors at and beside the ends of their range", at_factors())

    def test_rejected_arguments(self):
        for words, error, claims in (
                ("a number below 0", ValueError, WORKED.changed(0, -1)),
                ("a number above 64 bits", ValueError, WORKED.changed(4, MOST + 1)),
                ("claims that are no whole number", TypeError, WORKED.changed(2, 163_275.5)),
                ("a factor in words", TypeError, WORKED.with_factors("2.847", 1.119)),
                ("a factor that would be rounded", TypeError,
                 WORKED.with_factors(2.847, Decimal("1.119"))),
                ("a whole factor that no double has", ValueError,
                 WORKED.with_factors(2**53 + 1, 1.119))):
            self.rejects(words, error, self.library.spread, *claims)

    def test_a_whole_factor_is_a_factor(self):
        whole = self.library.spread(*EVEN.with_factors(2, 4))
        self.assertEqual(whole, self.library.spread(*EVEN))


class RandomClaims(LibraryCase, Differential):
    """All agree on random claims, bit for bit, and every kind of them is seen."""

    number, seed, for_coverage = 24_000, 210, 20_000

    @classmethod
    def draw(cls, chooser):
        for _ in range(cls.number):
            claims = random_claims(chooser)
            due, given = spread(*claims), cls.library.spread(*claims)
            cls.tally.seen.update(kinds(claims, due))
            cls.tally.compare("this machine's doubles, as fractions rounded once an operation",
                              in_bits(due), in_bits(spread_in_fractions(*claims)), claims)
            cls.tally.compare("variation of claims", in_bits(given), in_bits(due),
                              f"of {claims} gives {given}, due is {due}")

    def test_agreement(self):
        self.check_agreement()

    def test_coverage(self):
        self.require_coverage()
        self.check_seen(LEAST_TIMES)


if __name__ == "__main__":
    sys.exit(run_unit_tests(sys.modules[__name__]))
