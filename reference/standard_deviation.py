"""One standard deviation of the four factors of a book, worked from the papers alone.

W-212 of the customer's requests, with section 5.2.1 of the supervisor's description. The factors
are mortality, lapse, costs and claims; their coefficients are in millionths, the correlation is
four rows of four in thousandths.
"""

from fractions import Fraction
from math import floor, isqrt, trunc

from reference.valuation import totals

FACTORS = range(4)
# How far the two settings of each difference are apart, in thousandths.
SPANS = (400, 600, 400, 50)
HIGHEST_COEFFICIENT = HIGHEST_FACTOR = 1_000_000
ONE = 1_000
# Centimes in a thousand francs.
THOUSAND_FRANCS = 100_000


def deviation(book, coefficients, correlation):
    """(refusal, place, deviation): the book's refusals first, the deviation in thousand francs."""
    refusal, place, _, _, differences = totals(book)
    if refusal:
        return refusal, place, 0
    return deviation_of(differences, coefficients, correlation)


def deviation_of(differences, coefficients, correlation):
    """The same of the four differences of an accepted book."""
    if not keeps_rules(coefficients, correlation):
        return 29, 0, 0
    scaled = [factor(*each) for each in zip(differences, coefficients, SPANS)]
    if any(abs(each) > HIGHEST_FACTOR for each in scaled):
        return 30, 0, 0
    form = quadratic_form(scaled, correlation)
    if form < 0:
        return 31, 0, 0
    return 0, 0, isqrt(floor(Fraction(form, ONE)))


def keeps_rules(coefficients, correlation):
    """Are the coefficients at most one, and is the correlation one?"""
    entries = [each for row in correlation for each in row]
    return (all(each <= HIGHEST_COEFFICIENT for each in coefficients)
            and all(-ONE <= each <= ONE for each in entries)
            and [list(column) for column in zip(*correlation)] == [list(row) for row in correlation]
            and all(correlation[i][i] == ONE for i in FACTORS))


def factor(difference, coefficient, span):
    """A difference in thousand francs, times coefficient over span; both divisions cut to zero."""
    thousands = trunc(Fraction(difference, THOUSAND_FRANCS))
    return trunc(Fraction(thousands * coefficient, ONE * span))


def quadratic_form(scaled, correlation):
    """Every factor times every factor times their correlation, added."""
    return sum(scaled[i] * correlation[i][j] * scaled[j] for i in FACTORS for j in FACTORS)
