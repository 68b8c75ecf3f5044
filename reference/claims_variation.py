"""The spread of yearly claims: mean and coefficient of variation, worked from the papers alone.

W-210 of the customer's requests, with section 5.2.4.2 of the supervisor's description. The claims
are five whole numbers of centimes, from the lowest to the highest; xi and eta are Python floats,
which are doubles. It is computed twice: with the machine's doubles, and with fractions that are
rounded to a double after each operation.
"""

from fractions import Fraction

# In centimes.
HIGHEST_CLAIMS = 10_000_000
LEAST_FACTOR, HIGHEST_FACTOR = 1 / 1_024, 1_000.0
NOTHING = (False, 0.0, 0.0)


def spread(lowest, first_quartile, median, third_quartile, highest, xi, eta):
    """(refusal, place, level, mean, coefficient), with the machine's doubles."""
    five = (lowest, first_quartile, median, third_quartile, highest)
    refusal = refusal_of(five, xi, eta)
    if refusal:
        return (refusal, 0, *NOTHING)
    mean = (lowest + 2 * first_quartile + 2 * median + 2 * third_quartile + highest) / 8
    if lowest == highest:
        return 0, 0, True, mean, 0.0
    deviation = ((highest - lowest) / xi + (third_quartile - first_quartile) / eta) * 0.5
    return 0, 0, False, mean, deviation / mean


def spread_in_fractions(lowest, first_quartile, median, third_quartile, highest, xi, eta):
    """The same on exact fractions, each rounded to the nearest double, at a tie to the even one.

    Python makes a double of a fraction by whole numbers alone: the machine's own rounding plays
    no part.
    """
    five = (lowest, first_quartile, median, third_quartile, highest)
    refusal = refusal_of(five, xi, eta)
    if refusal:
        return (refusal, 0, *NOTHING)
    exact_mean = Fraction(lowest + 2 * first_quartile + 2 * median + 2 * third_quartile + highest,
                          8)
    mean = float(exact_mean)
    assert Fraction(mean) == exact_mean, "the mean is not exact"
    if lowest == highest:
        return 0, 0, True, mean, 0.0
    by_range = float((highest - lowest) / Fraction(xi))
    by_quartiles = float((third_quartile - first_quartile) / Fraction(eta))
    both = float(Fraction(by_range) + Fraction(by_quartiles))
    deviation = float(Fraction(both) * Fraction(1, 2))
    return 0, 0, False, mean, float(Fraction(deviation) / exact_mean)


def refusal_of(five, xi, eta):
    """27 for the claims, then 28 for the factors, else 0."""
    falls = any(later < before for before, later in zip(five, five[1:]))
    if falls or max(five) > HIGHEST_CLAIMS or five[-1] == 0:
        return 27
    if is_bad(xi) or is_bad(eta):
        return 28
    return 0


def is_bad(factor):
    """Is the factor too low, too high, or not a number?"""
    return factor < LEAST_FACTOR or factor > HIGHEST_FACTOR or factor != factor
