"""How far figures are from their exact values, as a share of the promised distance.

Where no rate of the curve is below zero, half the distance is promised.
"""

from collections import Counter

from reference.exact import (exact_liability, exact_totals, group_distance, has_rate_below_zero,
                             total_distance)

# By whether a rate is below zero.
CURVES = {True: "the distance, with a rate below zero",
          False: "half the distance, with no rate below zero"}


def totals_share(book, n, by_setting):
    """What share of their distance an accepted book's totals use, at most."""
    return max(abs(total - exact) / total_distance(book, n)
               for total, exact in zip(by_setting, exact_totals(book), strict=True))


def liability_share(book, setting, product_group, liability, n):
    """What share of its distance a product group's liability uses."""
    exact = exact_liability(book, setting, product_group)
    return abs(liability - exact) / group_distance(book, n)


class Shares:
    """The shares of many figures, counted by whether a rate is below zero."""

    def __init__(self):
        self.times, self.beyond = Counter(), Counter()
        self.largest = dict.fromkeys(CURVES, (0, "none"))

    def add(self, book, share, name):
        """One figure; whether it is further off than promised."""
        below = has_rate_below_zero(book)
        self.times[below] += 1
        self.beyond[below] += share > 1
        self.largest[below] = max(self.largest[below], (share, str(name)))
        return share > 1

    def check(self, case, words):
        """A check for each curve that no figure is further off; the largest share is printed."""
        for below, distance in CURVES.items():
            share, name = self.largest[below]
            print(f"largest share of {distance}: {float(100 * share):.2f} percent, {name}")
            case.check(f"{self.times[below]} {words} within {distance}", self.beyond[below] == 0,
                       f"{self.beyond[below]} are not")

    def check_times(self, case, words, least):
        """A check for each curve that so many figures were compared."""
        for below, distance in CURVES.items():
            times = self.times[below]
            case.check(f"{times} {words} compared with {distance}", times >= least,
                       f"at least {least} are due")
