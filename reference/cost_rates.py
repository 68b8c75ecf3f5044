"""The cost rates of five product groups from three years of accounts, from the papers alone.

W-201 of the customer's requests, with section 4.4.8 of the supervisor's description. Accounts are
three expenses, and three rows of five figures each for stock, claims and premium.
"""

from fractions import Fraction
from math import floor

YEARS, GROUPS = range(3), range(5)
# In francs, in contracts, in millionths of premium.
HIGHEST_AMOUNT, HIGHEST_STOCK, HIGHEST_RATE = 1_000_000_000, 10_000_000, 1_000_000
# What stays of the expenses when 5 percent are taken off.
KEPT = Fraction(95, 100)
NO_RATES = (0,) * len(GROUPS)


def cost_rates(expenses, stock, claims, premium):
    """(refusal, place, rates): the refusals in their order, and then the five rates."""
    if too_large(expenses, stock, claims, premium):
        return 17, 0, NO_RATES
    if not divisible(stock, claims, premium):
        return 18, 0, NO_RATES
    rates = tuple(rate(expenses, stock, claims, premium, group) for group in GROUPS)
    if any(each > HIGHEST_RATE for each in rates):
        return 19, 0, NO_RATES
    return 0, 0, rates


def too_large(expenses, stock, claims, premium):
    """Is an amount or a stock of any year above its limit?"""
    amounts = [*expenses, *(amount for rows in (claims, premium) for row in rows for amount in row)]
    return max(amounts) > HIGHEST_AMOUNT or max(contracts for row in stock
                                                for contracts in row) > HIGHEST_STOCK


def divisible(stock, claims, premium):
    """Has every year a sum to split by, and every group that is not empty a premium?"""
    if any(sum(row) == 0 for row in (*stock, *claims)):
        return False
    return all(is_empty(stock, claims, premium, group) or all(row[group] != 0 for row in premium)
               for group in GROUPS)


def is_empty(stock, claims, premium, group):
    """Has the group nothing at all in the three years?"""
    return not any(row[group] for rows in (stock, claims, premium) for row in rows)


def lowered(expense):
    """Step 1: the year's expenses less 5 percent."""
    return floor(expense * KEPT)


def shares(expense, row):
    """Steps 2 to 4: the year's lowered expenses split over the groups, by their figures."""
    return [floor(lowered(expense) * Fraction(figure, sum(row))) for figure in row]


def rate(expenses, stock, claims, premium, group):
    """Step 5: both shares averaged over the premium, in millionths, and the mean of all years."""
    if is_empty(stock, claims, premium, group):
        return 0
    by_year = []
    for year in YEARS:
        by_stock, by_claims = (shares(expenses[year], rows[year])[group]
                               for rows in (stock, claims))
        by_year.append(floor(Fraction(by_stock + by_claims, 2) / premium[year][group] * 1_000_000))
    return floor(Fraction(sum(by_year), len(YEARS)))
