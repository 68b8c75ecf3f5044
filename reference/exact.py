"""The exact value of a liability: the same steps with no rounding, apart from the valuation."""

from fractions import Fraction

from reference.book import read_values
from reference.layout import CHAINS, CURVE, GROUPS, PRODUCT_GROUPS, SUBGROUPS

YEARS = range(50)
MILLIONTH = Fraction(1, 10**6)
# What stays of a contract in a year is one whole number of billionths times another.
BILLION = 10**9
SHARE = BILLION**2
EDITION_1_PERCENTAGES = (87, 86)
# How far a figure may be from its exact value, in centimes: for each cell with contracts, and for
# each product group.
ANY_CURVE, NO_RATE_BELOW_ZERO = (500, 2_850), (250, 1_425)
# What each setting moves, and by how many percent.
MOVES = {0: (None, 0), 1: ("mortality", 20), 2: ("mortality", -20), 3: ("lapse", 30),
         4: ("lapse", -30), 5: ("costs", 20), 6: ("costs", -20), 7: ("claims", 5)}


def factor(setting, assumption, k):
    """How a setting moves an assumption in year k; only lapse stays moved after five years."""
    moved, percent = MOVES[setting]
    if assumption != moved or (k >= 5 and moved != "lapse"):
        return Fraction(1)
    return 1 + Fraction(percent, 100)


def base_mortality(values, sex):
    """The share of the book's mortality that counts: edition 2 carries its own percentage."""
    percentages = values.percentages if values.edition == 2 else EDITION_1_PERCENTAGES
    return Fraction(percentages[sex], 100)


def remaining(rate, moved):
    """What a rate in millionths, moved by a factor, leaves of one: a whole number of billionths."""
    taken, rest = divmod(1000 * rate * moved.numerator, moved.denominator)
    if rest:
        raise ArithmeticError("what a rate leaves must be whole in billionths")
    return BILLION - min(BILLION, taken)


def chain_shares(values, chain, setting, k):
    """What stays of a chain's classes in year k, counted in parts of SHARE."""
    sex = CHAINS[chain].sex
    first_class, cells = values.portfolios[chain]
    of_mortality = base_mortality(values, sex) * factor(setting, "mortality", k)
    of_lapse = factor(setting, "lapse", k)
    return [remaining(values.mortality[sex][age_class], of_mortality)
            * remaining(cell.lapse, of_lapse)
            for age_class, cell in enumerate(cells, start=first_class)]


def add_chain(premium, claims, values, chain, setting):
    """Add a chain's cells to the sums, in parts of SHARE to the power of k for year k.

    In force after k years is a whole number over that power, so that whole numbers
    carry it exactly and no common divisor need be sought in the years between. A contract
    renews while the insured lives: from class 120 on it goes by that class each year.
    """
    early, late = (chain_shares(values, chain, setting, k) for k in (0, 5))
    cells = values.portfolios[chain].cells
    for start, cell in enumerate(cells):
        in_force = cell.count
        for k in YEARS:
            place = min(start + k, len(cells) - 1)
            premium[k] += in_force * cells[place].premium
            claims[k] += in_force * cells[place].claims
            in_force *= (early if k < 5 else late)[place]


def exact_sums(values, setting, product_group):
    """For each year the premium and claims sums of a product group."""
    premium, claims = [0 for _ in YEARS], [0 for _ in YEARS]
    for chain in values.portfolios:
        subgroup = SUBGROUPS[CHAINS[chain].code - 1]
        if subgroup.startswith(GROUPS[product_group - 1]):
            add_chain(premium, claims, values, chain, setting)
    return [(Fraction(premium[k], SHARE**k), Fraction(claims[k], SHARE**k)) for k in YEARS]


def group_liability(values, setting, product_group, sums=None):
    """The exact liability of a product group; its sums where they are known already."""
    liability = Fraction(0)
    for k, (premium, claims) in enumerate(sums or exact_sums(values, setting, product_group)):
        if premium == claims == 0:
            continue
        cost_share = values.cost_rates[product_group - 1] * MILLIONTH
        outgo = (claims * factor(setting, "claims", k)
                 + premium * cost_share * factor(setting, "costs", k))
        if k >= 5:
            premium = min(premium, outgo * Fraction(10, 9))
        growth = 1 + values.curve[k - 1] * MILLIONTH if k else Fraction(1)
        liability += (outgo - premium) / growth**k
    return liability


def exact_liability(book, setting, product_group):
    """The exact liability of a product group of an accepted book."""
    return group_liability(read_values(book), setting, product_group)


def exact_totals(book):
    """The exact totals of an accepted book by setting, each its five groups added."""
    values = read_values(book)
    # A setting that moves neither mortality nor lapse has the base's sums.
    base = [exact_sums(values, 0, each) for each in PRODUCT_GROUPS]
    return [sum(group_liability(values, setting, each,
                                None if moved in ("mortality", "lapse") else sums)
                for each, sums in zip(PRODUCT_GROUPS, base))
            for setting, (moved, _) in MOVES.items()]


def has_rate_below_zero(book):
    """Does the curve of an accepted book dip below zero in any year?"""
    return any(rate.read(book) < 0 for rate in CURVE)


def distance_for(book, n, groups):
    """What is promised of product groups with n cells; W-213: half if no rate is below zero."""
    each_cell, each_group = ANY_CURVE if has_rate_below_zero(book) else NO_RATE_BELOW_ZERO
    return each_cell * n + each_group * groups


def group_distance(book, n):
    """How far the liability of a product group with n cells may be from its exact value."""
    return distance_for(book, n, 1)


def total_distance(book, n):
    """How far a total may be from its exact value, n being that of the book."""
    return distance_for(book, n, len(PRODUCT_GROUPS))
