"""The valuation in whole numbers, every division rounded down, from the paper's six steps."""

from typing import NamedTuple

from reference.book import read_values
from reference.check import check
from reference.layout import CHAINS, MOST_BYTES_TAKEN

YEARS = 50
SHIFTED_YEARS = 5
FIRST_CAPPED_YEAR = 5
MILLION = 1_000_000
BILLION = 1_000_000_000
SUBGROUP_CODES = {1: (1, 2, 3), 2: (4,), 3: (5,), 4: (6,), 5: (7,)}
DIFFERENCES = ((1, 2), (3, 4), (5, 6), (7, 0))


# Men's and women's, unless the book is of edition 2 and carries its own.
EDITION_1_PERCENTAGES = (87, 86)


class Weights(NamedTuple):
    """Thousandths on the book's rates and claims; on mortality, for each of its percents."""

    men: int = 10
    women: int = 10
    lapse: int = 1_000
    costs: int = 1_000
    claims: int = 1_000


BASE = Weights()
FIRST_YEARS = (BASE,
               Weights(men=12, women=12), Weights(men=8, women=8),
               Weights(lapse=1_300), Weights(lapse=700),
               Weights(costs=1_200), Weights(costs=800),
               Weights(claims=1_050))
LATER_YEARS = (BASE, BASE, BASE, Weights(lapse=1_300), Weights(lapse=700), BASE, BASE, BASE)


class Year(NamedTuple):
    """Four numbers of the year table."""

    premium: int
    outgo: int
    discounted_premium: int
    discounted_outgo: int


def weights_of(setting, k):
    """The weights of a setting in year k."""
    return FIRST_YEARS[setting] if k < SHIFTED_YEARS else LATER_YEARS[setting]


def percentage_of(values, sex):
    """The mortality percentage of a sex."""
    return (values.percentages if values.edition == 2 else EDITION_1_PERCENTAGES)[sex]


def mortality_weight(values, weights, sex):
    """The weight of a sex's mortality in thousandths."""
    return (weights.men, weights.women)[sex] * percentage_of(values, sex)


def weighted(rate, weight):
    """A mortality or lapse rate in billionths, at most one."""
    return min(rate * weight, BILLION)


def next_in_force(in_force, mortality, lapse):
    """Step 1: those who neither die nor then lapse; all three in billionths."""
    survivors = in_force * (BILLION - mortality) // BILLION
    return survivors * (BILLION - lapse) // BILLION


def reached(by_class, k):
    """What a chain has for each class, as its cells meet it in year k; in the last they stay."""
    return by_class[k:] + by_class[-1:] * min(k, len(by_class))


def in_force_by_year(values, chain, setting):
    """For each k what is in force of every cell, by its class at the start."""
    first_class, cells = values.portfolios[chain]
    sex = CHAINS[chain].sex
    in_force = [cell.count * BILLION for cell in cells]
    for k in range(YEARS):
        yield in_force
        weights = weights_of(setting, k)
        weight = mortality_weight(values, weights, sex)
        mortality = [weighted(rate, weight) for rate in values.mortality[sex][first_class:]]
        lapse = [weighted(cell.lapse, weights.lapse) for cell in cells]
        in_force = [next_in_force(*each) for each in
                    zip(in_force, reached(mortality, k), reached(lapse, k), strict=True)]


def years_in_force(values, chain, setting):
    """W-203: the first year in which a chain's first cell has nothing in force, or 50."""
    for k, in_force in enumerate(in_force_by_year(values, chain, setting)):
        if in_force[0] == 0:
            return k
    return YEARS


def year_sums(values, setting, product_group):
    """Step 2: for each k the premium sum and the claims sum of a product group."""
    premium, claims = [0] * YEARS, [0] * YEARS
    for chain, portfolio in values.portfolios.items():
        if CHAINS[chain].code not in SUBGROUP_CODES[product_group]:
            continue
        for k, in_force in enumerate(in_force_by_year(values, chain, setting)):
            for contracts, cell in zip(in_force, reached(portfolio.cells, k), strict=True):
                premium[k] += contracts * cell.premium // BILLION
                claims[k] += contracts * cell.claims // BILLION
    return zip(premium, claims)


def outgo_of(premium_sum, claims_sum, cost_rate, weights):
    """Step 3: weighted claims, and costs on the premium as it is before the cap."""
    claims = claims_sum * weights.claims // 1_000
    cost = premium_sum * cost_rate * weights.costs // BILLION
    return claims + cost


def capped(premium_sum, outgo, k):
    """Step 4: the premium that counts."""
    if k < FIRST_CAPPED_YEAR:
        return premium_sum
    return min(premium_sum, 10 * outgo // 9)


def discounted(amount, rate, years):
    """Step 5: back by so many years, one at a time, all at the same rate."""
    for _ in range(years):
        amount = amount * MILLION // (MILLION + rate)
    return amount


def year_table(values, setting, product_group):
    """Steps 1 to 5: the 50 years of a product group."""
    cost_rate = values.cost_rates[product_group - 1]
    curve = [0, *values.curve]
    table = []
    for k, (premium_sum, claims_sum) in enumerate(year_sums(values, setting, product_group)):
        outgo = outgo_of(premium_sum, claims_sum, cost_rate, weights_of(setting, k))
        premium = capped(premium_sum, outgo, k)
        table.append(Year(premium, outgo, discounted(premium, curve[k], k),
                          discounted(outgo, curve[k], k)))
    return table


def liability_of(table):
    """Step 6: negative where premiums outweigh outgo."""
    return sum(year.discounted_outgo - year.discounted_premium for year in table)


def cells_with_contracts(values, product_group):
    """The n of a product group."""
    return sum(cell.count != 0 for chain, portfolio in values.portfolios.items()
               if CHAINS[chain].code in SUBGROUP_CODES[product_group]
               for cell in portfolio.cells)


def cells_by_group(values):
    """The n of each product group."""
    return [cells_with_contracts(values, each) for each in SUBGROUP_CODES]


def caller_refusal(setting, product_group, table_length):
    """The first refusal that the caller causes, or 0."""
    if not 0 <= setting <= 7:
        return 14
    if not 1 <= product_group <= 5:
        return 15
    return 16 if table_length < 4 * YEARS else 0


def book_refusal(book):
    """(refusal, place) of the book, both 0 where it is accepted."""
    verdict = check(book)
    return verdict[1:] if verdict[0] == "refused" else (0, 0)


def group(book, setting, product_group, table_length):
    """(refusal, place, liability, n, numbers); no numbers come with a refusal."""
    refusal, place = caller_refusal(setting, product_group, table_length), 0
    if refusal == 0:
        refusal, place = book_refusal(book)
    if refusal != 0:
        return refusal, place, 0, 0, None
    values = read_values(book)
    table = year_table(values, setting, product_group)
    numbers = [number for year in table for number in year]
    return 0, 0, liability_of(table), cells_with_contracts(values, product_group), numbers


def totals(book):
    """(refusal, place, n, totals by setting, differences of settings)."""
    refusal, place = book_refusal(book)
    if refusal != 0:
        return refusal, place, 0, [0] * len(FIRST_YEARS), [0] * len(DIFFERENCES)
    values = read_values(book)
    n = sum(cells_by_group(values))
    by_setting = [sum(liability_of(year_table(values, setting, each)) for each in SUBGROUP_CODES)
                  for setting in range(len(FIRST_YEARS))]
    differences = [by_setting[one] - by_setting[other] for one, other in DIFFERENCES]
    return 0, 0, n, by_setting, differences


def listing_of(reply):
    """The lines for a reply of totals."""
    refusal, place, n, by_setting, _ = reply
    if refusal != 0:
        return f"refused {refusal} {place}\n".encode("ascii")
    lines = [f"{setting} {total} {n}\n" for setting, total in enumerate(by_setting)]
    return "".join(lines).encode("ascii")


def listing(book):
    """What the program writes for the bytes on its input."""
    return listing_of(totals(book[:MOST_BYTES_TAKEN]))
