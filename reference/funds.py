"""Two funds on the same tables, worked from the customer's request W-208 alone."""

from reference.valuation import totals

# What a fund file has of a book's bytes before the records, and the table file, which is what
# stands between.
FRONT_BYTES = 56
TABLE_BYTES = 1_164
FUND_NUMBERS = 16
HALVES = (0, 8)


def joined_book(table, fund):
    """The book that a fund file and the table file make together."""
    return fund[:FRONT_BYTES] + table + fund[FRONT_BYTES:]


def fund_reply(table, fund, numbers):
    """(refusal, place, n, eight totals) of one fund, for so many numbers; no totals if refused."""
    if numbers < FUND_NUMBERS:
        return 16, 0, 0, None
    if len(table) != TABLE_BYTES:
        return 24, 0, 0, None
    if len(fund) < FRONT_BYTES:
        return 1, len(fund), 0, None
    refusal, place, n, by_setting, _ = totals(joined_book(table, fund))
    return refusal, place, n, None if refusal else by_setting


def funds(table, first, second, numbers):
    """((refusal, place, n) of each fund, the numbers afterwards)."""
    after = list(numbers)
    verdicts = []
    for half, fund in zip(HALVES, (first, second)):
        *verdict, by_setting = fund_reply(table, fund, len(numbers))
        verdicts.append(tuple(verdict))
        if by_setting is not None:
            after[half:half + len(by_setting)] = by_setting
    return tuple(verdicts), after
