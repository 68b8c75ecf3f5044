"""What is in force of one cell in fifty years, and the refusals of that call, from the paper."""

from reference.book import read_values
from reference.layout import CHAINS, OLDEST_CLASS, SETTINGS
from reference.valuation import YEARS, book_refusal, in_force_by_year


def chain_of(code, sex):
    """The chain of a subgroup code and a sex; None where there is no such code or sex."""
    pairs = [(chain.code, chain.sex) for chain in CHAINS]
    return pairs.index((code, sex)) if (code, sex) in pairs else None


def in_force_run(book, setting, chain, age_class):
    """Step 1 for one cell, in billionths of a contract; None where the chain has no such class."""
    values = read_values(book)
    if chain not in values.portfolios:
        return None
    first_class = values.portfolios[chain].first_class
    if not first_class <= age_class <= OLDEST_CLASS:
        return None
    return [in_force[age_class - first_class]
            for in_force in in_force_by_year(values, chain, setting)]


def screen_reply(book, setting, code, sex, age_class, length):
    """(refusal, place, run) for a buffer of so many numbers; where refused there is no run."""
    if setting not in SETTINGS:
        return 14, 0, None
    chain = chain_of(code, sex)
    if chain is None or length < YEARS:
        return 25, 0, None
    refusal, place = book_refusal(book)
    if refusal:
        return refusal, place, None
    run = in_force_run(book, setting, chain, age_class)
    return (26, 0, None) if run is None else (0, 0, run)
