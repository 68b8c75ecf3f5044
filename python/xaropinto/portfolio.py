"""Contracts by class."""

from xaropinto.book_values import BookValues
from xaropinto.layout import LAST_CLASS, SEXES, SUBGROUPS

GROUP_OF = {subgroup: subgroup[:3] for subgroup in SUBGROUPS}


def contracts_by_class(values: BookValues, group: str = "", sex: str = "") -> list[int]:
    """The contracts of each class, of a product group and sex or of all."""
    counted = [0] * (LAST_CLASS + 1)
    for number, chain in enumerate(values.chains):
        subgroup, people = SUBGROUPS[number // 2], SEXES[number % 2]
        if group in ("", GROUP_OF[subgroup]) and sex in ("", people):
            for offset, count in enumerate(chain.counts):
                counted[chain.first_class + offset] += count
    return counted
