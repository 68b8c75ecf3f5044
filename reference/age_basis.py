"""A book on age basis 2 turned into basis 1, worked from the customer's request W-204 alone."""

from reference.check import check
from reference.layout import AGE_BASIS, BASIS_1, BASIS_2, CHAINS, record


def convert(book, length):
    """(refusal, place, n, bytes): the converted book, None where it or the buffer is refused."""
    if length < len(book):
        return 16, 0, 0, None
    verdict = check(book, BASIS_2)
    if verdict[0] == "refused":
        return verdict[1], verdict[2], 0, None
    converted = bytearray(book)
    AGE_BASIS.put(converted, BASIS_1.number)
    for number in linked_records(book):
        age_class = record(number).age_class
        age_class.put(converted, age_class.read(book) - 1)
    return 0, 0, verdict[1], bytes(converted)


def linked_records(book):
    """The numbers of the records that an accepted book's chains link, chain by chain."""
    for chain in CHAINS:
        number = chain.head.read(book)
        while number != 0:
            yield number
            number = record(number).next.read(book)
