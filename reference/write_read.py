"""A book from values and lists, and back, worked from the customer's paper alone."""

from reference.check import check
from reference.layout import (AGE_BASIS, CHAINS, CLASSES, COST_RATES, CURVE, EDITION,
                              FIRST_RECORD_PLACE, MORTALITY, PERCENTAGES, RECORD_COUNT, RECORD_SIZE,
                              SST_YEAR, record, record_start)

# The first class of a chain that has no records.
NO_CLASS = CLASSES
KINDS = ("counts", "lapses", "premiums", "claims")


def list_sizes(first_classes):
    """How long each list of each chain is; none is shorter than nothing."""
    return [max(0, NO_CLASS - first_class) for first_class in first_classes]


def book_size(first_classes):
    """How many bytes the book has."""
    return FIRST_RECORD_PLACE + RECORD_SIZE * sum(list_sizes(first_classes))


def write(values, lists, length):
    """(refusal, book): the book's bytes, none where it is refused; a refusal's place is 0."""
    refusal = refusal_of(values, lists, length)
    return refusal, b"" if refusal else book_of(values, lists)


def refusal_of(values, lists, length):
    """The first rule that is broken, 0 where none is."""
    due = sum(list_sizes(values.first_classes))
    tests = (
        (11, all(first_class <= NO_CLASS for first_class in values.first_classes)),
        (22, all(len(numbers) == due for numbers in lists)
            and book_size(values.first_classes) <= length),
        (2, EDITION.low <= values.edition <= EDITION.high),
        (4, SST_YEAR.low <= values.year <= SST_YEAR.high
            and (values.edition != 1 or tuple(values.percentages) == (0, 0))),
        (23, values.edition != 2 or keep_ranges(PERCENTAGES, values.percentages)),
        (6, keep_ranges(COST_RATES, values.cost_rates)),
        (7, keep_ranges(CURVE, values.curve)),
        (8, keep_ranges(MORTALITY, values.mortality)),
        (12, all(0 <= number <= field.high
                 for field, numbers in zip(record(1).amounts, lists) for number in numbers)),
    )
    return next((number for number, holds in tests if not holds), 0)


def keep_ranges(fields, numbers):
    """Does each number keep the range of its field?"""
    return all(field.low <= number <= field.high
               for field, number in zip(fields, numbers, strict=True))


def book_of(values, lists):
    """The bytes: the header, and then the records, chain after chain by rising class."""
    book = bytearray(book_size(values.first_classes))
    EDITION.put(book, values.edition)
    for field, number in zip(PERCENTAGES, values.percentages, strict=True):
        field.put(book, number)
    AGE_BASIS.put(book, 1)
    SST_YEAR.put(book, values.year)
    RECORD_COUNT.put(book, sum(list_sizes(values.first_classes)))
    for fields, numbers in ((COST_RATES, values.cost_rates), (CURVE, values.curve),
                            (MORTALITY, values.mortality)):
        for field, number in zip(fields, numbers, strict=True):
            field.put(book, number)
    number = 1
    for chain, first_class in zip(CHAINS, values.first_classes, strict=True):
        if first_class < NO_CLASS:
            chain.head.put(book, number)
        for age_class in range(first_class, NO_CLASS):
            amounts = [numbers[number - 1] for numbers in lists]
            put_record(book, number, chain, age_class, amounts)
            number += 1
    return bytes(book)


def put_record(book, number, chain, age_class, amounts):
    """One record; its next is one higher, but 0 at the chain's last class."""
    written = record(number)
    written.code.put(book, chain.code)
    written.sex.put(book, chain.sex)
    written.age_class.put(book, age_class)
    written.next.put(book, 0 if age_class == NO_CLASS - 1 else number + 1)
    for field, amount in zip(written.amounts, amounts, strict=True):
        field.put(book, amount)


def read(book, lengths):
    """(refusal, place, values, lists), the last two None where refused.

    Values are (edition, percentages, year, tables, first classes).
    """
    verdict = check(book)
    if verdict[0] == "refused":
        return *verdict[1:], None, None
    chains = [chain_records(book, chain) for chain in CHAINS]
    if any(length < sum(map(len, chains)) for length in lengths):
        return 22, 0, None, None
    first_classes = tuple(linked[0].age_class.read(book) if linked else NO_CLASS
                          for linked in chains)
    tables = (tuple(field.read(book) for field in fields)
              for fields in (COST_RATES, CURVE, MORTALITY))
    lists = [[linked.amounts[kind].read(book) for linked in sum(chains, [])]
             for kind in range(len(KINDS))]
    percentages = tuple(field.read(book) for field in PERCENTAGES)
    return 0, 0, (EDITION.read(book), percentages, SST_YEAR.read(book), *tables,
                  first_classes), lists


def chain_records(book, chain):
    """The records that a chain links, in their order."""
    linked = []
    number = chain.head.read(book)
    while number != 0:
        linked.append(record(number))
        number = linked[-1].next.read(book)
    return linked


def in_order(book):
    """Are all records of an accepted book linked, and do they stand in chain order?"""
    numbers = [linked.number for chain in CHAINS for linked in chain_records(book, chain)]
    all_linked = numbers == list(range(1, RECORD_COUNT.read(book) + 1))
    return all_linked and len(book) == record_start(len(numbers) + 1)
