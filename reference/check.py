"""The verdict on a book and the view of a record, from the customer's paper alone."""

from reference.layout import (AGE_BASIS, BASIS_1, CHAINS, COST_RATES, CURVE, EDITION,
                              FIRST_RECORD_PLACE, HEADER_SPARE, MORTALITY, PERCENTAGES,
                              RECORD_COUNT, RECORD_SIZE, SST_YEAR, record, record_start)


class Refused(Exception):
    """The first refusal that applies: its number and its byte place."""

    def __init__(self, number, place):
        super().__init__(number, place)
        self.number = number
        self.place = place


def check(book, basis=BASIS_1):
    """('accepted', n) or ('refused', number, place)."""
    try:
        check_header(book, basis)
        check_tables(book)
        return "accepted", sum(counted_records(book, chain, basis) for chain in CHAINS)
    except Refused as refusal:
        return "refused", refusal.number, refusal.place


def view(book, number):
    """(refusal, place, part): the record's 24 bytes, or an empty part with a refusal."""
    verdict = check(book)
    if verdict[0] == "refused":
        return verdict[1], verdict[2], b""
    if number == 0 or number > RECORD_COUNT.read(book):
        return 9, 0, b""
    start = record_start(number)
    return 0, 0, book[start:start + RECORD_SIZE]


def refuse_if(applies, number, place):
    """Stop at the first refusal that applies."""
    if applies:
        raise Refused(number, place)


def refuse_out_of_range(book, field, number):
    """Stop at a field that leaves its range; the place is the field's."""
    refuse_if(not field.keeps_range(book), number, field.offset)


def check_header(book, basis):
    """Refusals 1 to 5, and 23."""
    refuse_if(len(book) < FIRST_RECORD_PLACE, 1, len(book))
    refuse_out_of_range(book, EDITION, 2)
    refuse_if(AGE_BASIS.read(book) != basis.number, 3, AGE_BASIS.offset)
    for field in (SST_YEAR, RECORD_COUNT):
        refuse_out_of_range(book, field, 4)
    check_by_edition(book)
    due_length = FIRST_RECORD_PLACE + RECORD_SIZE * RECORD_COUNT.read(book)
    refuse_if(len(book) != due_length, 5, len(book))


def check_by_edition(book):
    """Bytes 6 and 7: refusal 4 in edition 1, refusal 23 in edition 2."""
    if EDITION.read(book) == 1:
        refuse_out_of_range(book, HEADER_SPARE, 4)
    else:
        for percentage in PERCENTAGES:
            refuse_out_of_range(book, percentage, 23)


def check_tables(book):
    """Refusals 6 to 8: cost rates, then the curve, then mortality."""
    for number, fields in ((6, COST_RATES), (7, CURVE), (8, MORTALITY)):
        for field in fields:
            refuse_out_of_range(book, field, number)


def counted_records(book, chain, basis):
    """Walk one chain by refusals 9 to 13, and 21; how many of its records have a count.

    It ends on any links: the class rises by one at each record, and at
    the oldest class only a next of zero passes.
    """
    counted = 0
    class_before = None
    link = chain.head
    while link.read(book) != 0:
        number = link.read(book)
        refuse_if(number > RECORD_COUNT.read(book), 9, link.offset)
        linked = record(number)
        check_record(book, linked, chain, class_before, basis)
        count = linked.amounts[0]
        if count.read(book) != 0:
            counted += 1
        class_before = linked.age_class.read(book)
        link = linked.next
    return counted


def check_record(book, linked, chain, class_before, basis):
    """Refusals 10, 21, 11, 12 and 13 of a linked record; a chain's first has no class before."""
    owned = linked.code.read(book) == chain.code and linked.sex.read(book) == chain.sex
    spares_zero = all(spare.read(book) == 0 for spare in linked.spares)
    refuse_if(not owned or not spares_zero, 10, linked.start)

    age_class = linked.age_class.read(book)
    refuse_if(age_class < basis.youngest_class, 21, linked.age_class.offset)
    if class_before is None:
        refuse_if(age_class > basis.oldest_class, 11, linked.age_class.offset)
    else:
        refuse_if(age_class != class_before + 1, 11, linked.age_class.offset)

    for amount in linked.amounts:
        refuse_out_of_range(book, amount, 12)

    ends_here = linked.next.read(book) == 0
    refuse_if(ends_here != (age_class == basis.oldest_class), 13, linked.next.offset)
