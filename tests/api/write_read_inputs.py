"""What is written to a book in the tests of Write and Read, and how each rule is broken."""

from reference.layout import (AGE_BASIS, CHAINS, CLASSES, COST_RATES, CURVE, EDITION,
                              FIRST_RECORD_PLACE, MORTALITY, PERCENTAGES, RECORD_COUNT, SST_YEAR,
                              changed, record)
from reference.write_read import KINDS, NO_CLASS, book_size, list_sizes

WAYS_TO_4 = ("year", "percentages in edition 1")
WAYS_TO_22 = ("list too long", "list too short", "buffer too short")
AMOUNTS = record(1).amounts
TABLES = {6: ("cost_rates", COST_RATES), 7: ("curve", CURVE), 8: ("mortality", MORTALITY)}


class Input:
    """What is written: values, four lists, and a buffer of so many bytes."""

    def __init__(self, values, lists, length):
        self.values = values
        self.lists = lists
        self.length = length

    def change_table(self, name, at, number):
        """Another number in one of the values' tables."""
        table = list(getattr(self.values, name))
        table[at] = number
        self.values = self.values._replace(**{name: tuple(table)})


def within(field, chooser):
    """A number of the field's range, often an end of it."""
    return chooser.choice((field.low, field.high, chooser.randint(field.low, field.high)))


def beyond(field, chooser):
    """A number out of the field's range; some would be in range if they lost their high bits."""
    above = [field.high + 1, field.high + 2**32, within(field, chooser) + 2**32, 2**63 - 1]
    below = [field.low - 1, field.low - 2**32, within(field, chooser) - 2**32, -2**63]
    return chooser.choice(above + below if field.signed else [*above, 2**63, 2**64 - 1])


def random_first_class(chooser):
    """No records, one, all classes, or some."""
    classes = (NO_CLASS, NO_CLASS - 1, 0, chooser.randint(100, 119), chooser.randint(1, 119))
    return chooser.choices(classes, weights=(60, 25, 2, 20, 4))[0]


def random_input(library, chooser):
    """Values and lists that keep every rule, with a buffer for their book and often more."""
    first_classes = [random_first_class(chooser) for _ in CHAINS]
    if sum(list_sizes(first_classes)) == 0:
        first_classes[chooser.randrange(len(CHAINS))] = NO_CLASS - 1
    return input_of(library, first_classes, chooser)


def input_of(library, first_classes, chooser):
    """An input whose chains start at these classes."""
    tables = (tuple(within(field, chooser) for field in fields)
              for fields in (COST_RATES, CURVE, MORTALITY))
    edition = chooser.choice((1, 2))
    percentages = tuple(within(field, chooser) for field in PERCENTAGES) if edition == 2 else (0, 0)
    values = library.Values(edition, percentages, within(SST_YEAR, chooser), *tables,
                            tuple(first_classes))
    size = sum(list_sizes(first_classes))
    lists = [[within(field, chooser) for _ in range(size)] for field in AMOUNTS]
    return Input(values, lists, book_size(first_classes) + chooser.choice((0, 1, 700)))


def break_rule(given, number, chooser):
    """Break the rule of one refusal; the way in which 4 or 22 was broken."""
    if number == 11:
        given.change_table("first_classes", chooser.randrange(len(CHAINS)),
                           chooser.choice((122, 255, 256 + 120, 2**32 + 121, 2**64 - 1)))
    elif number == 22:
        return break_length(given, chooser)
    elif number == 2:
        edition = chooser.choice((0, 3, 2**8 + 1, 2**32 + 2, 2**64 - 1))
        given.values = given.values._replace(edition=edition)
    elif number == 4:
        return break_year(given, chooser)
    elif number == 23:
        given.values = given.values._replace(edition=2, percentages=(87, 86))
        at = chooser.randrange(len(PERCENTAGES))
        given.change_table("percentages", at, chooser.choice((0, beyond(PERCENTAGES[at], chooser))))
    elif number == 12:
        kind = chooser.randrange(len(KINDS))
        numbers = given.lists[kind] or [0]
        numbers[chooser.randrange(len(numbers))] = beyond(AMOUNTS[kind], chooser)
        given.lists[kind] = numbers
    else:
        name, fields = TABLES[number]
        at = chooser.randrange(len(fields))
        given.change_table(name, at, beyond(fields[at], chooser))
    return ""


def break_year(given, chooser):
    """A year out of range or, in edition 1, a percentage; which of them."""
    if given.values.edition == 1 and chooser.random() < 0.5:
        given.change_table("percentages", chooser.randrange(len(PERCENTAGES)),
                           chooser.choice((1, 87, 2**8, 2**64 - 1)))
        return "percentages in edition 1"
    year = chooser.choice((0, 2016, 2101, 2**16 + 2021, 2**64 - 1))
    given.values = given.values._replace(year=year)
    return "year"


def break_length(given, chooser):
    """A list of the wrong length, or too few bytes for the book; which of them."""
    way = chooser.choice(WAYS_TO_22)
    kind = chooser.randrange(len(KINDS))
    if way == "list too long":
        given.lists[kind] = given.lists[kind] + [0] * chooser.choice((1, CLASSES))
    elif way == "list too short" and given.lists[kind]:
        given.lists[kind] = given.lists[kind][:chooser.choice((0, -1))]
    else:
        way = "buffer too short"
        given.length = chooser.choice((0, book_size(given.values.first_classes) - 1))
    return way


def refused_books(book):
    """A book in order that has records, broken by one rule of each refusal."""
    first, count = record(1), RECORD_COUNT.read(book)
    chain = next(chain for chain in CHAINS if chain.head.read(book) == 1)
    return {
        1: book[:FIRST_RECORD_PLACE - 1],
        2: changed(book, (EDITION, 3)),
        3: changed(book, (AGE_BASIS, 2)),
        4: changed(book, (SST_YEAR, SST_YEAR.high + 1)),
        5: book + bytes(1),
        6: changed(book, (COST_RATES[4], COST_RATES[4].high + 1)),
        7: changed(book, (CURVE[48], CURVE[48].low - 1)),
        8: changed(book, (MORTALITY[241], MORTALITY[241].high + 1)),
        9: changed(book, (chain.head, count + 1)),
        10: changed(book, (first.sex, 1 - chain.sex)),
        11: changed(book, (first.age_class, NO_CLASS)),
        12: changed(book, (first.amounts[3], first.amounts[3].high + 1)),
        13: changed(book, (first.next, 0 if first.next.read(book) else 1)),
        23: changed(book, (EDITION, 2), (PERCENTAGES[1], 0)),
    }
