"""The stream of the check: named books and random damage, with their verdicts."""

import random

from reference.book import random_book
from reference.check import check
from tests.fixtures.damage import damaged
from tests.vectors.check_cases_chain import chain_cases
from tests.vectors.check_cases_header import Case, header_cases
from tests.vectors.check_cases_order import order_cases
from tests.vectors.check_entry import Entry
from tests.vectors.files import book_frame, stream_output, verdict_line

SEED = 20_201_031
VALID_BOOKS = 30
DAMAGED_BOOKS = 220


def random_cases():
    """Random valid books, and random books with random damage."""
    chooser = random.Random(SEED)
    for number in range(1, VALID_BOOKS + 1):
        yield Case(f"random_valid_{number}", random_book(chooser))
    for number in range(1, DAMAGED_BOOKS + 1):
        yield Case(f"random_damage_{number}", damaged(random_book(chooser), chooser))


def build():
    """All entries, and the bytes of the two files."""
    named = [*header_cases(), *chain_cases(), *order_cases()]
    entries = [Entry(case.name, case.book, check(case.book)) for case in named]
    entries += [Entry(case.name, case.book, check(case.book), is_random=True)
                for case in random_cases()]
    stdin = b"".join(book_frame(entry.book) for entry in entries)
    stdout = stream_output(verdict_line(entry.verdict) for entry in entries)
    return entries, stdin, stdout
