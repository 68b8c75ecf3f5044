"""The named books of the listing stream: those of Group, and what only totals can show."""

from reference.layout import CHAINS, MOST_BYTES_TAKEN, PRODUCT_GROUPS
from tests.fixtures import insurers as books
from tests.fixtures import trial_books as trials
from tests.vectors.check_cases_header import Case, base_book, length_cases
from tests.vectors.group_cases import (class_calls, curve_calls, end_calls, group_of, insurer_calls,
                                       refused_calls, size_calls, trial_calls)

MEN_OF_EACH_GROUP = (0, 6, 8, 10, 12)
# Of one product group, which has one cap, or of two, which have two.
RICH_AND_POOR = ((2, 5), (4, 1), (5, 6), (7, 8), (9, 10), (11, 12), (13, 0))


def book_cases():
    """The books of the stream of Group, those about tables and callers left out."""
    for calls in (trial_calls, class_calls, insurer_calls, end_calls, curve_calls, size_calls,
                  refused_calls):
        for call in calls():
            yield Case(f"book_of_{call.name}", call.book)


def group_cases():
    """Each product group alone, with contracts in all its chains."""
    for product_group in PRODUCT_GROUPS:
        first_classes = {chain: 85 + chain for chain in range(len(CHAINS))
                         if group_of(chain) == product_group}
        yield Case(f"group_{product_group}_alone",
                   books.insurer_book(first_classes, product_group))


def rich_cases():
    """A rich chain beside a poor one."""
    for rich, poor in RICH_AND_POOR:
        names = [CHAINS[chain].name.lower().replace(" ", "_") for chain in (rich, poor)]
        yield Case(f"rich_{names[0]}_and_poor_{names[1]}", trials.rich_and_poor_book(rich, poor))


def loss_cases():
    """What rounding loses, in all five groups at once."""
    yield Case("loss_in_every_step_of_every_group",
               trials.loss_in_every_step_book(MEN_OF_EACH_GROUP))
    for words, rate in (("below", -9_999), ("above", 1)):
        yield Case(f"loss_at_every_rounding_of_every_group_{words}_zero",
                   trials.loss_at_every_rounding_book(rate, MEN_OF_EACH_GROUP))


def longest_cases():
    """As many bytes as are ever taken."""
    yield Case("as_many_bytes_as_are_taken", base_book().ljust(MOST_BYTES_TAKEN, b"\0"))


def listing_cases():
    """All books of the stream, each once and under its first name."""
    names = {}
    for cases in (book_cases, group_cases, rich_cases, loss_cases, length_cases, longest_cases):
        for case in cases():
            names.setdefault(case.book, case.name)
    return [Case(name, book) for book, name in names.items()]
