"""Every fault of a file. Each is a refusal of the proved check: the first one is the file's, each
later one that of a copy in which the faults before it are corrected. No copy is written or valued.
"""

from typing import NamedTuple

from xaropinto.corrected_copy import TOO_SHORT, CorrectedCopy
from xaropinto.messages import explain
from xaropinto.refusals import refusal_of


class Fault(NamedTuple):
    """A refusal: its number and place, both in words, and who is responsible."""

    number: int
    place: int
    words: str
    owner: str


class Faults(NamedTuple):
    """In the order in which they were found; whether the last copy is accepted; and how many of
    its records are in no chain, so that nothing is said of them."""

    found: tuple[Fault, ...]
    complete: bool
    unlinked: int


def all_faults(book: bytes) -> Faults:
    """Every fault of a file, none where it is accepted.

    It ends by itself, as `CorrectedCopy` says; it is stopped after as many faults as there are
    fields, and after the first where the file is too short to have fields.
    """
    copy = CorrectedCopy(book)
    found: list[Fault] = []
    for _ in range(copy.field_count()):
        number, place, _ = copy.verdict()
        if not number:
            return Faults(tuple(found), True, copy.unlinked_count())
        words = explain(number, place, copy.held(), copy.call())
        found.append(Fault(number, place, words, refusal_of(number, copy.call()).owner))
        if number == TOO_SHORT:
            break
        copy.correct(number, place)
    return Faults(tuple(found), False, 0)
