"""The refusals by number: the rule that is broken, the place that is reported, and the owner."""

from functools import lru_cache
from importlib import resources
from typing import NamedTuple

# The call of a rule that is worded for every call that reads a book of age basis 1.
BOOK = "book"


class Refusal(NamedTuple):
    """A refusal as the table has it."""

    number: int
    rule: str
    place: str
    owner: str
    example: str


def table_lines() -> list[list[str]]:
    """The lines of the one table, each with all its columns; what is left out is empty."""
    text = resources.files(__package__).joinpath("refusals.tsv").read_text(encoding="utf-8")
    lines = [line.split("\t") for line in text.splitlines() if line and not line.startswith("#")]
    heading = lines[0]
    return [line + [""] * (len(heading) - len(line)) for line in lines[1:]]


@lru_cache(maxsize=None)
def refusals() -> dict[int, Refusal]:
    """Each in the words that hold for all calls."""
    return {
        int(number): Refusal(int(number), *words)
        for number, call, *words in table_lines()
        if not call
    }


@lru_cache(maxsize=None)
def own_words() -> dict[tuple[int, str], Refusal]:
    """Each that a call words for itself; what it leaves out is as it is for all calls."""
    held = {}
    for number, call, rule, _, owner, _ in table_lines():
        if call:
            general = refusals()[int(number)]
            held[int(number), call] = general._replace(rule=rule, owner=owner or general.owner)
    return held


def refusal_of(number: int, call: str = BOOK) -> Refusal:
    """A refusal in the words of a call."""
    held = own_words()
    return held.get((number, call)) or held.get((number, BOOK)) or refusals()[number]
