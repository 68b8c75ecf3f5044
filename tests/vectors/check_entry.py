"""One book of the verdict stream, with what its links and defects show."""

from functools import cached_property

from reference.layout import CHAINS, RECORD_COUNT
from tests.fixtures.defects import defects, steps


class Entry:
    """One book of the stream with its verdict, and what stands in the book."""

    def __init__(self, name, book, verdict, is_random=False):
        self.name = name
        self.book = book
        self.verdict = verdict
        self.is_random = is_random

    @property
    def accepted(self):
        return self.verdict[0] == "accepted"

    @property
    def refusal(self):
        """(number, place), or None for an accepted book."""
        return None if self.accepted else self.verdict[1:]

    @cached_property
    def defects(self):
        return defects(self.book)

    @cached_property
    def link_numbers(self):
        """For each chain the record numbers its links name, past any defect."""
        return [[number for _, number in steps(self.book, chain)]
                for chain in range(len(CHAINS))]

    @cached_property
    def paths(self):
        """For each chain the records it links."""
        count = RECORD_COUNT.read(self.book)
        return [[number for number in numbers if 0 < number <= count]
                for numbers in self.link_numbers]

    def sole_causes(self):
        """The cause of the refusal where nothing else is wrong at its place."""
        causes = {defect.cause for defect in self.defects
                  if (defect.number, defect.place) == self.refusal}
        return causes if len(causes) == 1 else set()
