"""How the check comes to a record: along which chain, by which head or next, after which record."""

from typing import Callable, Iterator, NamedTuple, Optional

from xaropinto.layout import HEADER_BYTES, MOST_RECORDS, RECORD_BYTES, Field, Record, heads

CODE, SEX, CLASS, NEXT = 0, 1, 2, 4
# The spare bytes of a record.
SPARE = (3, 6, 7)


class Step(NamedTuple):
    """A record that is read: its chain, the field that leads to it, and those before it."""

    chain: int
    record: Record
    lead: Field
    before: tuple[Record, ...]

    def previous(self) -> Optional[Record]:
        """The record before it in the chain."""
        return self.before[-1] if self.before else None

    def is_loop(self) -> bool:
        """Was the record read before, in the same chain?"""
        return self.record in self.before


def record_of(number: int) -> Record:
    """A record by its number."""
    return Record(number, HEADER_BYTES + RECORD_BYTES * (number - 1))


def next_field(record: Record) -> Field:
    """The field that leads on from a record."""
    return Field(f"next of record {record.number:,}", record.start + NEXT, 2, 0, MOST_RECORDS)


def class_in(record: Record, book: bytes) -> int:
    """A record's class."""
    return book[record.start + CLASS]


def steps(book: bytes) -> Iterator[Step]:
    """Every record in the order of the check; a chain that comes back to itself ends there."""
    count = int.from_bytes(book[4:6], "little")
    for chain, head in enumerate(heads()):
        lead, before = head, ()  # type: tuple[Field, tuple[Record, ...]]
        while 0 < lead.read(book) <= count:
            step = Step(chain, record_of(lead.read(book)), lead, before)
            yield step
            if step.is_loop():
                break
            lead, before = next_field(step.record), (*before, step.record)


def step_to(book: bytes, number: int, fails: Callable[[Step], bool]) -> Optional[Step]:
    """The first step to a record, by its number, at which it fails."""
    return next(
        (step for step in steps(book) if step.record.number == number and fails(step)), None
    )
