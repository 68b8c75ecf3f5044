"""A copy of a refused book in which one fault after the other is set to a permitted value.

Corrections come to an end. Each brings a number into its range for good, or gives a record the
code, sex or class of the chain that reads it, or shortens a chain: a head moves along its own
chain, to each record once, or becomes 0, and a next becomes 0. So no chain ever reaches a record
that it did not reach before, and what a chain has given up is not corrected for it again.
"""

from typing import Optional

from xaropinto import calls
from xaropinto.chains import CLASS, CODE, NEXT, SEX, SPARE, class_in, next_field, record_of, steps
from xaropinto.layout import (
    CHAINS,
    HEADER_BYTES,
    LAST_CLASS,
    MOST_RECORDS,
    RECORD_BYTES,
    Field,
    header_fields,
    heads,
    percentages,
    record_at,
    record_count,
)
from xaropinto.messages import CONVERT
from xaropinto.refusals import BOOK

TOO_SHORT, BAD_EDITION, BAD_BASIS, BAD_HEADER, BAD_LENGTH = 1, 2, 3, 4, 5
BAD_LINK, BAD_OWNER, BAD_CLASS, BAD_END, CLASS_0 = 9, 10, 11, 13, 21
NEWER_BASIS = 2
FIELDS_OF_A_RECORD = 9


class CorrectedCopy:
    """A book's bytes. Where it says basis 2, the proved converter judges it in place of Check."""

    def __init__(self, book: bytes):
        self.bytes = bytearray(book)
        self.newer = False
        self.moved_to: set[tuple[int, int]] = set()

    def held(self) -> bytes:
        """As it stands."""
        return bytes(self.bytes)

    def field_count(self) -> int:
        """How many fields a book of this length has; one at least."""
        records = max(0, len(self.bytes) - HEADER_BYTES) // RECORD_BYTES
        header = len([*header_fields(), *percentages(), *heads()])
        return header + FIELDS_OF_A_RECORD * records

    def unlinked_count(self) -> int:
        """How many records no chain reaches."""
        linked = {step.record.number for step in steps(self.held())}
        return record_count(self.held()) - len(linked)

    def verdict(self, other: Optional[bytes] = None) -> calls.Verdict:
        """Of this copy, or of another book on the same basis."""
        book = self.held() if other is None else other
        return calls.convert(book, bytearray(len(book))) if self.newer else calls.check(book)

    def call(self) -> str:
        """The call whose words its refusals have."""
        return CONVERT if self.newer else BOOK

    def correct(self, number: int, place: int) -> None:
        """Set what was refused to a permitted value."""
        if number == BAD_EDITION:
            self.bytes[0] = 2 if all(map(self.in_range, percentages())) else 1
        elif number == BAD_BASIS:
            self.newer = self.bytes[1] == NEWER_BASIS
            self.bytes[1] = NEWER_BASIS if self.newer else 1
        elif number == BAD_HEADER and place == 6:
            self.put(6, 2, 0)
        elif number == BAD_LENGTH or (number == BAD_HEADER and place == 4):
            self.fit_length()
        elif number == BAD_LINK and place < HEADER_BYTES:
            self.put(place, 2, 0)
        elif number in (BAD_LINK, BAD_OWNER, BAD_CLASS, BAD_END, CLASS_0):
            self.correct_record(number, record_at(place).number)
        else:
            self.clamp(place)

    def put(self, at: int, size: int, number: int, signed: bool = False) -> None:
        """Set a field."""
        self.bytes[at:at + size] = number.to_bytes(size, "little", signed=signed)

    def in_range(self, field: Field) -> bool:
        """Has a field a permitted value?"""
        return field.low <= field.read(self.held()) <= field.high

    def fit_length(self) -> None:
        """As many records as the file has bytes for; what is left over is cut off."""
        records = min(MOST_RECORDS, (len(self.bytes) - HEADER_BYTES) // RECORD_BYTES)
        self.put(4, 2, records)
        del self.bytes[HEADER_BYTES + RECORD_BYTES * records:]

    def clamp(self, place: int) -> None:
        """Bring a field to the nearer end of its range."""
        in_header = place < HEADER_BYTES
        fields = [*percentages(), *header_fields()] if in_header else record_at(place).fields()
        field = next(each for each in fields if each.at == place)
        nearest = max(field.low, min(field.high, field.read(self.held())))
        self.put(field.at, field.size, nearest, field.signed)

    def correct_record(self, number: int, record: int) -> None:
        """A fault of a record in the chain that is read: of the record, or of the chain."""
        chain = self.chain_at_fault()
        path = self.path_to(chain, record, number == BAD_CLASS)
        if number == BAD_OWNER:
            self.correct_owner(chain, record)
        elif number in (BAD_CLASS, CLASS_0):
            self.correct_class(chain, path)
        elif number == BAD_END and self.class_of(record) == self.last_class():
            self.put(record_of(record).start + NEXT, 2, 0)
        else:
            self.set_head(chain, 0)

    def chain_at_fault(self) -> int:
        """The first chain with which the book is refused when all heads behind it are 0."""
        for chain, head in enumerate(heads()):
            without = bytearray(self.bytes)
            without[head.at + 2:heads()[-1].at + 2] = bytes(2 * (len(CHAINS) - 1 - chain))
            if self.verdict(bytes(without)).refusal:
                return chain
        raise ValueError("no chain of the book is refused")

    def path_to(self, chain: int, record: int, wrong_class: bool) -> list[int]:
        """The records of a chain from its head to the one at fault, which a loop reaches twice."""
        path = [heads()[chain].read(self.held())]
        while path[-1] != record or (wrong_class and not self.class_fails(path)):
            path.append(self.next_of(path[-1]))
        return path

    def class_fails(self, path: list[int]) -> bool:
        """Does the class of the last record break the rule of chains?"""
        found = self.class_of(path[-1])
        return found > self.last_class() if len(path) == 1 else found != self.due_class(path)

    def due_class(self, path: list[int]) -> int:
        """One more than the class of the record before."""
        return self.class_of(path[-2]) + 1

    def last_class(self) -> int:
        """At which a chain ends."""
        return LAST_CLASS + 1 if self.newer else LAST_CLASS

    def class_of(self, record: int) -> int:
        """A record's class."""
        return class_in(record_of(record), self.held())

    def next_of(self, record: int) -> int:
        """The number that follows a record in its chain."""
        return next_field(record_of(record)).read(self.held())

    def set_head(self, chain: int, record: int) -> None:
        """Let a chain start elsewhere, or nowhere."""
        self.put(heads()[chain].at, 2, record)

    def correct_owner(self, chain: int, record: int) -> None:
        """The first byte that is not the chain's; but a record of another chain stays as it is, and
        the chain that was led into it is given up."""
        start, code, sex = record_of(record).start, chain // 2 + 1, chain % 2
        foreign = (self.bytes[start + CODE], self.bytes[start + SEX]) != (code, sex)
        if foreign and self.reached_by_its_own(record):
            self.set_head(chain, 0)
            return
        due = {CODE: code, SEX: sex, **dict.fromkeys(SPARE, 0)}
        at = next(each for each in due if self.bytes[start + each] != due[each])
        self.bytes[start + at] = due[at]

    def reached_by_its_own(self, record: int) -> bool:
        """Does the chain of a record's own code and sex reach it?"""
        start = record_of(record).start
        chain = 2 * (self.bytes[start + CODE] - 1) + self.bytes[start + SEX]
        if self.bytes[start + SEX] > 1 or not 0 <= chain < len(CHAINS):
            return False
        at, count = heads()[chain].read(self.held()), record_count(self.held())
        for _ in range(count):
            if at == record or not 0 < at <= count:
                break
            at = self.next_of(at)
        return at == record

    def correct_class(self, chain: int, path: list[int]) -> None:
        """The class where that alone is wrong; else the chain starts anew at the first record whose
        class can stand, once, so that what follows is checked too. A loop was checked before."""
        record, following = path[-1], self.next_of(path[-1])
        asked = self.due_from_next(following)
        due = asked if len(path) == 1 else self.due_class(path)
        start = following if len(path) == 1 else record
        if record in path[:-1]:
            self.set_head(chain, 0)
        elif due is not None and due == asked and self.first_class() <= due <= self.last_class():
            self.bytes[record_of(record).start + CLASS] = due
        elif (chain, start) in self.moved_to or start > record_count(self.held()):
            self.set_head(chain, 0)
        else:
            self.moved_to.add((chain, start))
            self.set_head(chain, start)

    def first_class(self) -> int:
        """The lowest on the book's basis."""
        return 1 if self.newer else 0

    def due_from_next(self, following: int) -> Optional[int]:
        """The class of a record by the one behind it; None where there is no such record."""
        if following == 0:
            return self.last_class()
        return self.class_of(following) - 1 if following <= record_count(self.held()) else None
