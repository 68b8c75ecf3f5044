"""The stream of record views: books and record numbers, with the record's bytes."""

import random
from typing import NamedTuple

from reference.book import (empty_book, full_book, make_book, one_record_book, shuffled,
                            slots_in_chain_order, with_junk)
from reference.check import view
from reference.layout import CHAINS, RECORD_COUNT, changed
from tests.vectors.check_cases_header import base_values
from tests.vectors.check_cases_order import BOOK_REFUSALS, spoiled
from tests.vectors.files import book_frame, stream_output

FAR_NUMBERS = (2**16, 2**16 + 1, 2**32, 2**32 + 1, 2**63, 2**63 + 1, 2**64 - 1)


class Entry(NamedTuple):
    """A book, a record number and the reply to them."""

    name: str
    number: int
    book: bytes
    reply: tuple

    @property
    def refused_book(self):
        """Is the refusal the book's own? One for the number alone has place 0 and number 9."""
        return self.reply[0] not in (0, 9) or self.reply[1] != 0


def shuffled_book():
    """A small shuffled book with junk anywhere."""
    chooser = random.Random(5)
    values = base_values()
    slots = shuffled(slots_in_chain_order(values), chooser)
    return make_book(values, with_junk(slots, 4, chooser))


def accepted_cases():
    """(name, number, book) for accepted books, numbers in range and out of it."""
    small, full = shuffled_book(), full_book(random.Random(1694), shuffle=True)
    count = RECORD_COUNT.read(small)
    for number in (0, *range(1, count + 1), count + 1, count + 256, *FAR_NUMBERS, 2**64 - count):
        yield f"shuffled_book_record_{number}", number, small
    for number in (0, 1, 2, *FAR_NUMBERS):
        yield f"one_record_book_record_{number}", number, one_record_book()
        yield f"empty_book_record_{number}", number, empty_book()
    for number in (0, 1, 847, 1_694, 1_695, 2**32 + 1, 2**64 - 1):
        yield f"full_book_record_{number}", number, full


def refused_cases():
    """(name, number, book) for a book of each refusal, numbers in range and out of it."""
    for refusal in BOOK_REFUSALS:
        book = spoiled((refusal,))
        for number in (0, 1, 9, 10, 2**64 - 1):
            yield f"refusal_{refusal}_before_record_{number}", number, book
    head = changed(empty_book(), (CHAINS[3].head, 1))
    yield "head_above_n_before_record_0", 0, head
    yield "head_above_n_before_record_1", 1, head
    yield "no_bytes_record_0", 0, b""
    yield "no_bytes_record_1", 1, b""


def reply_line(reply):
    """The line for a reply, without its end."""
    refusal, place, part = reply
    line = f"{refusal} {place} {len(part)}"
    return f"{line} {part.hex()}" if part else line


def build():
    """All entries, and the bytes of the two files."""
    entries = [Entry(name, number, book, view(book, number))
               for name, number, book in (*accepted_cases(), *refused_cases())]
    stdin = b"".join(entry.number.to_bytes(8, "little") + book_frame(entry.book)
                     for entry in entries)
    return entries, stdin, stream_output(reply_line(entry.reply) for entry in entries)
