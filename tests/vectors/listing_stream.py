"""The stream of listings: books with the reply of Totals and the listing."""

from functools import cached_property

from reference.book import read_values
from reference.valuation import cells_by_group, listing_of, totals
from tests.vectors.files import book_frame, stream_output
from tests.vectors.listing_cases import listing_cases


class Entry:
    """A book with its reply of Totals, and what it says where it is accepted."""

    def __init__(self, name, book):
        self.name = name
        self.book = book
        self.reply = totals(book)
        self.refusal, self.place, self.n, self.totals, self.differences = self.reply

    @property
    def accepted(self):
        return self.refusal == 0

    @cached_property
    def values(self):
        return read_values(self.book)

    @cached_property
    def n_by_group(self):
        return cells_by_group(self.values)

    def output(self):
        """The reply on one line, then the listing."""
        numbers = (self.refusal, self.place, self.n, *self.totals, *self.differences)
        return stream_output([" ".join(map(str, numbers))]) + listing_of(self.reply)


def build():
    """All entries, and the bytes of the two files."""
    entries = [Entry(case.name, case.book) for case in listing_cases()]
    stdin = b"".join(book_frame(entry.book) for entry in entries)
    return entries, stdin, b"".join(entry.output() for entry in entries)
