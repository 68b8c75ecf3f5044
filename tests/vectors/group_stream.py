"""The stream of Group: calls with their replies."""

from typing import NamedTuple

from reference.book import read_values
from reference.valuation import group
from tests.vectors.files import book_frame, stream_output
from tests.vectors.group_cases import Call, group_calls, group_of


class Entry(NamedTuple):
    """A call and its reply."""

    call: Call
    reply: tuple

    @property
    def name(self):
        return self.call.name

    @property
    def accepted(self):
        return self.reply[0] == 0

    def frame(self):
        """The call as it stands in the stream."""
        call = self.call
        return (call.setting.to_bytes(8, "little") + call.product_group.to_bytes(8, "little")
                + call.table_length.to_bytes(4, "little") + book_frame(call.book))

    def line(self):
        """The reply, the numbers written and how many of the table were left alone."""
        *figures, numbers = self.reply
        written = numbers or []
        return " ".join(map(str, [*figures, *written, self.call.table_length - len(written)]))

    def cells(self):
        """The cells of the product group called for, in an accepted book."""
        return [cell for chain, portfolio in read_values(self.call.book).portfolios.items()
                if group_of(chain) == self.call.product_group for cell in portfolio.cells]


def build():
    """All entries, and the bytes of the two files."""
    entries = [Entry(call, group(call.book, call.setting, call.product_group, call.table_length))
               for call in group_calls()]
    stdin = b"".join(entry.frame() for entry in entries)
    return entries, stdin, stream_output(entry.line() for entry in entries)
