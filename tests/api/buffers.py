"""Buffers around the length of a text that a call writes, and every byte around them."""

from typing import NamedTuple

from tests.support.differential import Tally


class Buffer(NamedTuple):
    """What is passed, by its name, and how many bytes it has."""

    name: str
    length: int


class TextTally(Tally):
    """Counts the replies of a call that writes a text: by refusal, and by buffer."""

    def compare_text(self, call, asked, due, given, kept):
        """A reply with the memory after it; the first entry of both is the refusal."""
        self.seen[call, due[0]] += 1
        memory = "; the memory differs" if given[3:] != due[3:] else ""
        self.compare(call, given, due, f"{asked} gives {given[:3]}, due is {due[:3]}{memory}", kept)


def call_with_marks(function, arguments, buffer, memory_bytes, chooser):
    """(the reply and all bytes of a marked memory, the marks); the call takes the buffer last."""
    marks = chooser.randbytes(memory_bytes)
    memory = bytearray(marks)
    reply = function(*arguments, memoryview(memory)[:buffer.length])
    return (*reply, bytes(memory)), marks


def due_with_marks(refusal, place, text, marks):
    """What is due: the text and then the marks, or all marks where the call refuses."""
    if refusal:
        return refusal, place, 0, marks
    return 0, 0, len(text), text + marks[len(text):]
