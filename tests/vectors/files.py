"""The bytes of a test program's stream: the frames of its input, and the lines of its output."""


def book_frame(book):
    """A book as it stands in a stream: its length in four bytes, then its bytes."""
    return len(book).to_bytes(4, "little") + book


def verdict_line(verdict):
    """The line for a verdict, without its end."""
    return " ".join(str(part) for part in verdict)


def stream_output(lines):
    """The lines of a stream, each ended by byte 10."""
    return "".join(line + "\n" for line in lines).encode("ascii")
