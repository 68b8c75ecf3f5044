"""The imports and exports of a WebAssembly module, read from its bytes."""

MAGIC = b"\0asm\1\0\0\0"
IMPORTS, EXPORTS = 2, 7
KINDS = ("function", "table", "memory", "global")


class Reader:
    """Bytes in turn."""

    def __init__(self, held):
        self.held, self.at = held, 0

    def take(self, size):
        """So many bytes."""
        self.at += size
        if self.at > len(self.held):
            raise ValueError("the module ends early")
        return self.held[self.at - size:self.at]

    def number(self):
        """A number in LEB128: seven bits a byte, the lowest first, the last below 128."""
        value, shift, last = 0, 0, 128
        while last >= 128:
            [last] = self.take(1)
            value |= (last & 127) << shift
            shift += 7
        return value

    def name(self):
        """A name with its length before it."""
        return self.take(self.number()).decode("utf-8")


def sections(module):
    """The content of the sections by their numbers."""
    reader, found = Reader(module), {}
    if reader.take(len(MAGIC)) != MAGIC:
        raise ValueError("this is no WebAssembly module")
    while reader.at < len(module):
        [number] = reader.take(1)
        found[number] = reader.take(reader.number())
    return found


def exports(module):
    """The kinds of what a module exports, by name."""
    reader, found = Reader(sections(module)[EXPORTS]), {}
    for _ in range(reader.number()):
        name = reader.name()
        [kind] = reader.take(1)
        found[name] = KINDS[kind]
        reader.number()
    return found


def has_imports(module):
    """Whether a module imports anything."""
    return IMPORTS in sections(module)
