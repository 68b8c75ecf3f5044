"""Which versions of other libraries' symbols an ELF file asks for, and for which processor it is:
what the name of a wheel promises about the C library is compared with this."""

import re
import struct

# Kinds of processor; the section that lists the versions asked for; the form of a version of glibc.
MACHINES = {62: "x86_64", 183: "aarch64"}
VERSIONS_NEEDED = 0x6FFFFFFE
GLIBC = re.compile(r"GLIBC_(\d+)\.(\d+)")


class NotElfError(ValueError):
    """No ELF file of 64 bits, little-endian."""


def header_of(held):
    """The processor, and each section as (kind, start, size, the section that it refers to)."""
    if held[:6] != b"\x7fELF\x02\x01":
        raise NotElfError("this is no ELF file of 64 bits, little-endian")
    machine, = struct.unpack_from("<H", held, 18)
    table, = struct.unpack_from("<Q", held, 40)
    size, count = struct.unpack_from("<HH", held, 58)
    sections = []
    for at in range(table, table + size * count, size):
        _, kind, _, _, start, length, link = struct.unpack_from("<IIQQQQI", held, at)
        sections.append((kind, start, length, link))
    return MACHINES.get(machine, f"machine {machine}"), sections


def machine_of(held):
    """The processor."""
    return header_of(held)[0]


def needed_versions(held):
    """What is asked for: pairs of a library's name and a version."""
    _, sections = header_of(held)
    needed = set()
    for kind, start, _, link in sections:
        if kind != VERSIONS_NEEDED:
            continue
        texts = sections[link][1]
        step = start
        while step:
            _, count, library, first, following = struct.unpack_from("<HHIII", held, step)
            each = step + first
            for _ in range(count):
                _, _, _, name, further = struct.unpack_from("<IHHII", held, each)
                needed.add((text_at(held, texts + library), text_at(held, texts + name)))
                each += further
            step = step + following if following else 0
    return needed


def text_at(held, start):
    """The text that a zero byte ends."""
    return held[start:held.index(b"\0", start)].decode("ascii")


def glibc_needed(held):
    """The newest version of glibc that is asked for, as (2, 17); (0, 0) where none is.

    A version of anything else than glibc is an error: a wheel's name promises no other library.
    """
    newest = (0, 0)
    for library, version in needed_versions(held):
        found = GLIBC.match(version)
        if not found:
            raise ValueError(f"{version} of {library} is asked for; only glibc may be")
        newest = max(newest, (int(found[1]), int(found[2])))
    return newest
