"""The places of all fields of the header's structs, as assertions for a C compiler."""

import re

from tests.repository.test_struct_layouts import read_c
from tools.targets import HEADER, BuildError
from tools.targets.build import COMPILED
from tools.targets.kit import run_tool

# Every number of a struct has 64 bits.
NUMBER_BYTES = 8
SIZE = "size"
FAILED = re.compile(r"error: static assertion failed.*: (\w+)\.(\w+)$", re.M)
OTHER_ERROR = re.compile(r"error: (?!static assertion failed).*", re.M)


def layouts():
    """By struct and field, the byte at which it starts; by struct and `size`, the struct's size."""
    structs, places = read_c(HEADER.read_text(encoding="utf-8")).structs, {}
    for name, fields in structs.items():
        end = 0
        for field, (kind, count) in fields:
            places[name, field] = end
            end += count * places.get((kind, SIZE), NUMBER_BYTES)
        places[name, SIZE] = end
    return places


def assertions(places):
    """The text in C that asserts these places."""
    lines = ['#include "xaropinto.h"']
    for (name, field), place in places.items():
        held = f"sizeof({name})" if field == SIZE else f"offsetof({name}, {field})"
        lines.append(f'_Static_assert({held} == {place}, "{name}.{field}");')
    return "\n".join(lines) + "\n"


def failing(places, triple, folder):
    """Those of these places that are others on a target."""
    (folder / "places.c").write_text(assertions(places), encoding="ascii")
    try:
        run_tool("clang", *COMPILED, "-ferror-limit=0", f"--target={triple}", "places.c", "-o",
                 "places.o", folder=folder)
    except BuildError as error:
        if other := OTHER_ERROR.search(str(error)):
            raise AssertionError(other[0]) from error
        return set(FAILED.findall(str(error)))
    return set()
