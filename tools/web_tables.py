"""Writes target/web/tables.js: the tables and words of the Python package, for the web page.

For each module an object by its name in capitals, with the module's constants under their own
names; LAYOUT has the fields of a book as well, REFUSALS the lines of the one table, TABLES letters
of an encoding. Fields of records are in camelCase, an enum is its value, bytes are numbers, a set
of numbers is the first and last number of each of its ranges, a pattern is its source.
"""

import argparse
import ast
import importlib
import json
import os
import re
import sys
import tempfile
from dataclasses import fields, is_dataclass
from enum import Enum
from pathlib import Path

from tests import ROOT

sys.path.insert(0, str(ROOT / "python"))

from xaropinto import layout, refusals  # noqa: E402

PACKAGE = ROOT / "web" / "package.json"
TABLES = ROOT / "target" / "web" / "tables.js"
MODULES = (
    "version", "layout", "refusals", "chains", "messages", "number_format", "distances", "answers",
    "portfolio", "plausibility", "cell_numbers", "tables", "sheets", "age_shift", "corrected_copy",
    "html_parts", "charts", "page", "age_alignment", "change_analysis", "book_changes", "compare",
    "compare_page", "cli.books", "cli.check", "cli.compare", "cli.figures", "cli.files",
    "cli.pages", "cli.portfolio",
)
# What is made of other constants, and what only the command has.
LEFT_OUT = {("sheets", "RANGES"), ("sheets", "KINDS"), ("cell_numbers", "THOUSANDS"),
            ("cli.files", "ENDING"), ("cli.files", "STANDARD")}
# Whole numbers beyond this are no numbers of JavaScript.
EXACT = 2**53
# A field's name that ends with a number.
NUMBERED = re.compile(r"(.*?)([0-9]+)")
HEADING = """// Written by tools/web_tables.py from the Python package: change it there.
"""


def in_camel_case(name):
    """A field's name in JavaScript."""
    first, *others = name.split("_")
    return first + "".join(map(str.capitalize, others))


def pattern_source(pattern):
    """A pattern in JavaScript's syntax: a point there does not match every end of a line."""
    found, in_class = [], False
    for part in re.findall(r"\\.|\(\?P<|.", pattern, re.DOTALL):
        in_class = part == "[" or (in_class and part != "]")
        found.append({".": part if in_class else r"[^\n]", "(?P<": "(?<"}.get(part, part))
    return "".join(found)


def ranges_of(numbers):
    """The first and last number of each range of a set."""
    ranges = []
    for number in sorted(numbers):
        if ranges and ranges[-1][1] == number - 1:
            ranges[-1] = (ranges[-1][0], number)
        else:
            ranges.append((number, number))
    return ranges


def record_fields(held):
    """The fields of a named tuple or a dataclass, by name; functions are left out."""
    names = held._fields if hasattr(held, "_fields") else [each.name for each in fields(held)]
    return {in_camel_case(name): getattr(held, name) for name in names
            if not callable(getattr(held, name))}


def in_javascript(held):
    """A constant as an expression."""
    if isinstance(held, Enum):
        return in_javascript(held.value)
    if isinstance(held, re.Pattern):
        return in_javascript(pattern_source(held.pattern))
    if isinstance(held, type) and issubclass(held, Enum):
        return in_javascript({each.name: each.value for each in held})
    if is_dataclass(held) or hasattr(held, "_fields"):
        return in_javascript(record_fields(held))
    if isinstance(held, dict):
        pairs = [f"{json.dumps(str(key.value if isinstance(key, Enum) else key))}: "
                 f"{in_javascript(each)}" for key, each in held.items()]
        return f"{{ {', '.join(pairs)} }}"
    if isinstance(held, frozenset):
        return in_javascript(ranges_of(held))
    if isinstance(held, (tuple, list, bytes)):
        return f"[{', '.join(map(in_javascript, held))}]"
    if isinstance(held, int) and not isinstance(held, bool) and abs(held) > EXACT:
        return f"{held}n"
    if held is None or isinstance(held, (bool, int, float, str)):
        return json.dumps(held, ensure_ascii=False).replace("</", "<\\/")
    raise TypeError(f"{type(held).__name__} has no form in tables.js")


def constant_names(module):
    """The names in capitals that a module assigns, and its enums, in their order."""
    for line in ast.parse(Path(module.__file__).read_text(encoding="utf-8")).body:
        targets = line.targets if isinstance(line, ast.Assign) else [getattr(line, "target", None)]
        for target in targets:
            for each in ast.walk(target) if target else ():
                if isinstance(each, ast.Name) and each.id.isupper():
                    yield each.id
        if isinstance(line, ast.ClassDef):
            held = getattr(module, line.name)
            if isinstance(held, type) and issubclass(held, Enum):
                yield line.name


def constants_of(name):
    """A module's constants, by name."""
    module = importlib.import_module(f"xaropinto.{name}")
    return {each: getattr(module, each) for each in constant_names(module)
            if (name, each) not in LEFT_OUT}


def runs_of(places):
    """Fields one behind the other whose names end with one number after the other, as one row: the
    name without its number, the first number or none, how many, and the first field."""
    runs = []
    for field in places:
        numbered = NUMBERED.fullmatch(field.name)
        stem, number = (numbered[1], int(numbered[2])) if numbered else (field.name, None)
        if runs and number is not None:
            last_stem, first, count, start = runs[-1]
            follows = start._replace(name=field.name, at=start.at + count * start.size)
            if (last_stem, first, follows) == (stem, number - count, field):
                runs[-1] = (stem, first, count + 1, start)
                continue
        runs.append((stem, number, 1, field))
    return [(stem, number, count, *field[1:]) for stem, number, count, field in runs]


def layout_fields():
    """The fields of a book; those of a record as if it stood at 0."""
    return {"headerFields": runs_of(layout.header_fields()),
            "percentages": [tuple(each) for each in layout.percentages()],
            "heads": [tuple(each) for each in layout.heads()],
            "recordFields": [tuple(each) for each in layout.Record(1, 0).fields()]}


def refusal_lines():
    """The lines of the table of refusals, without the places and examples of its documents."""
    return {"lines": [(int(number), call, rule, owner)
                      for number, call, rule, _, owner, _ in refusals.table_lines()]}


def windows_letters():
    """What bytes 128 to 159 are in Windows-1252, which not every JavaScript knows; a mark stands
    for those that it does not assign."""
    return {"windows1252": bytes(range(0x80, 0xA0)).decode("cp1252", "replace")}


def tables_text():
    """The module's text."""
    more = {"layout": layout_fields(), "refusals": refusal_lines(), "tables": windows_letters()}
    parts = [HEADING]
    for name in MODULES:
        held = {**constants_of(name), **more.get(name, {})}
        lines = [f"  {key}: {in_javascript(each)},\n" for key, each in held.items()]
        parts.append(f"export const {name.upper().replace('.', '_')} = {{\n{''.join(lines)}}};\n")
    return "".join(parts)


def write_tables(path=TABLES):
    """Write the file, and beside it that it is a module, for versions of node that do not see it;
    whoever reads one meanwhile finds a whole one."""
    path.parent.mkdir(parents=True, exist_ok=True)
    written = {path.name: tables_text(), PACKAGE.name: PACKAGE.read_text(encoding="utf-8")}
    with tempfile.TemporaryDirectory(dir=path.parent) as folder:
        for name, text in written.items():
            part = Path(folder) / name
            part.write_text(text, encoding="utf-8")
            os.replace(part, path.parent / name)


def main():
    """Write the file, or another that is named."""
    parser = argparse.ArgumentParser(description=__doc__.splitlines()[0])
    parser.add_argument("path", nargs="?", type=Path, default=TABLES)
    write_tables(parser.parse_args().path)


if __name__ == "__main__":
    main()
