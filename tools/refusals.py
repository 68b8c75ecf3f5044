"""Writes the one table of refusals into docs/FILE_FORMAT.md, the header and the Rust wrapper."""

import argparse
import sys
import textwrap

from tests import ROOT

sys.path.insert(0, str(ROOT / "python"))

from xaropinto.refusals import refusals  # noqa: E402

BEGIN, END = "refusals: begin", "refusals: end"
# The most characters of a literal in C.
LITERAL = 78


def in_book(rows):
    """A table's lines."""
    head = ["| number | rule | place | owner | broken by |", "|---|---|---|---|---|"]
    return head + [f"| {row.number} | {row.rule} | {row.place} | {row.owner} | {row.example} |"
                   for row in rows]


def in_header(rows):
    """The cases of a function in C; a long text is several literals, one after the other."""
    held = []
    for row in rows:
        words = textwrap.wrap(f"{row.rule}; place: {row.place}; owner: {row.owner}", LITERAL)
        literals = [f'"{each} "' for each in words[:-1]] + [f'"{words[-1]}";']
        held += [f"    case {row.number}:", f"        return {literals[0]}",
                 *(f"               {each}" for each in literals[1:])]
    return held


def in_rust(rows):
    """The arms of a match in Rust."""
    return [line for row in rows
            for line in (f"        {row.number} => {{",
                         f'            "{row.rule}; owner: {row.owner}"',
                         "        }")]


# Where the table stands, and how its lines are made there.
COPIES = {"docs/FILE_FORMAT.md": in_book, "include/xaropinto.h": in_header,
          "bindings/rust/src/refusals.rs": in_rust}


def filled(text, lines):
    """A file's text with these lines between its two marks."""
    held = text.splitlines()
    begin = next(at for at, line in enumerate(held) if BEGIN in line)
    end = next(at for at, line in enumerate(held) if END in line)
    return "\n".join([*held[:begin + 1], *lines, *held[end:]]) + "\n"


def copies():
    """(path, its text, its text with the table of refusals) of each file that has the table."""
    rows = [refusals()[number] for number in sorted(refusals())]
    for name, lines_of in COPIES.items():
        path = ROOT / name
        text = path.read_text(encoding="utf-8")
        yield path, text, filled(text, lines_of(rows))


def main():
    """Write the table into each file."""
    parser = argparse.ArgumentParser(description=__doc__)
    parser.add_argument("verb", choices=("write",), help="write the table into each file")
    parser.parse_args()
    for path, _, due in copies():
        path.write_text(due, encoding="utf-8")
    return 0


if __name__ == "__main__":
    sys.exit(main())
