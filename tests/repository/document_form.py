"""Rules on the form of the documents: length, width, words, and figures that stand in one file.

A rule makes items: where, whether it holds, what is wrong if not.
"""

import re

from tests import ROOT
from tests.repository.pages import (API, CHANGELOG, CONTRIBUTING, DECISIONS, DOCS, ERROR_BOUND,
                                    INSTALL, LANDINGS, PAGES, README, TRACEABILITY, VERIFICATION,
                                    cells, lines, points, text_of)

MAN_PAGE = ROOT / "packaging" / "xaropinto.1"
HEADER = ROOT / "include" / "xaropinto.h"
NOTES = sorted(LANDINGS.glob("W-*.md"))
# The greatest length of each document, in lines; None for those that grow with the product.
MOST_LINES = {
    README: 110, DOCS / "USER_GUIDE.md": 250, DOCS / "SHEETS.md": 100, DOCS / "FILE_FORMAT.md": 250,
    DOCS / "METHOD.md": 250, DOCS / "WORKED_EXAMPLES.md": 350, ERROR_BOUND: 150, API: 250,
    VERIFICATION: 300, TRACEABILITY: None, DOCS / "ARCHITECTURE.md": 150, CONTRIBUTING: 200,
    DECISIONS: None, CHANGELOG: None, LANDINGS / "README.md": 50, **dict.fromkeys(NOTES, 30),
    INSTALL: 100, DOCS / "PORT.md": 250,
}
WIDEST_LINE, WIDEST_CELL = 100, 200
MOST_WORDS = 60
ENTRY = re.compile(r"- \*\*D(\d+)\*\* ")

# Words of a private dialect, and the standard ones.
WORDS = {
    r"reckon\w*": "compute, valuation", r"lent|lends?|lending": "passed",
    r"told|tells?": "reported",
    r"hand(?:s|ed|ing)? (?:back|on|over)": "returned, forwarded",
    r"mend(?:s|ed|ing)?": "owner, responsible, corrected", r"desks?": "department",
    r"at the counter": "on the command line",
    r"(?:the|our|a|of the) house|house rules?": "own rule",
    r"rooms?": "directory, space", r"way of a number": "data flow",
    r"second (?:reading|reckoning|check|desk|maker)s?": "reference implementation",
    r"walk(?:s|ed|ing)?": "project", r"settl(?:e|es|ed|ing)": "value",
    r"look(?:s|ed|ing)? at|lookers?": "view",
    # A workbook has sheets; costs, years and departments have none.
    r"(?:cost|year|your|reviewer's|for a) sheets?": "lines, file",
    r"(?:the|a|in) front": "header", r"must believe": "for auditors",
    r"nothing comes of nothing": "once in force is 0 it stays 0",
}
FORBIDDEN = re.compile("|".join(rf"(?P<w{at}>(?<![\w/.-])(?:{word})(?![\w/-]|\.\w))"
                                for at, word in enumerate(WORDS)), re.I)
# Not the document's own words: names in backticks, paths, and the title of document 01.
NAMES = re.compile(r"`[^`]*`|[\w.-]*/[\w./-]*|'The parameter book and its reckoning'")
# What is generated from python/xaropinto/refusals.tsv.
GENERATED = ("refusals: begin", "refusals: end")

# Figures that stand in one file: the file, what it is, and its pattern.
STACK = r"\b\d+ KiB\b|\b(?:33,480|34,472|52,824|62,488|76,648|64,520|23,512)\b"
DISTANCE = r"\b(?:500|250|240|179) n\b|\+ (?:2,850|14,250|1,425|7,125|1,641|8,205|1,371|6,855)\b"
TIME = r"\b\d+(?: to \d+)? (?:seconds|minutes|hours)\b"
ONE_FILE = [(API, "a stack figure", STACK), (CONTRIBUTING, "a time", TIME),
            (ERROR_BOUND, "a constant of the error bound", DISTANCE)]


def lengths():
    """Documents are those of the map, and none is longer than it may be."""
    for page in PAGES:
        where, length = str(page.relative_to(ROOT)), len(text_of(page).splitlines())
        yield where, page in MOST_LINES, "is not in the map of documents"
        most = MOST_LINES.get(page)
        yield where, most is None or length <= most, f"has {length} lines, more than {most}"


def widths():
    """No line outside tables has more than 100 characters, no cell more than 200."""
    for page in PAGES:
        for where, line in lines(page):
            holds = line.startswith("|") or len(line) <= WIDEST_LINE
            yield where, holds, f"has {len(line)} characters"
        for where, _, cell in cells(page):
            yield where, len(cell.strip()) <= WIDEST_CELL, f"a cell has {len(cell)} characters"


def own_lines(page):
    """The lines that a document says itself: no output of a command, no code, nothing generated."""
    shown = generated = False
    for where, line in lines(page):
        generated = (generated or GENERATED[0] in line) and GENERATED[1] not in line
        shown = line.startswith("    ") and (shown or line.startswith("    $ "))
        code = page == HEADER and not line.startswith(("/*", " *"))
        if not generated and not shown and not code:
            yield where, line


def words():
    """Documents and the header's comments have the field's standard words."""
    said = list(WORDS.values())
    for page in [*PAGES, MAN_PAGE, HEADER]:
        for where, line in own_lines(page):
            match = FORBIDDEN.search(NAMES.sub(lambda name: "`" * len(name[0]), line))
            better = said[int(match.lastgroup[1:])] if match else ""
            yield where, match is None, f"says {match and match[0]!r}; better: {better}"


def one_file():
    """Stack figures, the error bound and times stand in one file each."""
    for home, what, pattern in ONE_FILE:
        yield str(home.relative_to(ROOT)), re.search(pattern, text_of(home)), f"lacks {what}"
        for page in [*PAGES, MAN_PAGE, HEADER]:
            for where, line in lines(page) if page != home else ():
                match = re.search(pattern, line)
                yield where, match is None, f"has {what}, {match and match[0]!r}: see {home.name}"


def decisions():
    """Decisions are numbered without a gap, have at most 60 words, and those cited are there."""
    where = "docs/DECISIONS.md"
    entries = [(at, ENTRY.match(text), text) for at, text in points(DECISIONS)]
    known = sorted(int(match[1]) for _, match, _ in entries if match)
    yield where, known == list(range(1, len(known) + 1)), "has a gap, or a number twice"
    for at, match, text in entries:
        count = len(text.split()) - 2
        yield at, match is not None and count <= MOST_WORDS, f"an entry has {count} words"
    for page in PAGES:
        for at, line in lines(page):
            for cited in re.findall(r"\bD(\d+)\b", line):
                yield at, int(cited) in known, f"there is no decision D{cited}"
