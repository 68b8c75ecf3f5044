"""Rules on the names in the documents: paths, links, edits, definitions, functions, parts.

A rule makes items: where, whether it holds, what is wrong if not.
"""

import re

from tests import ROOT
from tests.gate import PARTS
from tests.repository.document_form import NOTES
from tests.repository.pages import (API, CONTRIBUTING, METHOD, TRACEABILITY, VERIFICATION, cells,
                                    defined, found, lines, matches, points, text_at, text_of, texts)
from tests.support.checker import IDENTITY, NOT_TRIED, checker_line, tried

# In the tables of these pages a name stands after the path or the crate that has it.
NAMING = [TRACEABILITY, METHOD, CONTRIBUTING]
LISTED = re.findall(r"^(\w+)\b[^:\n]*:(.*)",
                    (ROOT / "crates.txt").read_text(encoding="utf-8"), re.M)
CRATES = [crate for crate, _ in LISTED]
OUTSIDE = {word for _, needs in LISTED for word in needs.split()} - set(CRATES)
WRAPPER = "xaropinto"
CMAKE = ROOT / "packaging" / "xaropinto-config.cmake"

# A path from the root, or below crates/ if it leads to definitions, proofs, code or edits.
PATH = (r"(?<![\w./-])(?:(?:crates|docs|reference|tests|tools|samples|include|bindings|python"
        r"|packaging)/|[a-z]\w*/(?:specs|proofs|src|must-fail)\b)[\w+./-]*")
# A directory and after a colon files in it.
LISTING = r"`([\w/]+/(?:specs|proofs))`: ([A-Z]\w+(?:, [A-Z]\w+)*)"
EDIT = rf"(?<![\w./-])({'|'.join(CRATES)})/(\w+_\w+)\b(?!/)"
# A file of definitions or proofs; spans before one in brackets; what the names of a cell go by.
FILE = r"(?:crates/)?[a-z]\w*/(?:specs|proofs)/[\w+/]+(?:\.antt)?"
BRACKETED = re.compile(rf"((?:`[^`]+`(?:, | and )?)+) \(({FILE})\)")
TOKEN = re.compile(rf"`?(?P<path>{FILE})`?|`(?P<span>[^`]+)`"
                   rf"|\b(?P<crate>{'|'.join(CRATES)})(?= `)|\b(?P<file>[A-Z]\w+)(?= [`(])")
NAME = re.compile(r"(?:[A-Z]\w*::)?([\w'′-]+)")
# How the paragraph of VERIFICATION begins that names crates whose definitions nobody needs to read.
STEPS = "**Steps of the code**"
# What only one machine has; in this form the pattern does not find itself.
MACHINE = re.compile(r"/(?:work|tmp|root|home|opt|farm)/")
# The requests of document 02, and what the note of each has.
REQUESTS = [f"W-{number}" for number in range(201, 215)]
TIME = re.compile(r"^\*\*Time of the check\.\*\* \d+ s before, \d+ s after", re.M)


def owned(text):
    """The spans of a cell, each with the place before it; and each place that a file name makes.

    A place is a path, or a crate's source. A bare file name stands right before a span or a
    bracket; it is in the directory of the path before it.
    """
    place = ""
    for token in TOKEN.finditer(text):
        folder = re.match(r".*(?:specs|proofs)/", place)
        if token["path"] or token["crate"]:
            place = token["path"] or token["crate"] + "/src"
        elif token["file"] and folder:
            place = folder[0] + token["file"]
            yield place, ""
        elif token["span"] and place:
            yield place, token["span"]


def named(where, place, span):
    """The item that a place defines a span that is a name; without a span, that it is there."""
    at, name = found(place), NAME.fullmatch(span)
    if not span:
        return where, at is not None, f"there is no {place}"
    # A place that is not there has an item of its own.
    holds = at is None or name is None or defined(name[1], at)
    return where, holds, f"{place} does not define {span}"


def paths():
    """Paths in the documents are there."""
    for where, match in matches(PATH):
        path = match[0].rstrip("./-")
        yield where, found(path) is not None, f"there is no {path}"
    for where, match in matches(LISTING):
        for path in [f"{match[1]}/{file}" for file in match[2].split(", ")]:
            yield where, found(path) is not None, f"there is no {path}"


def anchors(page):
    """The anchors that the headings of a page make."""
    headings = re.findall(r"^#+ (.*)", text_of(page), re.M)
    return {re.sub(r"[^\w -]", "", heading.lower()).replace(" ", "-") for heading in headings}


def links():
    """Links of the documents lead to a file, and to a heading in it."""
    for where, match in matches(r"\]\((?!\w+:)([^)#\s]+)(?:#([^)]*))?"):
        target = ((ROOT / where.rpartition(":")[0]).parent / match[1]).resolve()
        holds = target.exists() and (match[2] is None or match[2] in anchors(target))
        yield where, holds, f"the link to {match[1]}#{match[2] or ''} leads nowhere"


def edits():
    """Must-fail edits in the documents are there, and TRACEABILITY names every one."""
    for where, match in matches(EDIT):
        edit = ROOT / "crates" / match[1] / "must-fail" / f"{match[2]}.edit"
        yield where, edit.is_file(), f"there is no edit {match[0]}"
    listed = {match[0] for _, match in matches(EDIT, [TRACEABILITY])}
    for edit in sorted((ROOT / "crates").glob("*/must-fail/*.edit")):
        label = f"{edit.parent.parent.name}/{edit.stem}"
        yield "docs/TRACEABILITY.md", label in listed, f"does not name the edit {label}"


def notes():
    """Every request has a note, with the time of the check before and after it."""
    noted = [note.stem for note in NOTES]
    yield "docs/landings", noted == REQUESTS, "does not have a note for each request"
    for note in NOTES:
        holds = TIME.search(text_of(note)) is not None
        yield f"docs/landings/{note.name}", holds, "lacks the check's time before and after"


def names():
    """Names beside a path or a crate are defined there."""
    for where, match in matches(BRACKETED):
        for span in re.findall("`([^`]+)`", match[1]):
            yield named(where, match[2], span)
    for page in NAMING:
        pieces = [(where, heading + " " + BRACKETED.sub("", cell))
                  for where, heading, cell in cells(page)]
        pieces += [(where, BRACKETED.sub("", text)) for where, text in points(page)]
        for where, text in pieces:
            for place, span in owned(text):
                yield named(where, place, span)


def functions():
    """Functions named as CRATE::NAME are in the crate or the Rust wrapper, or targets of CMake."""
    targets = re.findall(r"add_library\((\S+)", CMAKE.read_text(encoding="utf-8"))
    for where, match in matches(r"(?<![\w:])([a-z]\w*)::([a-z]\w*)"):
        if match[1] not in OUTSIDE and match[0] not in targets:
            folder = "bindings/rust" if match[1] == WRAPPER else f"crates/{match[1]}"
            holds = defined(match[2], ROOT / folder / "src")
            yield where, holds, f"there is no function {match[0]}"


def heads(crate, name=r"\w+", form=r"pub .*\bfn"):
    """The heads of a crate's public functions, from the name to the body's brace."""
    source = text_at(ROOT / "crates" / crate / "src")
    return re.finditer(rf"^ *{form} (?P<name>{name})\b(?:.*\{{$|(?s:.*?)^ *\{{$)", source, re.M)


def calls():
    """Calls of API's table are public and have no requires; nor has any call from C."""
    for where, match in matches(r"^\| `(\w+)::(\w+)", [API]):
        head = next(heads(match[1], match[2]), None)
        call = f"{match[1]}::{match[2]}"
        yield where, head is not None, f"{call} is no public function"
        yield where, head is None or "requires" not in head[0], f"{call} has a requires"
    for crate in CRATES:
        for head in heads(crate, form=r'pub extern "C" fn'):
            holds = "requires" not in head[0]
            yield f"crates/{crate}", holds, f"{crate}::{head['name']} has a requires"


def parts():
    """Parts of the gate are those of VERIFICATION's list, in their order."""
    listed = [match[1] for _, match in matches(r"^- \*\*(.+?)\*\*", [VERIFICATION])]
    due = [part.name for part in PARTS]
    more = [name for name in listed if name not in due]
    less = [name for name in due if name not in listed]
    yield "docs/VERIFICATION.md", listed == due, f"has the parts {more} and leaves out {less}"


def counts():
    """Line counts of VERIFICATION are those of the files."""
    for where, match in matches(r"^- ([\w+./-]+/[\w+.-]+), ([\d,]+): ", [VERIFICATION]):
        at = found(match[1])
        file = at is not None and at.is_file()
        held = sum(1 for line in text_of(at).splitlines() if line.strip()) if file else "no file"
        holds = held == int(match[2].replace(",", ""))
        yield where, holds, f"{match[1]} is {held} and not {match[2]}"


def definitions():
    """Every file of definitions is on VERIFICATION's list, or among its steps of the code."""
    steps = next(text for text in text_of(VERIFICATION).split("\n\n") if text.startswith(STEPS))
    crates = set(re.findall(r"`(\w+)`", steps))
    for file in sorted((ROOT / "crates").glob("*/specs/**/*.antt")):
        path = str(file.relative_to(ROOT))
        holds = path in text_of(VERIFICATION) or file.relative_to(ROOT).parts[1] in crates
        yield "docs/VERIFICATION.md", holds or file.stem == "Lib", f"does not name {path}"


def checkers():
    """Checkers are named as `rt version` prints them, and the gate points out one that is not."""
    where = "docs/CHECKERS.txt"
    for identity in tried():
        holds = IDENTITY.fullmatch(identity) is not None and tried().count(identity) == 1
        yield where, holds, f"{identity!r} is no identity, or stands twice"
        holds = NOT_TRIED not in checker_line(identity)
        yield where, holds, f"the gate does not know {identity!r}"
    holds = NOT_TRIED in checker_line("another")
    yield where, holds, "the gate passes over one that was not tried"


def machines():
    """Documents, sources and tools name no path of a machine."""
    for file in texts():
        for where, line in lines(file):
            yield where, not MACHINE.search(line), "names a path of a machine"
