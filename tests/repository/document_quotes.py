"""Rules on what the documents quote: commands with their output, sources, names in backticks.

A rule makes items: where, whether it holds, what is wrong if not. Commands run in a directory of
their own, in which `samples` is the repository's, with `xaropinto` and `make list` as they stand.
"""

import functools
import os
import re
import subprocess
import sys
import tempfile
from pathlib import Path

from tests import ROOT
from tests.repository.pages import PAGES, cells, found, lines, matches, text_of, texts
from tests.support.openpyxl_path import openpyxl_folder

sys.path.insert(0, str(ROOT / "python"))

import xaropinto  # noqa: E402
from xaropinto.refusals import refusals  # noqa: E402

MOST_SECONDS = 60
# The commands of the documents, as scripts: the package's own, and make's recipe of `list`.
PACKAGES = f"{ROOT}/python:{openpyxl_folder()}"
STAND_INS = {
    "xaropinto": f'PYTHONPATH={PACKAGES} exec {sys.executable} -m xaropinto "$@"',
    "make": f'[ "$*" = list ] && exec {ROOT}/target/bin/listing_main < samples/one_record.book',
}
PROMPT = "    $ "
# A span that is a command or an option of the linker, and not a name or a piece of a file.
COMMAND = re.compile(r"(?:make|xaropinto|rt|python3|git|gcc|cc|cargo|pip|grep|objdump|man"
                     r"|ldconfig)\b|-Wl,")
SPAN = re.compile(r"(?<!`)`([^`]+)`(?!`)")
# A function of a crate, which another rule finds in its source.
FUNCTION = re.compile(r"[a-z]\w*::[a-z]\w*")
REFUSAL = re.compile(r"(?:refused |Refused\()?(\d+)[ ,]+\d+\)?")
# Endings of files named xaropinto.
ENDINGS = "py|h|book|dll|lib|html|wasm|cmd"
# Columns that explain notation by letters of their own.
NOTATION = ("notation", "read")
# A path, and a block that repeats the file.
READS = re.compile(r"^([\w./-]+) reads:\n\n((?:    .*\n)+)", re.M)
# One path or two, and a block of lines that are in these files.
FROM = re.compile(r"\bFrom\s+([\w./-]+)(?:\s+and\s+([\w./-]+))?:\n\n((?:    .*\n)+)")


def shown_in(page):
    """The commands of a page in their order: the place, the command, the output shown."""
    held = []
    for where, line in lines(page):
        if line.startswith(PROMPT):
            held.append((where, [line[len(PROMPT):]], []))
        elif held and line.startswith("    "):
            _, command, output = held[-1]
            (command if command[-1].endswith("\\") else output).append(line[4:])
        else:
            yield from held
            held = []
    yield from held


@functools.cache
def outputs(commands):
    """What each of these commands prints, run one after the other in one directory."""
    printed = []
    with tempfile.TemporaryDirectory() as folder:
        for name, script in STAND_INS.items():
            path = Path(folder, name)
            path.write_text(f"#!/bin/sh\n{script}\n", encoding="utf-8")
            path.chmod(0o755)
        Path(folder, "samples").symlink_to(ROOT / "samples")
        # The library is the one beside the package, whatever the caller's environment names.
        environment = dict(os.environ)
        environment.pop("XAROPINTO_LIBRARY", None)
        environment["PATH"] = f"{folder}:{environment['PATH']}"
        for command in commands:
            run = subprocess.run(["sh", "-c", command], cwd=folder, env=environment, check=False,
                                 stdout=subprocess.PIPE, stderr=subprocess.STDOUT,
                                 timeout=MOST_SECONDS)
            printed.append(run.stdout.decode("utf-8", "replace"))
    return printed


def commands():
    """Commands shown with their output give that output; lines may be wrapped."""
    for page in PAGES:
        shown = list(shown_in(page))
        ran = outputs(tuple("\n".join(command) for _, command, _ in shown)) if shown else []
        for (where, command, output), printed in zip(shown, ran):
            holds = " ".join(output).split() == printed.split()
            yield where, holds, f"{command[0]} prints {printed[:200]!r}"


def programs():
    """Verbs of xaropinto, targets of make and modules of Python in the documents exist."""
    usage = outputs(("xaropinto --help",))[0]
    verbs = re.findall(r"^    (\w[\w-]*)", usage, re.M)
    for where, match in matches(r"(?:`|^ {4}(?:\$ )?|&& )xaropinto ([a-z][\w-]*)"):
        yield where, match[1] in verbs, f"xaropinto has no verb {match[1]}"
    known = re.findall(r"^([a-z][\w-]*):(?!=)", text_of(ROOT / "Makefile"), re.M)
    for where, match in matches(r"(?:`|^ {4}(?:\$ )?)make ([a-z][\w-]*)"):
        yield where, match[1] in known, f"the Makefile has no target {match[1]}"
    for where, match in matches(r"python3 -m ((?:tests|tools)[\w.]*)"):
        path = ROOT / (match[1].replace(".", "/") + ".py")
        yield where, path.is_file(), f"there is no module {match[1]}"


def python_names():
    """Names of the Python package in the documents are there; the endings of files are none."""
    for where, match in matches(rf"(?<![\w/.-])xaropinto\.(?!(?:{ENDINGS})\b)([A-Za-z]\w+)"):
        holds = (ROOT / "python" / "xaropinto" / f"{match[1]}.py").is_file()
        holds = holds or hasattr(xaropinto, match[1])
        yield where, holds, f"the package has no {match[0]}"


def squeezed(text):
    """A text with single blanks."""
    return " ".join(text.split())


@functools.cache
def sources():
    """All that people write but the documents and these rules, as one text."""
    apart = {*PAGES, *Path(__file__).parent.glob("*.py")}
    return "\n".join(squeezed(text_of(file)) for file in texts() if file not in apart)


@functools.cache
def names():
    """The names in the sources, with and without the hyphens of a theorem's name."""
    return {*re.findall(r"[\w′]+", sources()), *re.findall(r"[\w′-]+", sources())}


def in_sources(piece):
    """Whether the sources have a name, or a piece of text."""
    return piece in names() if re.fullmatch(r"[\w′-]+", piece) else piece in sources()


def quoted(span):
    """Whether a span in backticks is a path, a command, a refusal, a number, or in the sources."""
    refusal = REFUSAL.fullmatch(span)
    if refusal:
        return int(refusal[1]) in refusals()
    edit = span.replace("/", "/must-fail/") + ".edit"
    if not re.search(r"[^\W\d]", span):
        return True
    if COMMAND.match(span) or FUNCTION.match(span) or found(edit) or found(span.rstrip("/")):
        return True
    pieces = [squeezed(piece.replace("\\|", "|")) for piece in span.split("...")]
    return all(in_sources(piece) for piece in pieces if piece)


def spans():
    """Names and fragments in backticks are in the sources."""
    for page in PAGES:
        explained = {where for where, heading, _ in cells(page) if heading.strip() in NOTATION}
        for where, line in lines(page):
            if where in explained or line.startswith("    "):
                continue
            for span in SPAN.findall(line):
                yield where, quoted(span), f"nothing in the tree has `{span}`"
        for where, heading, cell in cells(page):
            if where in explained and heading.strip() not in NOTATION:
                for span in SPAN.findall(cell):
                    yield where, quoted(span), f"nothing in the tree has `{span}`"


def files_shown():
    """Files that a document repeats read as it says."""
    for page in PAGES:
        for match in READS.finditer(text_of(page)):
            block = "".join(line[4:] for line in match[2].splitlines(keepends=True))
            file = found(match[1])
            holds = file is not None and text_of(file).strip() == block.strip()
            yield str(page.relative_to(ROOT)), holds, f"{match[1]} reads otherwise"


def fragments():
    """Lines that a document shows from files are in these."""
    for page in PAGES:
        for match in FROM.finditer(text_of(page)):
            held = [squeezed(line) for path in match.groups()[:2] if path
                    for line in text_of(found(path)).splitlines()]
            for line in match[3].splitlines():
                holds = squeezed(line) in held
                yield str(page.relative_to(ROOT)), holds, f"nothing there reads {line.strip()!r}"
