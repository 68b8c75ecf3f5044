"""The documents as text, and what their paths mean; a broken copy can take a document's place."""

import contextlib
import functools
import os
import re
import subprocess
from pathlib import Path

from tests import ROOT

README, CONTRIBUTING, CHANGELOG = (ROOT / f"{name}.md" for name in
                                   ("README", "CONTRIBUTING", "CHANGELOG"))
DOCS = ROOT / "docs"
LANDINGS = DOCS / "landings"
INSTALL = ROOT / "packaging" / "INSTALL.md"
(API, DECISIONS, ERROR_BOUND, METHOD, TRACEABILITY, VERIFICATION) = (
    DOCS / f"{name}.md" for name in
    ("API", "DECISIONS", "ERROR_BOUND", "METHOD", "TRACEABILITY", "VERIFICATION"))
# Records of what was spelled or designed otherwise: they name what is gone.
RECORDS = {DOCS / "PORT.md", DOCS / "DESIGN-PASS.md", DOCS / "LOOK-BACK.md"}
PAGES = [README, CONTRIBUTING, CHANGELOG, *sorted(set(DOCS.glob("*.md")) - RECORDS),
         *sorted(LANDINGS.glob("*.md")), INSTALL]
# Directories of what is built or kept, and of books; the file that marks an environment of Python.
NOT_READ = {".git", "target", "out", "differing", "samples", "__pycache__"}
ENVIRONMENT = "pyvenv.cfg"
# Texts that stand in for those of files while a rule is tried on a broken copy.
BROKEN = {}


@functools.cache
def text_on_disk(path):
    """The text of a file."""
    return path.read_text(encoding="utf-8", errors="replace")


def text_of(path):
    """The text of a file, or of the broken copy in its place."""
    return BROKEN[path] if path in BROKEN else text_on_disk(path)


@contextlib.contextmanager
def broken(path, old, new):
    """While this lasts, a file reads as if its first `old` were `new`."""
    text = text_on_disk(path)
    if old not in text:
        raise ValueError(f"{path.relative_to(ROOT)} has no {old!r} to break")
    BROKEN[path] = text.replace(old, new, 1)
    try:
        yield
    finally:
        del BROKEN[path]


def text_at(path):
    """The text of a file, or of all files in a directory."""
    files = [path] if path.is_file() else sorted(file for file in path.rglob("*") if file.is_file())
    return "\n".join(text_of(file) for file in files)


def lines(page):
    """The lines of a file, each with its place."""
    name = page.relative_to(ROOT)
    for number, line in enumerate(text_of(page).splitlines(), 1):
        yield f"{name}:{number}", line


def matches(pattern, pages=None):
    """Every match of a pattern in the documents, with its place."""
    for page in pages or PAGES:
        for where, line in lines(page):
            for match in re.finditer(pattern, line):
                yield where, match


def found(path):
    """What a path means, from the root or below crates/, with or without .antt; None if nothing."""
    forms = [base / (path + end) for base in (ROOT, ROOT / "crates") for end in (".antt", "")]
    return next((form for form in forms if form.exists()), None)


def defined(name, at):
    """Whether a file or directory defines a name."""
    name = re.escape(name) + r"(?![\w′-])"
    form = (rf"^\s*(?:(?:pub|abbrev|unfoldable) )*(?:{name} :|record {name})"
            rf"|\b(?:fn|const|struct|enum) {name}")
    return re.search(form, text_at(at), re.M) is not None


def cells(page):
    """The cells of a page's tables: the place, the heading of the column, and the text."""
    headings = []
    for where, line in lines(page):
        row = re.split(r"(?<!\\)\|", line)[1:-1] if line.startswith("|") else []
        for heading, cell in zip(headings, row):
            yield where, heading, cell
        headings = (headings or row) if row else []


def points(page):
    """The points of a page's lists, each with its further lines: the place, and the text."""
    held = None
    for where, line in [*lines(page), ("", "")]:
        if held and line.startswith("  "):
            held = (held[0], held[1] + line[1:])
            continue
        if held:
            yield held
        held = (where, line) if line.startswith("- ") else None


def files_of_git():
    """The files that git has or does not ignore; None if it cannot say."""
    command = ["git", "ls-files", "-z", "--cached", "--others", "--exclude-standard"]
    try:
        listed = subprocess.run(command, cwd=ROOT, capture_output=True, check=True)
    except (OSError, subprocess.CalledProcessError):
        return None
    return [ROOT / os.fsdecode(name) for name in listed.stdout.split(b"\0") if name]


def files_on_disk():
    """All files but those of directories that are not read."""
    for folder, folders, files in os.walk(ROOT):
        folders[:] = set(folders) - NOT_READ
        yield from (Path(folder, name) for name in files)


@functools.cache
def texts():
    """The files of the tree that people write."""
    files = (files_of_git() if (ROOT / ".git").exists() else None) or list(files_on_disk())
    environments = {file.parent for file in files if file.name == ENVIRONMENT}

    def apart(file):
        return (NOT_READ.intersection(file.relative_to(ROOT).parts)
                or environments.intersection(file.parents) or file.name in ("stdin", "stdout"))

    return [file for file in sorted(files) if file.is_file() and not apart(file)]
