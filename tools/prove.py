"""Proves and builds an archive or a program and shows how far it is; `rt` prints to a file.

It is built again only where something that it is made of has changed since. A program is run on its
file stdin, and must write what its file stdout has.
"""

import argparse
import hashlib
import os
import shutil
import sys
from pathlib import Path

from tests import ROOT
from tests.support.command import run, run_beside
from tests.support.progress import Line, Work, crates_built, crates_listed, crates_needed
from tools.rattle import (CHECKED, CPU, CRATES, build_command, check_command, left_by_ci,
                          link_command)
from tools.targets.kit import home

# For the crate and all that it needs, on a slow machine.
MOST_SECONDS = 90 * 60
INTERRUPTED = 130
# What `rt` is asked for: the file that it leaves in the crate's out/, and where that is put.
PLACES = {"lib": ("lib{}.a", ROOT / "target" / "staticlib"), "run": ("{}", ROOT / "target" / "bin")}
STATES = ROOT / "target" / "state"
# Of all crates, as they stood when `rt ci` passed last.
OF_CI = STATES / "ci"
PARTS, READ = ("src", "specs", "proofs"), ("args", "stdin", "stdout")
# In a crate's folder; what a program is asked to write goes to a file.
IN_FOLDER = 'cd "crates/$1" && shift && exec "$@"'
ON_STDIN = 'cd "crates/$1" && shift && written=$1 && shift && exec "$@" < stdin > "$written"'


def files_of(crate, verb):
    """The files of a crate that a build reads."""
    folder = CRATES / crate
    yield from (path for part in PARTS for path in sorted((folder / part).rglob("*.*")))
    yield from (folder / name for name in READ if verb == "run" and (folder / name).is_file())


def words_of(crate):
    """The words that a program is started with."""
    path = CRATES / crate / "args"
    return path.read_text(encoding="utf-8").splitlines() if path.is_file() else []


def state_of(verb, *crates):
    """What is built of crates is made of this, in one sum: checker, command, and all files."""
    state = hashlib.sha256(repr((run(["rt", "version"], MOST_SECONDS), verb, CPU)).encode())
    listed = crates_listed()
    for each in sorted(set().union(*map(crates_needed, crates))):
        state.update(f"{each}: {listed[each]}\n".encode())
        for path in files_of(each, verb if each in crates else "lib"):
            held = path.read_bytes()
            state.update(f"{path.relative_to(ROOT)} {len(held)}\n".encode() + held)
    return state.hexdigest()


def state_of_all():
    """The state of all crates."""
    return state_of("ci", *crates_listed())


def has_state(path, state):
    """Whether a file names this state."""
    return path.is_file() and path.read_text(encoding="ascii") == state


def commands_of(verb, crate, written):
    """What is run, one after the other, in the crate's folder.

    Right after `rt ci` no library below is proved again.
    """
    def here(*command, script=IN_FOLDER):
        return ["sh", "-c", script, "sh", crate, *command]

    if not (has_state(OF_CI, state_of_all()) and left_by_ci(crate)):
        shutil.rmtree(CHECKED / crate, ignore_errors=True)
        if verb == "run":
            return [here(written, "rt", "run", *CPU, "--", *words_of(crate), script=ON_STDIN)]
        return [here("rt", "lib", *CPU)]
    out = CRATES / crate / "out"
    built = out / (f"{crate}.o" if verb == "run" else f"lib{crate}.a")
    linked = [here(*link_command(built, out / crate)),
              here(written, f"out/{crate}", *words_of(crate), script=ON_STDIN)]
    return [here(*check_command(crate)),
            here(*build_command(crate, home() / "toolchain", built)),
            *(linked if verb == "run" else [])]


def prove(verb, crate, written):
    """The exit code of the first command that fails, and what all printed."""
    work, line = Work(crates_needed(crate)), Line(sys.stderr)
    work.proved |= crates_built() & work.crates

    def watch(lines):
        work.read(each for some in lines.values() for each in some)
        line.show(lambda: f"proving {crate}: {work.words()}")

    printed = ""
    try:
        for command in commands_of(verb, crate, written):
            [(_, code, text, _)] = run_beside([command], MOST_SECONDS, watch)
            printed += text
            if code:
                break
    finally:
        line.clear()
    return code, printed


def put(verb, crate, written):
    """Put what was built where it belongs; why it does not, where a program wrote otherwise."""
    folder = CRATES / crate
    if verb == "run" and Path(written).read_bytes() != (folder / "stdout").read_bytes():
        return f"{crate} wrote to {written} what its file stdout does not have\n"
    name, place = PLACES[verb]
    place.mkdir(parents=True, exist_ok=True)
    beside = place / f"{name.format(crate)}.new"
    shutil.copy(folder / "out" / name.format(crate), beside)
    os.replace(beside, beside.with_suffix(""))
    return ""


def build(verb, crate):
    """Build it unless it stands there: exit code, and what was printed."""
    name, place = PLACES[verb]
    built, built_of = place / name.format(crate), STATES / f"{verb}-{crate}"
    state = state_of(verb, crate)
    if built.is_file() and has_state(built_of, state):
        return 0, f"{built.name} is built of what stands here\n"
    STATES.mkdir(parents=True, exist_ok=True)
    built_of.unlink(missing_ok=True)
    written = str(STATES / f"{crate}.written")
    code, text = prove(verb, crate, written)
    if not code:
        trouble = put(verb, crate, written)
        code, text = int(bool(trouble)), text + trouble
    # What was changed meanwhile may not be in it.
    if not code and state_of(verb, crate) == state:
        built_of.write_text(state, encoding="ascii")
    return code, text


def main():
    """Build; the exit code."""
    parser = argparse.ArgumentParser(description=__doc__)
    parser.add_argument("verb", choices=tuple(PLACES), help="what `rt` is asked for")
    parser.add_argument("crate", help="the crate to be proved, with all that it needs")
    parser.add_argument("log", type=Path, help="the file for what `rt` prints")
    wanted = parser.parse_args()
    wanted.log.parent.mkdir(parents=True, exist_ok=True)
    code, text = build(wanted.verb, wanted.crate)
    wanted.log.write_text(text, encoding="utf-8")
    if code:
        print(text, end="")
    return 1 if code else 0


if __name__ == "__main__":
    try:
        sys.exit(main())
    except KeyboardInterrupt:
        sys.exit(INTERRUPTED)
