"""Captures the LLVM module that the archive of the C API is compiled from.

`rattle build` passes that module to the clang of its toolchain folder. Here it builds the archive
again with a folder of links, whose clang keeps a copy of the module and of its arguments and then
runs the kit's own. What it builds must be proved, and must be the archive to the byte.
"""

import hashlib
import shlex
import shutil
import tempfile
from pathlib import Path

from tests import ROOT
from tests.support.command import run
from tools.rattle import build_command
from tools.targets import FOLDER, BuildError
from tools.targets.kit import clang, run_tool

CRATE = "c_api"
ARCHIVE = ROOT / "target" / "staticlib" / f"lib{CRATE}.a"
MODULE = FOLDER / "module.ll"
BITCODE, WORDS, STAMP = (MODULE.with_suffix(end) for end in (".bc", ".words", ".archive"))
PROVED = "\nlogic=proved "
MOST_SECONDS = 30 * 60
# Its environment is empty, so that all paths are written into it.
STAND_IN = """#!/bin/sh
# Keeps the module that is compiled and the arguments, then runs the kit's clang.
PATH=/usr/bin:/bin
printf '%s\\n' "$@" > {folder}/words
for word in "$@"; do
    case $word in *.bc) cp "$word" {folder}/module.bc ;; esac
done
exec {clang} "$@"
"""


def captured():
    """The module as text; it is captured unless that was done from this archive."""
    if not ARCHIVE.is_file():
        raise BuildError(f"{ARCHIVE.relative_to(ROOT)} is missing: make lib builds it")
    FOLDER.mkdir(parents=True, exist_ok=True)
    sum_of_archive = hashlib.sha256(ARCHIVE.read_bytes()).hexdigest()
    if not STAMP.is_file() or STAMP.read_text(encoding="ascii") != sum_of_archive:
        STAMP.unlink(missing_ok=True)
        capture(sum_of_archive)
        STAMP.write_text(sum_of_archive, encoding="ascii")
    return MODULE.read_text(encoding="utf-8")


def capture(sum_of_archive):
    """Build the archive again, and keep its module.

    The links stand outside the tree, in which `rt` would refuse them.
    """
    with tempfile.TemporaryDirectory() as name:
        folder = Path(name)
        link_toolchain(folder / "toolchain", folder)
        again = folder / ARCHIVE.name
        code, text = run(build_command(CRATE, folder / "toolchain", again), MOST_SECONDS,
                         ROOT / "crates" / CRATE)
        if code or PROVED not in text:
            raise BuildError(f"rattle build of {CRATE} ended with {code}: {text[-2_000:]}")
        if hashlib.sha256(again.read_bytes()).hexdigest() != sum_of_archive:
            raise BuildError(f"{ARCHIVE.name} is another than before: its module is not kept")
        for kept, path in (("module.bc", BITCODE), ("words", WORDS)):
            if not (folder / kept).is_file():
                raise BuildError(f"rattle passed no {kept} to clang")
            shutil.copyfile(folder / kept, path)
    # Passes would change the module: it is written as it is.
    run_tool("clang", "--no-default-config", "-Xclang", "-disable-llvm-passes", "-Werror",
             f"--target={target_captured()}", "-S", "-emit-llvm", "-x", "ir", BITCODE.name, "-o",
             MODULE.name, folder=FOLDER)


def target_captured():
    """The target that clang was asked for."""
    return next(word.partition("=")[2] for word in words_captured() if word.startswith("--target="))


def words_captured():
    """The arguments of clang, as they were."""
    return WORDS.read_text(encoding="utf-8").splitlines()


def link_toolchain(links, kept):
    """A toolchain of links to the kit's; its clang is the stand-in, which keeps the module."""
    stand_in = links / "bin" / clang().name
    for real in (clang().parent.parent, clang().parent):
        folder = links / real.relative_to(clang().parent.parent)
        folder.mkdir(parents=True)
        for each in real.iterdir():
            if each not in (clang().parent, clang()):
                (folder / each.name).symlink_to(each.resolve())
    stand_in.write_text(STAND_IN.format(folder=shlex.quote(str(kept)),
                                        clang=shlex.quote(str(clang()))), encoding="utf-8")
    stand_in.chmod(0o755)
