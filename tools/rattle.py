"""`rattle` itself, over the libraries that stand in the crates' out/: of them `rt ci` left all.

`rt lib` and `rt run` prove each library below once more, since they keep work of their own.
"""

import os
import re
import shutil

from tests import ROOT
from tests.support.progress import crates_listed, crates_needed
from tools.targets.kit import home

LINUX = "x86_64-unknown-linux-gnu"
# The code is to run on every processor of the target.
CPU = ["--cpu", "x86-64"]
CHECKED = ROOT / "target" / "checked"
CRATES = ROOT / "crates"
# For this many jobs at most a check has memory everywhere.
MOST_JOBS = 4


def rlib(crate):
    """Where the library of a crate stands."""
    return CRATES / crate / "out" / "rlib" / f"{crate}.rlib"


def below(crate):
    """The libraries that a crate needs, itself left out."""
    return sorted(crates_needed(crate) - {crate})


def left_by_ci(crate):
    """Whether the libraries below a crate are those of `rt ci`: other commands stamp theirs."""
    return all((rlib(each) / "format").is_file() and not (rlib(each).parent / "stamp").exists()
               for each in below(crate))


def is_program(crate):
    """Whether a crate is a program, and no library."""
    return (CRATES / crate / "src" / "main.rt").is_file()


def of_kit(crate):
    """The libraries of the kit that a crate names."""
    text = (ROOT / "crates.txt").read_text(encoding="utf-8")
    [needs] = re.findall(rf"^{crate}\b[^:\n]*:(.*)", text, re.M)
    return ["std", *(name for name in needs.split() if name not in crates_listed())]


def words_of(crate):
    """What `rattle` is given of a program or a static library, as `rt` gives it."""
    kit = home()
    words = ["--crate-name", crate, "src/main.rt" if is_program(crate) else "src/lib.rt"]
    for name in of_kit(crate):
        words += ["--extern", f"{name}={kit}/rlibs/{name}.rlib"]
    words += ["-L", f"dependency={kit}/rlibs"]
    for name in crates_listed()[crate]:
        words += ["--extern", f"{name}={rlib(name)}"]
    for name in below(crate):
        words += ["-L", f"dependency={rlib(name).parent}"]
    words += ["--antt-project", f"{kit}/rattle/logic/antt-project.json", "--links", f"{crate}="]
    return [*words, *([] if is_program(crate) else ["--crate-type", "staticlib"]), *CPU]


def check_command(crate):
    """Proves a crate from nothing, and keeps what was checked for builds of it."""
    CHECKED.mkdir(parents=True, exist_ok=True)
    shutil.rmtree(CHECKED / crate, ignore_errors=True)
    jobs = str(min(MOST_JOBS, os.cpu_count() or 1))
    return [f"{home()}/bin/rattle", "check", *words_of(crate), "--logic-built",
            f"{home()}/logic_built", "--jobs", jobs, "-o", str(CHECKED / crate)]


def build_command(crate, toolchain, built):
    """Builds it by the clang of a toolchain: of what was checked so, or over what `rt` keeps."""
    if (CHECKED / crate).is_dir():
        proved = ["--crate-checked", str(CHECKED / crate)]
    else:
        proved = ["--logic-built", f"{home()}/logic_built", "--incremental", "out/incremental"]
    return [f"{home()}/bin/rattle", "build", *words_of(crate), *proved, "--toolchain",
            str(toolchain), "--backend", "llvm", "-o", str(built)]


def link_command(made, program):
    """Links what was built of a program, as `rt` does."""
    return [f"{home()}/bin/rattle-link", "--target", LINUX, "--toolchain", f"{home()}/toolchain",
            "-o", str(program), str(made), f"{home()}/c/libos_c.a", f"{home()}/c/liblibc_c.a"]
