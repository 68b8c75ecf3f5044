"""The captured module for another target: no instruction is changed, but for two where an address
has 32 bits: one that takes an address as a number, and one that loads a pair with an address.

What changes is the data layout and the triple; what every function says of processor and stack;
which functions are inlined; and on the calls of the C API what belongs to x86-64's System V
convention.

In the module a call takes the place of its reply as its first pointer, and a struct that is passed
by value as a pointer to a copy. WebAssembly's C convention is the same. On Windows and arm64 the
calls have names of their own, under which adapters.py calls them.
"""

import re
from typing import NamedTuple

from tools.targets import BuildError
from tools.targets.kit import run_tool

# What `rattle` says of every function; before it stands that some are to be inlined always.
PROBED = 'nounwind "probe-stack"="inline-asm" "stack-probe-size"="3072"'
FUNCTION_ATTRIBUTES = f'{PROBED} "target-cpu"="x86-64"'
ATTRIBUTES_LINE = re.compile(rf"^(?P<group>attributes #\d+ = {{ (?:alwaysinline )?)"
                             rf"{re.escape(FUNCTION_ATTRIBUTES)} }}$", re.M)
TARGET_LINE = re.compile(r"^target (?:datalayout|triple) = .*$", re.M)
CALL_LINE = r"^define (?P<reply>.*) @(?P<name>{names})\((?P<arguments>.*)\) #0 \{{$"
INNER_LINE = r'^(define internal .* @"(?:{names})(?:::<#[0-9a-f]+>)?"\(.*\) #0) \{{$'
# The address of a pointer as a number; the second form extends one that has fewer bits.
ADDRESS, EXTENDED = " = ptrtoaddr ptr ", " = ptrtoint ptr "
# A truth value and an address, loaded as one: the address stands at byte 8, and where addresses
# have 32 bits the pair's own layout has it at byte 4. So each is loaded from its place.
PAIR_LINE = re.compile(
    r"^  (?P<pair>%\w+) = load \{ i8, ptr \}, ptr (?P<at>%\w+), align 8$", re.M)
PARTS_LINES = r"""  \g<pair>.tag = load i8, ptr \g<at>, align 1
  \g<pair>.at = getelementptr i8, ptr \g<at>, i64 8
  \g<pair>.address = load ptr, ptr \g<pair>.at, align 8
  \g<pair>.half = insertvalue { i8, ptr } poison, i8 \g<pair>.tag, 0
  \g<pair> = insertvalue { i8, ptr } \g<pair>.half, ptr \g<pair>.address, 1"""
COPIED = re.compile(r" byval\(\[\d+ x i8\]\)")
TWO_WORDS = "{ i64, i64 }"
PROVED = "proved_"


class Target(NamedTuple):
    """A target of the module: its folder, its triple, and what is said of every function.

    With adapters, the calls are the adapters', and the module's have other names and are, where
    the target knows that, hidden. A reply of two words is returned in two registers: by which
    convention, where the target's own does not do so. Functions may be named that are inlined
    wherever they are called. A narrow target has addresses of 32 bits.
    """

    name: str
    triple: str
    attributes: str
    adapters: bool = False
    hidden: bool = False
    two_words: str = ""
    inlined: tuple[str, ...] = ()
    narrow: bool = False


# WebAssembly has a stack that traps at its end. At its level of optimisation little is inlined: the
# year of a cell, and what is constant for all of them, would be called each time. A generic
# function is named once for each type that it is called at.
WASM32 = Target("wasm32", "wasm32-unknown-unknown", "nounwind", narrow=True, inlined=(
    "cell::Cell::next_year", "settings::ByPeriod::at", "settings::ByPeriod::at",
    "settings::Kind::number", "settings::weight", "settings_columns::Columns::new",
    "settings_columns::columns_of", "settings_columns::five_columns",
    "settings_columns::persistency_column", "settings_columns::same_mortality",
    "settings_columns::survival_column"))
# Windows protects nothing below the stack pointer and unwinds by tables; it has its own probe of
# the stack.
WINDOWS = Target("windows-x86_64", "x86_64-pc-windows-gnu",
                 'noredzone nounwind uwtable "target-cpu"="x86-64"', adapters=True,
                 two_words="x86_64_sysvcc")
ARM64 = Target("linux-arm64", "aarch64-unknown-linux-gnu", PROBED, adapters=True, hidden=True)
TARGETS = (WASM32, WINDOWS, ARM64)


def retarget(module, target, names):
    """The text of the module for a target; `names` are the calls of the C API."""
    lines = iter(target_lines(target.triple))
    module = changed(TARGET_LINE, lambda found: next(lines), module, 2)
    module = changed(ATTRIBUTES_LINE, rf"\g<group>{target.attributes} }}", module, 2)
    if target.narrow:
        module = PAIR_LINE.sub(PARTS_LINES, module.replace(ADDRESS, EXTENDED))
    inner = re.compile(INNER_LINE.format(names="|".join(target.inlined)), re.M)
    module = changed(inner, r"\1 alwaysinline {", module, len(target.inlined))
    pattern = re.compile(CALL_LINE.format(names="|".join(names)), re.M)
    return changed(pattern, lambda found: call_line(found, target), module, len(names))


def changed(pattern, new, text, due):
    """The text with each place of the pattern changed; there must be as many as are due."""
    text, count = re.subn(pattern, new, text)
    if count != due:
        raise BuildError(f"{pattern!r} is found {count} times in the module, {due} are due")
    return text


def target_lines(triple):
    """The lines by which the kit's clang names data layout and triple."""
    written = run_tool("clang", "--no-default-config", f"--target={triple}", "-S", "-emit-llvm",
                       "-x", "c", "/dev/null", "-o", "-")
    lines = TARGET_LINE.findall(written)
    if len(lines) != 2:
        raise BuildError(f"clang names no data layout of {triple}")
    return lines


def call_line(found, target):
    """The line on which a call of the C API begins."""
    if not target.adapters:
        return found[0]
    hidden = "hidden " if target.hidden else ""
    convention = f"{target.two_words} " if found["reply"] == TWO_WORDS and target.two_words else ""
    # The caller makes the copy, and passes where it is.
    arguments = COPIED.sub("", found["arguments"])
    return (f"define {hidden}{convention}{found['reply']} @{PROVED}{found['name']}({arguments})"
            " #0 {")


def two_word_calls(module, names):
    """The calls that return their reply in two registers."""
    pattern = re.compile(CALL_LINE.format(names="|".join(names)), re.M)
    return {found["name"] for found in pattern.finditer(module) if found["reply"] == TWO_WORDS}
