#!/usr/bin/env python3
"""Spells the repository's own definitions and lemmas as today's Rattle does: words in snake case.

usage: respell.py [--list]     at the top of the repository

Names that the files of specs/ and proofs/ declare: a definition, a lemma, a field of a record, a
constructor. `readU32` becomes `read_u32` and `under-positive` becomes `under_positive`; types keep
their capitals. Names of functions, constants, strings, inputs and outputs stay. In .rt files
contracts and `ghost use` lines are turned, in must-fail edits the texts of such lines. A name that
a file takes from the library stays as the library has it.
"""
import collections
import glob
import re
import sys

WORD = r"[^\s(){}.;,@\"«»\[\]\\]+"
DECLARED = re.compile(
    r"^\s*(?:(?:unfoldable|abbrev|pub|data|record|ruleset)\s+)*(%s)(?:\s+[({].*)? :(?=\s|$)" % WORD,
    re.M
)
ANSWERS = re.compile(r"^(?:abbrev )?(%s) : tie\.(?:Need|invariant|decreases)" % WORD, re.M)
USES = re.compile(r"use\s+([^\s;{]+?)\.\{([^}]*)\}", re.S)
# Names that would fall together with others, by hand.
OTHER = {
    "andThen": "and_then",
    "chain-links": "chain_links_lem",
    "claims-at": "claims_column_at",
    "claims-sum": "claims_sum_lem",
    "claimsWeight-most": "claims_weight-most",
    "costWeight-most": "cost_weight-most",
    "first-year": "first_year_lem",
    "group-table": "group_table_lem",
    "in-force": "in_force_lem",
    "length-for": "length_for_lem",
    "mortality-down": "mortality_is_down",
    "mortality-up": "mortality_is_up",
    "outgo-at": "outgo_column_at",
    "outgo-of": "outgo_of_lem",
    "premium-at": "premium_column_at",
    "premium-in": "premium_is_in",
    "premium-sum": "premium_sum_lem",
    "two_bytes": "two_bytes_lem",
    "◌andThen◌": "◌and_then◌",
}


def read(path: str) -> str:
    with open(path, encoding="utf-8", newline="") as file:
        return file.read()


def write(path: str, text: str) -> None:
    with open(path, "w", encoding="utf-8", newline="") as file:
        file.write(text)


def part_respelled(part: str) -> str:
    if not part or not part[0].islower():
        return part
    return re.sub(r"(?<=[a-z0-9])([A-Z])", lambda found: "_" + found.group(1).lower(), part)


def respelled(name: str) -> str:
    if name in OTHER:
        return OTHER[name]
    if not name[0].islower():
        return name
    return part_respelled(name.replace("-", "_"))


def uncommented(text: str) -> str:
    return re.sub(r"--[^\n]*", "", text)


def own_names() -> dict[str, str]:
    """The names that are respelled, with their new spelling."""
    names = set(OTHER)
    for path in antt_files():
        text = uncommented(read(path))
        answers = set(ANSWERS.findall(text))
        names |= {name for name in DECLARED.findall(text) if name not in answers}
    return {name: respelled(name) for name in sorted(names) if respelled(name) != name}


def antt_files() -> list[str]:
    return sorted(
        path for part in ("specs", "proofs")
        for path in glob.glob(f"crates/*/{part}/**/*.antt", recursive=True)
    )


def from_library(text: str) -> set[str]:
    """Names that a file imports from elsewhere than the repository."""
    taken: set[str] = set()
    for path, names in USES.findall(text):
        first = path.split(".")
        if first[0] == "Rattle" and first[1] not in ("std", "core"):
            continue
        taken |= {name.split(" as ")[-1].strip() for name in names.split(",")}
    return taken


def turned(text: str, names: dict[str, str], kept: set[str]) -> str:
    def each(found: "re.Match[str]") -> str:
        word = found.group(0)
        return word if word in kept else names.get(word, word)

    out = []
    for line in text.split("\n"):
        code, dashes, comment = line.partition("-- ")
        if line.strip().startswith("--"):
            out.append(comment_turned(line, names))
        else:
            out.append(re.sub(WORD, each, code) + dashes + comment_turned(comment, names))
    return "\n".join(out)


def comment_turned(text: str, names: dict[str, str]) -> str:
    """In a comment only names in camel case, and names in backticks, are taken for names."""
    def each(found: "re.Match[str]") -> str:
        return names.get(found.group(0), found.group(0))

    text = re.sub(r"\b[a-z]+[A-Z]\w*\b", each, text)
    return re.sub(r"(?<=`)[^`\s]+(?=`)", each, text)


def rust_turned(text: str, names: dict[str, str]) -> str:
    out = []
    for line in text.split("\n"):
        if line.strip().startswith("//"):
            out.append(comment_turned(line, names))
        else:
            parts = re.split(r'("(?:[^"\\]|\\.)*")', line)
            for k in range(0, len(parts), 2):
                parts[k] = re.sub(
                    WORD, lambda found: names.get(found.group(0), found.group(0)), parts[k])
            out.append("".join(parts))
    return "\n".join(out)


def fallen_together(names: dict[str, str]) -> list[str]:
    """Places where a new spelling is a word of the file already."""
    found = []
    for path in antt_files():
        text = uncommented(read(path))
        words = set(re.findall(WORD, text))
        taken = from_library(text)
        by_new = collections.defaultdict(set)
        for word in words:
            by_new[names.get(word, word) if word not in taken else word].add(word)
        for new, old in by_new.items():
            if len(old) > 1:
                found.append(f"{path}: {new} from {sorted(old)}")
    return found


def main() -> None:
    names = own_names()
    if "--list" in sys.argv:
        for old, new in names.items():
            print(old, new)
        for line in fallen_together(names):
            print("together:", line)
        return
    for path in antt_files():
        text = read(path)
        write(path, turned(text, names, from_library(text)))
    for path in sorted(glob.glob("crates/*/src/**/*.rt", recursive=True)):
        write(path, rust_turned(read(path), names))
    for path in sorted(glob.glob("crates/*/must-fail/*.edit")):
        write(path, rust_turned(read(path), names))


if __name__ == "__main__":
    main()
