"""The calls that include/xaropinto.h declares."""

import re
from typing import NamedTuple

from tools.targets import HEADER, BuildError

COMMENT = re.compile(r"/\*(?s:.*?)\*/")
CALL = re.compile(r"^(?:XAROPINTO_API )?(\w+) (xaropinto_\w+)\(([^;{]*)\);", re.M)
ARGUMENT = re.compile(r"((?:const )?\w+ \*?)(\w+)$")


class Argument(NamedTuple):
    """An argument of a call: its type as the header has it, and its name."""

    kind: str
    name: str


class Call(NamedTuple):
    """A call of the header."""

    reply: str
    name: str
    arguments: list


def text_of_header():
    """The header without its comments."""
    return COMMENT.sub("", HEADER.read_text(encoding="utf-8"))


def calls():
    """The calls, in the order of the header."""
    found = [Call(reply, name, arguments_of(words))
             for reply, name, words in CALL.findall(text_of_header())]
    if not found:
        raise BuildError(f"{HEADER.name} declares no calls")
    return found


def arguments_of(words):
    """The arguments between the parentheses of a declaration."""
    if words.strip() == "void":
        return []
    found = [ARGUMENT.match(" ".join(each.split())) for each in words.split(",")]
    if not all(found):
        raise BuildError(f"arguments that are not understood: {words}")
    return [Argument(each[1].strip(), each[2]) for each in found]
