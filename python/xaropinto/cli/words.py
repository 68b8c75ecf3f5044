"""The words of a line: how a verb is added, and what numbers and names its arguments are."""

import argparse
from typing import TYPE_CHECKING, Callable, Optional

from xaropinto.layout import GROUPS, SETTINGS

if TYPE_CHECKING:
    Verbs = argparse._SubParsersAction[argparse.ArgumentParser]
else:
    Verbs = argparse.Action
Run = Callable[[argparse.Namespace], Optional[int]]
GROUP_HELP = "PG1 to PG5, or 1 to 5"


def add_parser(
    verbs: Verbs, name: str, run: Run, says: str, example: str
) -> argparse.ArgumentParser:
    """A verb."""
    verb = verbs.add_parser(
        name, help=says, description=says[0].upper() + says[1:] + ".", epilog=f"Example: {example}"
    )
    verb.set_defaults(run=run)
    return verb


def add_verb(verbs: Verbs, name: str, run: Run, says: str, example: str) -> argparse.ArgumentParser:
    """A verb on one book."""
    verb = add_parser(verbs, name, run, says, example)
    verb.add_argument("file", metavar="FILE")
    return verb


def add_setting(verb: argparse.ArgumentParser) -> None:
    """The setting, by its number."""
    words = ", ".join(f"{at} {name}" for at, name in enumerate(SETTINGS))
    verb.add_argument("--setting", type=number, required=True, help=words)


def number(word: str) -> int:
    """A whole number of at most 64 bits, in digits alone."""
    if not (word.isascii() and word.isdigit() and int(word) < 2**64):
        raise argparse.ArgumentTypeError(f"{word!r} is not a whole number of at most 64 bits")
    return int(word)


def product_group(word: str) -> int:
    """A product group by its name or its number; whether there is such a number, the call says."""
    return GROUPS.index(word.upper()) + 1 if word.upper() in GROUPS else number(word)


def group_name(word: str) -> str:
    """A product group by its name or its number, as its name."""
    chosen = product_group(word)
    if not 1 <= chosen <= len(GROUPS):
        raise argparse.ArgumentTypeError(f"{word!r} is no product group: {GROUP_HELP} is due")
    return GROUPS[chosen - 1]
