"""The command's words: its verbs, its help, and its exit codes."""

import argparse
import signal
import sys
import traceback
from types import FrameType
from typing import Any, NoReturn, Optional, Sequence

from xaropinto.cli import books, compare, figures, pages, portfolio, tools
from xaropinto.cli.errors import DONE, INTERRUPTED, TERMINATED, TROUBLE, CommandError, StoppedError
from xaropinto.cli.files import ENDING, STANDARD, listed_files, note_inputs
from xaropinto.cli.outcome import attempt, begin_run, end_run, report_error
from xaropinto.cli.streams import put_bytes, stderr_failed, to_stderr, use_utf8
from xaropinto.version import version_text

ENDS = (
    "Exit codes: 0 done; 1 refused; 2 wrong use, or a file that cannot be read or written; "
    "130 interrupted; 143 terminated. `-` is standard input."
)
PURPOSE = (
    "Checks, lists and writes parameter books of the Swiss solvency test's long-term health "
    "liabilities. Verdict, n, totals, differences, liabilities, listing, year report, in force, "
    "cost rates, spread, deviation and the bytes of books come from proved calls. Not proved, and "
    "only tested, is what the command does itself: files read and written, contracts by class, "
    "means of product groups, books that it changes before it asks, distances, warnings, words and "
    "charts."
)
# The arguments that name what is read, where there is one, and what is written; all others that
# name a file or folder are inputs.
INPUTS = ("file", "folder", "sheets", "accounts", "table", "this")
OUTPUTS = ("out", "into")
# The verbs whose answer is, or can be, comma-separated.
SEPARATED = ("check", "years", "cell", "classes", "funds", "rates")


class Parser(argparse.ArgumentParser):
    """Reports wrong use by our exit code, and takes no word cut short for another."""

    def __init__(self, **more: Any):
        more["allow_abbrev"] = False
        super().__init__(**more)

    def error(self, message: str) -> NoReturn:
        self.print_usage(sys.stderr)
        self.exit(TROUBLE, f"{self.prog}: {message}\n")


class ShowVersion(argparse.Action):
    """Prints the version, the commit and the checker line by line, and ends the run."""

    def __call__(self, parser: argparse.ArgumentParser, *_: object) -> NoReturn:
        put_bytes(version_text().encode())
        parser.exit(DONE)


def all_verbs() -> argparse.ArgumentParser:
    """The parser of the whole command."""
    parser = Parser(prog="xaropinto", epilog=ENDS, description=PURPOSE)
    parser.add_argument(
        "--version",
        action=ShowVersion,
        nargs=0,
        help="the version, the commit that was built and the checker that proved it",
    )
    verbs = parser.add_subparsers(metavar="VERB", dest="verb", required=True)
    for module in (figures, portfolio, compare, pages, books, tools):
        module.add_verbs(verbs)
    for name, verb in verbs.choices.items():
        verb.add_argument(
            "--json", action="store_true", help="the answer as JSON, a refusal included"
        )
        if name in SEPARATED:
            verb.add_argument(
                "--separator",
                type=separator,
                metavar="CHARACTER",
                help="between the columns of comma-separated lines, in place of a comma",
            )
    return parser


def separator(word: str) -> str:
    """One character that can stand in no number and no quoted cell; `tab` is a tabulator."""
    character = "\t" if word == "tab" else word
    if len(character) != 1 or character.isalnum() or character in "\"'\n\r-. ":
        raise argparse.ArgumentTypeError(
            f"{word!r} is no separator: one character such as ; or the word tab is due"
        )
    return character


def main(words: Optional[Sequence[str]] = None) -> int:
    """Run one verb; its exit code."""
    try:
        stop_on_signals()
        use_utf8()
        chosen = all_verbs().parse_args(words)
        code = run_verb(chosen)
    except CommandError as error:
        to_stderr(f"xaropinto: {error}")
        return TROUBLE
    except KeyboardInterrupt:
        to_stderr("xaropinto: interrupted")
        return INTERRUPTED
    except StoppedError as stopped:
        to_stderr(f"xaropinto: {'interrupted' if stopped.code == INTERRUPTED else 'terminated'}")
        return stopped.code
    except Exception as error:  # a fault of the command itself must not look like a refusal
        to_stderr(fault_line(error))
        return TROUBLE
    return max(code, TROUBLE) if stderr_failed() else code


def run_verb(chosen: argparse.Namespace) -> int:
    """The verb's exit code, once all is written."""
    begin_run(chosen.json, getattr(chosen, "separator", None) or ",")
    if hasattr(chosen, "files"):
        chosen.files = listed_files(chosen.files)
    note_inputs(input_paths(chosen))
    try:
        code = run_one(chosen)
    except CommandError as error:
        code = report_error(error)
    try:
        end_run(chosen.verb, code)
    except CommandError as error:
        return report_error(error)
    return code


def run_one(chosen: argparse.Namespace) -> int:
    """The verb's exit code. One of many files reports each of them itself."""
    if chosen.json and getattr(chosen, "out", None) == STANDARD:
        raise CommandError("--json and `-o -` would both write to standard output")
    if input_paths(chosen).count(STANDARD) > 1:
        raise CommandError("standard input can be read once")

    def act() -> int:
        code: Optional[int] = chosen.run(chosen)
        return code or DONE

    return act() if hasattr(chosen, "files") else attempt(input_name(chosen), act)


def input_name(chosen: argparse.Namespace) -> str:
    """What a verb reads, as the line names it; empty where it reads no file."""
    return next((getattr(chosen, name) for name in INPUTS if hasattr(chosen, name)), "")


def input_paths(chosen: argparse.Namespace) -> list[str]:
    """Every word of the line that may name a file or folder which is read."""
    paths: list[str] = []
    for name, value in vars(chosen).items():
        if name not in (*OUTPUTS, "verb", "separator"):
            paths += [
                word
                for word in (value if isinstance(value, list) else [value])
                if isinstance(word, str)
            ]
    return paths


def stop_on_signals() -> None:
    """End in order on a signal, once; those that come after it are passed over, and so are those
    ignored before."""

    def stop(number: int, _: Optional[FrameType]) -> None:
        for each in ENDING:
            signal.signal(each, signal.SIG_IGN)
        raise StoppedError(INTERRUPTED if number == signal.SIGINT else TERMINATED)

    for each in ENDING:
        if signal.getsignal(each) is not signal.SIG_IGN:
            signal.signal(each, stop)


def fault_line(error: Exception) -> str:
    """A fault of the command in one line, with the place where it arose."""
    where = traceback.extract_tb(error.__traceback__)[-1]
    words = " ".join(f"{type(error).__name__}: {error}".split())
    place = f"{where.name}, line {where.lineno}"
    return f"xaropinto: this is a fault of the command, please report it: {words} ({place})"
