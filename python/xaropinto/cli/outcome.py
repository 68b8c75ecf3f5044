"""What a verb answers, in words or as JSON, and how a refusal or an error is reported. The JSON is
that of schema.json."""

import csv
import io
import json
from typing import Callable, Iterable, Mapping, NamedTuple, Optional, Sequence, Union

from xaropinto.answers import RefusedError
from xaropinto.cli.errors import DONE, REFUSED, TROUBLE, CommandError
from xaropinto.cli.files import take_written, write_file
from xaropinto.cli.streams import put_bytes, to_stderr
from xaropinto.library import LibraryError
from xaropinto.plausibility import Note
from xaropinto.tables import BadLineError
from xaropinto.version import VERSION

Json = Union[None, bool, int, float, str, Sequence["Json"], Mapping[str, "Json"]]
Cell = Union[int, str]


class Table(NamedTuple):
    """Rows below a heading."""

    headings: Sequence[str]
    rows: Sequence[Sequence[Cell]]

    def text(self, separator: str) -> str:
        """As a spreadsheet reads it."""
        held = io.StringIO()
        csv.writer(held, delimiter=separator, lineterminator="\n").writerows(
            [self.headings, *self.rows]
        )
        return held.getvalue()

    def data(self) -> Json:
        """A row with its headings."""
        return [dict(zip(self.headings, row)) for row in self.rows]


class Fields(NamedTuple):
    """A text, and what it says as data."""

    words: str
    held: Optional[Mapping[str, Json]] = None

    def text(self, _: str) -> str:
        """As it is."""
        return self.words

    def data(self) -> Json:
        """By name."""
        return self.held


Answer = Union[Table, Fields]


class _Run:
    """One run: the form of its output, and what was gathered of it for JSON."""

    def __init__(self) -> None:
        self.as_json, self.separator = False, ","
        self.results: list[dict[str, Json]] = []

    def keep(self, **found: Json) -> None:
        """Add to what is said of the present input."""
        if self.results:
            self.results[-1].update(found)


_run = _Run()


def begin_run(as_json: bool, separator: str) -> None:
    """Choose the form of all output until `end_run`."""
    _run.as_json, _run.separator = as_json, separator
    _run.results.clear()


def end_run(verb: str, code: int) -> None:
    """Write the JSON document, where that is asked for."""
    if _run.as_json:
        document = {"xaropinto": VERSION, "verb": verb, "exit": code, "results": _run.results}
        put_bytes((json.dumps(document, indent=1) + "\n").encode())


def attempt(name: str, act: Callable[[], Optional[int]], prefix: str = "") -> int:
    """Do what is asked of one input; the exit code. What stops it is reported here, lines of words
    with the prefix."""
    _run.results.append({"input": name, "status": "done"})
    try:
        code = act() or DONE
    except RefusedError as refused:
        report_refusal(refused, prefix)
        code = REFUSED
    except BadLineError as bad:
        _run.keep(
            status="refused",
            refusal={"number": None, "place": None, "owner": None, "words": str(bad)},
        )
        _say(f"{prefix}refused: {bad}")
        code = REFUSED
    except (CommandError, LibraryError) as error:
        code = report_error(error)
    if written := take_written():
        _run.keep(written=written)
    return code


def begin_input(name: str) -> None:
    """What follows is about this input; nothing is left of one about which nothing was said."""
    if _run.results and set(_run.results[-1]) == {"input", "status"}:
        _run.results.pop()
    _run.results.append({"input": name, "status": "done"})


def report_error(error: Exception) -> int:
    """What is wrong with the use, or with a file, in one line; the exit code."""
    if not _run.results:
        _run.results.append({"input": ""})
    _run.keep(status="error", message=str(error))
    to_stderr(f"xaropinto: {error}")
    return TROUBLE


def keep_refusal(refused: RefusedError) -> None:
    """A refusal for the JSON document."""
    _run.keep(
        status="refused",
        refusal={
            "number": refused.number,
            "place": refused.place,
            "owner": refused.owner,
            "words": refused.words,
        },
    )


def report_refusal(refused: RefusedError, prefix: str = "", verdict: bool = True) -> None:
    """A refusal on standard error: the verdict, where it is wanted there, and its words."""
    keep_refusal(refused)
    if verdict:
        _say(f"{prefix}refused {refused.number} {refused.place}")
    _say(f"{prefix}{refused.words}")


def put(answer: Answer) -> None:
    """The answer on standard output."""
    if _run.as_json:
        if answer.data() is not None:
            _run.keep(answer=answer.data())
    else:
        put_bytes(answer.text(_run.separator).encode("utf-8", "surrogateescape"))


def put_to(path: Optional[str], answer: Answer) -> None:
    """The answer into a file, or on standard output where none is named."""
    if path is None:
        put(answer)
    else:
        write_file(path, answer.text(_run.separator).encode("utf-8", "surrogateescape"))


def put_notes(notes: Iterable[Note], prefix: str = "") -> None:
    """Each warning as a line on standard error."""
    kept = list(notes)
    _run.keep(warnings=[{"name": note.name, "text": note.text} for note in kept])
    for note in kept:
        _say(f"{prefix}warning: {note.text}")


def _say(line: str) -> None:
    """A line of words, which the JSON document has in its own place."""
    if not _run.as_json:
        to_stderr(line)
