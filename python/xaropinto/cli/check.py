"""The verb check: each file's verdict, what its product groups hold, and with --all every fault."""

import argparse
from typing import Optional

from xaropinto import answers
from xaropinto.cli.errors import REFUSED, CommandError
from xaropinto.cli.files import read_file
from xaropinto.cli.notes import add_notes, report_notes
from xaropinto.cli.outcome import (
    Cell,
    Fields,
    Json,
    Table,
    attempt,
    keep_refusal,
    put,
    report_refusal,
)
from xaropinto.cli.streams import to_stderr
from xaropinto.cli.words import Verbs, add_parser
from xaropinto.faults import Faults, all_faults
from xaropinto.number_format import counted, francs, percent
from xaropinto.plausibility import GroupMeans, group_means

COLUMNS = ("file", "number", "place", "owner", "words")
COPY_WORDS = "each after the first is one of a copy in which those before it are corrected"


def add_check(verbs: Verbs) -> None:
    """The verb that takes many files."""
    verb = add_parser(
        verbs,
        "check",
        check_files,
        "accepted with n, or the refusal in words",
        "xaropinto check mine.book && xaropinto list mine.book",
    )
    verb.add_argument("files", nargs="+", metavar="FILE")
    verb.add_argument(
        "--all",
        dest="every",
        action="store_true",
        help=f"every fault of a refused file; {COPY_WORDS}",
    )
    verb.add_argument("--csv", action="store_true", help="with --all: as comma-separated lines")
    add_notes(verb)


def check_files(chosen: argparse.Namespace) -> int:
    """Every file's verdict on standard output, in the order given; the worst exit code."""
    if chosen.csv and (chosen.json or not chosen.every):
        raise CommandError("--csv goes with --all, and not with --json")
    if chosen.separator and not chosen.csv:
        raise CommandError("--separator goes with --all --csv")
    rows: list[tuple[Cell, ...]] = []
    code = max(
        attempt(path, lambda: check_file(path, chosen, rows), f"{path}: ") for path in chosen.files
    )
    if chosen.csv:
        put(Table(COLUMNS, rows))
    return code


def check_file(path: str, chosen: argparse.Namespace, rows: list[tuple[Cell, ...]]) -> int:
    """A verdict, or the rows of every fault; the words of a refusal on standard error."""
    book, prefix = read_file(path), f"{path}: "
    try:
        n = answers.check(book)
    except answers.RefusedError as refused:
        verdict = f"{prefix}refused {refused.number} {refused.place}\n"
        if chosen.every:
            report_faults(path, verdict, all_faults(book), rows if chosen.csv else None)
            keep_refusal(refused)
        else:
            put(Fields(verdict))
            report_refusal(refused, prefix, verdict=False)
        return REFUSED
    groups = [group for group in group_means(answers.read(book)) if group.contracts]
    lines = [f"{prefix}accepted {n}\n", *(f"{prefix}{means_line(group)}\n" for group in groups)]
    if not chosen.csv:
        put(Fields("".join(lines), {"n": n, "groups": [means_data(group) for group in groups]}))
    return report_notes(book, chosen, prefix)


def report_faults(
    path: str, verdict: str, faults: Faults, rows: Optional[list[tuple[Cell, ...]]]
) -> None:
    """Every fault of a file: as lines behind its verdict, or added to rows."""
    if rows is None:
        lines = [f"{path}: {each.number} {each.place}: {each.words}\n" for each in faults.found]
        data: list[Json] = [each._asdict() for each in faults.found]
        put(
            Fields(
                "".join([verdict, *lines]),
                {"faults": data, "complete": faults.complete, "unlinked_records": faults.unlinked},
            )
        )
    else:
        rows += [(path, each.number, each.place, each.owner, each.words) for each in faults.found]
    to_stderr(f"{path}: {faults_line(faults)}")


def faults_line(faults: Faults) -> str:
    """How many there are, and of what."""
    words = counted(len(faults.found), "fault", "faults")
    if len(faults.found) > 1:
        words += f"; {COPY_WORDS}"
    if faults.unlinked:
        records = counted(faults.unlinked, "record", "records")
        words += f"; {records} of the last copy in no chain, not checked"
    return words if faults.complete else f"{words}; the search stopped here, and there may be more"


def means_line(means: GroupMeans) -> str:
    """A product group that has contracts, in francs and percent."""
    words = means_words(means)
    return (
        f"{means.group}: {counted(means.contracts, 'contract', 'contracts')}, mean premium "
        f"{words['mean_premium_francs']} francs, mean claims {words['mean_claims_francs']} "
        f"francs, mean lapse {words['mean_lapse_percent']} percent"
    )


def means_words(means: GroupMeans) -> dict[str, str]:
    """Its means as they are shown."""
    return {
        "mean_premium_francs": francs(means.premium or 0),
        "mean_claims_francs": francs(means.claims or 0),
        "mean_lapse_percent": percent(means.lapse or 0),
    }


def means_data(means: GroupMeans) -> dict[str, Json]:
    """The same as data: decimal numbers as strings, without separators."""
    shown = {name: words.replace("'", "") for name, words in means_words(means).items()}
    return {"group": means.group, "contracts": means.contracts, **shown}
