"""The verbs about a portfolio's age classes: classes and age-shift."""

import argparse
from typing import Optional

from xaropinto import answers
from xaropinto.age_shift import AgeShift, Move, MovedTotals, age_shift
from xaropinto.cli.files import read_file
from xaropinto.cli.outcome import Fields, Table, put
from xaropinto.cli.words import GROUP_HELP, Verbs, add_verb, group_name
from xaropinto.json_data import json_fields
from xaropinto.layout import SETTINGS, SEXES
from xaropinto.number_format import counted
from xaropinto.portfolio import contracts_by_class

HEADING = ("setting,name,total,one_class_lower,one_class_higher,lower_less_total,"
           "higher_less_total")
RECORDS = "Every record one class lower or higher: count, lapse, premium and claims"
COUNTS = "Counts alone one class lower or higher: lapse, premium and claims stay at their class"


def add_verbs(verbs: Verbs) -> None:
    """Their words."""
    classes = add_verb(verbs, "classes", show_classes,
                       "age classes and contracts, to compare with your own counts",
                       "xaropinto classes mine.book --group PG1 --sex women")
    classes.add_argument("--group", type=group_name, help=f"{GROUP_HELP}; without it all")
    classes.add_argument("--sex", choices=SEXES, help="without it both")
    add_verb(verbs, "age-shift", show_age_shift,
             "the eight totals, and what they would be with every record one age class lower or "
             "higher; then the same with counts alone",
             "xaropinto age-shift mine.book")


def show_classes(chosen: argparse.Namespace) -> None:
    """Two columns."""
    by_class = contracts_by_class(answers.read(read_file(chosen.file)), chosen.group or "",
                                  chosen.sex or "")
    put(Table(("class", "contracts"), list(enumerate(by_class))))


def show_age_shift(chosen: argparse.Namespace) -> None:
    """Two blocks of totals."""
    shift = age_shift(read_file(chosen.file))
    put(Fields(age_shift_text(shift), json_fields(shift)))


def age_shift_text(shift: AgeShift) -> str:
    """A block for whole records, then one for counts alone."""
    return "\n".join([*block(RECORDS, shift.totals, shift.records), "",
                      *block(COUNTS, shift.totals, shift.counts), ""])


def block(title: str, own: tuple[int, ...], move: Move) -> list[str]:
    """The totals with those moved, and what is to be known of these."""
    lines = [title, HEADING]
    for setting, total in enumerate(own):
        sides = [None if side.totals is None else side.totals[setting]
                 for side in (move.lower, move.higher)]
        cells = [*map(shown, sides), *(shown(None if side is None else side - total)
                                       for side in sides)]
        lines.append(",".join([str(setting), SETTINGS[setting], str(total), *cells]))
    return [*lines, *remarks("one_class_lower", move.lower),
            *remarks("one_class_higher", move.higher)]


def shown(figure: Optional[int]) -> str:
    """A figure; nothing where there is none."""
    return "" if figure is None else str(figure)


def remarks(column: str, side: MovedTotals) -> list[str]:
    """Why a column is empty, or what it leaves out."""
    if side.totals is None:
        return [f"{column} cannot be shown: {side.why_not}"]
    if side.left_out:
        contracts = counted(side.left_out, "contract", "contracts")
        return [f"{column} leaves out {contracts} of class 120: no class is above it"]
    return []
