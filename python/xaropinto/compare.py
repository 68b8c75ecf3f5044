"""Two years' books of one insurer: do the classes follow, what moved the totals, what changed."""

from dataclasses import dataclass
from datetime import date
from typing import Optional

from xaropinto import answers
from xaropinto.age_alignment import Alignment, Verdict, align
from xaropinto.book_changes import BookChanges, changes_between
from xaropinto.change_analysis import ChangeAnalysis, analyse_change
from xaropinto.layout import YEARS
from xaropinto.plausibility import Note, notes_of

LINES = {
    Verdict.AS_EXPECTED: "as expected",
    Verdict.TOO_HIGH: "every class looks one too high (is this book on age basis 2?)",
    Verdict.TOO_LOW: "every class looks one too low",
    Verdict.CANNOT_TELL: "cannot tell",
}


class YearsError(ValueError):
    """The second book is of an earlier SST year than the first, or of one that is too late."""


@dataclass(frozen=True)
class Comparison:
    """All that is said of two books; the notes are the warnings about this year's."""

    last_year: int
    this_year: int
    alignment: Alignment
    analysis: ChangeAnalysis
    changes: BookChanges
    notes: tuple[Note, ...]

    def verdict(self) -> str:
        """The verdict over all chains in one line."""
        return f"Age classes: {LINES[self.alignment.overall.verdict]}"

    def exceptions(self) -> list[str]:
        """A line for each chain of which something else is said than over all."""
        return [f"Age classes of {each.chain}: {each.finding.verdict.value}"
                for each in self.alignment.differing()]

    def is_clean(self) -> bool:
        """Whether the classes follow, no chain slipped and nothing is warned of."""
        return (self.alignment.overall.verdict is Verdict.AS_EXPECTED
                and not self.alignment.differing() and not self.notes)


def compare(last: bytes, this: bytes, today: Optional[date] = None) -> Comparison:
    """The comparison of two accepted books; `RefusedError` where one is not."""
    years = [answers.read(book).year for book in (last, this)]
    if years[1] < years[0]:
        raise YearsError(f"the first book is of SST year {years[0]}, the second of {years[1]}: "
                         "last year's book comes first")
    if years[1] - years[0] >= YEARS:
        raise YearsError(f"the books are of SST years {years[0]} and {years[1]}: no contract of "
                         f"the first is projected over more than {YEARS - 1} years")
    return Comparison(years[0], years[1], align(last, this), analyse_change(last, this),
                      changes_between(last, this), notes_of(this, today))
