"""What the verdict stream covers of each refusal, of the header and of every range."""

from collections import Counter

from reference.layout import (AGE_BASIS, CHAINS, CLASSES, COST_RATES, CURVE, EDITION, HEADER_SPARE,
                              MORTALITY, PERCENTAGES, RECORD_COUNT, SST_YEAR, record)
from tests.vectors.check_cases_order import BOOK_REFUSALS

CORNERS = (MORTALITY[0], MORTALITY[CLASSES - 1], MORTALITY[CLASSES], MORTALITY[-1])
CURVE_TRIED = (CURVE[0], CURVE[24], CURVE[48])


def numbers_seen(entries, fields, refusal):
    """(number, None) where an accepted book holds it, (number, place) where it is refused."""
    seen = set()
    for entry in entries:
        for field in fields:
            if entry.accepted:
                seen.add((field.read(entry.book), None))
            elif entry.refusal == (refusal, field.offset):
                seen.add((field.read(entry.book), field.offset))
    return seen


def range_ends(field):
    """What must be seen of a field: the last numbers that pass and the first that do not."""
    least, greatest = field.extremes()
    ends = {(field.low, None), (field.high, None),
            (field.high + 1, field.offset), (greatest, field.offset)}
    if field.signed:
        ends |= {(field.low - 1, field.offset), (least, field.offset)}
    return ends


def amounts_seen(entries, position):
    """(number, passes) of one of the four amounts in linked records."""
    seen = set()
    for entry in entries:
        for number in {number for path in entry.paths for number in path}:
            amount = record(number).amounts[position]
            if entry.accepted or entry.refusal == (12, amount.offset):
                seen.add((amount.read(entry.book), entry.accepted))
    return seen


class FieldCoverage:
    """Tests of what the books of the stream have of fields."""

    def test_refusals(self):
        """Each refusal often enough, and at each kind of its places."""
        times = Counter(entry.refusal[0] for entry in self.entries if not entry.accepted)
        often = [number for number, seen in times.items() if seen >= 3]
        places = {entry.refusal for entry in self.entries if not entry.accepted}
        self.covers("each refusal from 1 to 13, and 23, at least three times", BOOK_REFUSALS, often)
        self.covers("refusal 4 at 2, 4 and 6", {(4, 2), (4, 4), (4, 6)}, places)
        self.covers("refusal 6 at each cost rate", {(6, f.offset) for f in COST_RATES}, places)
        self.covers("refusal 7 at every curve rate", {(7, f.offset) for f in CURVE}, places)
        self.covers("refusal 8 at men's and women's ends", {(8, f.offset) for f in CORNERS}, places)
        self.covers("refusal 9 at each head", {(9, c.head.offset) for c in CHAINS}, places)
        causes = {(entry.refusal[0], cause) for entry in self.entries if not entry.accepted
                  for cause in entry.sole_causes()}
        expected = {9: ("head", "next"),
                    10: ("code", "sex", "spare byte 3", "spare byte 6", "spare byte 7"),
                    11: ("first class too high", "class too low", "class too high"),
                    12: ("count", "lapse", "premium", "claims"),
                    13: ("ends early", "runs on")}
        for number, kinds in expected.items():
            self.covers(f"refusal {number} by {', '.join(kinds)}, each alone",
                        {(number, kind) for kind in kinds}, causes)

    def test_header(self):
        """Lengths, and the first eight bytes."""
        lengths = {(len(entry.book), entry.refusal) for entry in self.entries}
        self.covers("lengths around the shortest and the longest book",
                    {(0, (1, 0)), (1, (1, 1)), (1_219, (1, 1_219)), (1_220, (2, 0)), (1_220, None),
                     (1_221, (5, 1_221)), (41_876, None), (41_877, (5, 41_877))}, lengths)
        for number, field, second in ((2, EDITION, None), (3, AGE_BASIS, AGE_BASIS.offset)):
            seen = numbers_seen(self.entries, [field], number)
            self.covers(f"{field.name} 0, 1, 2, 3 and 255",
                        {(0, field.offset), (1, None), (2, second), (3, field.offset),
                         (255, field.offset)}, seen)
        self.covers("SST year 2016, 2017, 2100 and 2101",
                    {(2_016, 2), (2_017, None), (2_100, None), (2_101, 2)},
                    numbers_seen(self.entries, [SST_YEAR], 4))
        self.covers("number of records 0, 1,694 and 1,695", {(0, None), (1_694, None), (1_695, 4)},
                    numbers_seen(self.entries, [RECORD_COUNT], 4))
        self.covers("spare bytes 6 and 7 each alone", {(0, None), (1, 6), (256, 6)},
                    numbers_seen(self.entries, [HEADER_SPARE], 4))
        for field in PERCENTAGES:
            self.covers(f"{field.name} 0, 1, 100, 101 and 255",
                        {(0, field.offset), (1, None), (100, None), (101, field.offset),
                         (255, field.offset)},
                        numbers_seen(self.entries, [field], 23))

    def test_ranges(self):
        """Both ends of every range, field by field."""
        for words, refusal, fields in (("each cost rate", 6, COST_RATES),
                                       ("curve rates, first, middle and last", 7, CURVE_TRIED),
                                       ("mortality, men's and women's ends", 8, CORNERS)):
            missing = [field.name for field in fields
                       if not range_ends(field) <= numbers_seen(self.entries, [field], refusal)]
            self.check(f"both ends of the range: {words}", not missing, missing)
        for position, words in enumerate(("count", "lapse", "premium", "claims")):
            self.covers(f"both ends of the range: {words}",
                        {(number, place is None) for number, place
                         in range_ends(record(1).amounts[position])},
                        amounts_seen(self.entries, position))
