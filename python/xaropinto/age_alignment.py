"""Do this year's age classes follow last year's?

A contract of class c last year is of class c + d this year, d being the difference of the SST
years; of c + d + 1 where this year's classes were counted one too high. Two signals distinguish
the shifts -1, 0 and +1:

- counts: contracts are people, so the ups and downs of the counts from class to class grow older
  with them. Last year's are those that the proved call leaves in force after d years.
- curves: premium, claims and lapse belong to a class, so their ups and downs stay where they are.

Level and slope drop out, and with them inflation, new business over many classes and a wrong
lapse. The rule is statistics, tested on seeded pairs of books and not proved.
"""

from collections import defaultdict
from dataclasses import dataclass
from enum import Enum
from math import comb, log, pi, sqrt
from statistics import median
from typing import Iterable, Optional, Sequence

from xaropinto import answers
from xaropinto.book_values import BookValues, Chain
from xaropinto.layout import CHAINS, LAST_CLASS, YEARS

SHIFTS = (-1, 0, 1)
# Neighbours on each side that a value is compared with.
REACH = 2
# Standard errors that a verdict takes, and at which counts may be confirmed but not overruled.
SURE, DOUBT = 3.0, 2.0
# Standard errors at which counts are more alike than chance allows, and the fewest contracts with
# which that can be seen.
ALIKE, FEW = 3.5, 100
# Degrees of freedom of the residuals: one odd class has a bounded weight.
TAIL = 4.0
# The least scale of residuals: of a Poisson deviation, and of a logarithm.
COUNT_FLOOR, CURVE_FLOOR = 0.25, 0.001
# Decimals that are the book's: those behind them come from logarithms and sums, which differ from
# machine to machine and from one Python to the next.
DEVIATION_DECIMALS, LEAD_DECIMALS = 9, 6
BILLIONTHS = 1_000_000_000

Deviations = dict[int, float]
Likelihoods = tuple[float, float, float]
Evidence = dict[int, Likelihoods]
# Evidence of one kind of number.
Piece = tuple[str, Evidence]


class Verdict(Enum):
    """What is said of the classes; the value is the word in JSON."""

    AS_EXPECTED = "as expected"
    TOO_HIGH = "one too high"
    TOO_LOW = "one too low"
    CANNOT_TELL = "cannot tell"


OF_SHIFT = {-1: Verdict.TOO_LOW, 0: Verdict.AS_EXPECTED, 1: Verdict.TOO_HIGH}
SLIPS = (Verdict.TOO_HIGH, Verdict.TOO_LOW)


@dataclass(frozen=True)
class Signal:
    """The likeliest shift, and by how many standard errors it leads the next."""

    shift: int
    errors: float


@dataclass(frozen=True)
class Finding:
    """A verdict and the two signals behind it."""

    verdict: Verdict
    counts: Signal
    curves: Signal


@dataclass(frozen=True)
class ChainFinding:
    """The finding of a chain that both books have."""

    chain: str
    finding: Finding


@dataclass(frozen=True)
class Alignment:
    """The finding over all chains, and those of the chains; `years` is d."""

    years: int
    overall: Finding
    chains: tuple[ChainFinding, ...]

    def differing(self) -> tuple[ChainFinding, ...]:
        """Chains of which something else is said than over all."""
        return tuple(each for each in self.chains if each.finding.verdict
                     not in (Verdict.CANNOT_TELL, self.overall.verdict))


def align(last: bytes, this: bytes) -> Alignment:
    """The findings for two accepted books; the first is of the same SST year or an earlier one."""
    old, new = answers.read(last), answers.read(this)
    years = new.year - old.year
    both = [number for number in range(len(CHAINS))
            if old.chains[number].counts and new.chains[number].counts]
    counts: dict[int, list[Piece]] = {number: [] for number in both}
    if 0 <= years < YEARS and not spread_evenly(old) and not spread_evenly(new):
        for number in both:
            pair = old.chains[number], new.chains[number]
            counts[number] = [count_piece(last, number, pair, years)]
    # Few counts that stayed at their class may be spread evenly, unseen.
    few = sum(sum(chain.counts) for chain in old.chains) < FEW
    barred = -1 if few and years == 1 else None
    overall = judge(joined(counts.values()), barred)
    curves = {number: curve_pieces(old.chains[number], new.chains[number], overall, years)
              for number in both}
    findings = tuple(ChainFinding(CHAINS[number], decide(judge(counts[number], barred),
                                                         judge(curves[number])))
                     for number in both)
    return Alignment(years, decide(overall, judge(joined(curves.values()))), findings)


def joined(pieces: Iterable[list[Piece]]) -> list[Piece]:
    """The pieces of several chains."""
    return [piece for each in pieces for piece in each]


def count_piece(last: bytes, number: int, pair: tuple[Chain, Chain], years: int) -> Piece:
    """The evidence of a chain's counts."""
    before, now = pair
    expected = [expected_count(last, number, before, at, years)
                for at in range(len(before.counts))]
    evidence = evidence_of(count_deviations(expected, before.first_class),
                           count_deviations(now.counts, now.first_class), years, COUNT_FLOOR)
    return "counts", evidence


def expected_count(last: bytes, number: int, chain: Chain, at: int, years: int) -> float:
    """What the proved call leaves in force of a cell after so many years, in the base."""
    if not chain.counts[at]:
        return 0.0
    cell = answers.cell(last, 0, number // 2 + 1, number % 2, chain.first_class + at)
    return cell.in_force[years] / BILLIONTHS


def expected_by_class(last: bytes, years: int) -> list[float]:
    """What is left of last year's contracts after so many years, by the class they then have."""
    by_class = [0.0] * (LAST_CLASS + 1)
    for number, chain in enumerate(answers.read(last).chains):
        for at in range(len(chain.counts)):
            expected = expected_count(last, number, chain, at, years)
            by_class[min(LAST_CLASS, chain.first_class + at + years)] += expected
    return by_class


def curve_pieces(before: Chain, now: Chain, overall: Signal, years: int) -> list[Piece]:
    """The evidence of a chain's lapse, premium and claims."""
    pieces: list[Piece] = []
    for kind, old, new in (("lapses", before.lapses, now.lapses),
                           ("premiums", before.premiums, now.premiums),
                           ("claims", before.claims, now.claims)):
        evidence = evidence_of(curve_deviations(old, before.first_class),
                               curve_deviations(new, now.first_class), 0, CURVE_FLOOR)
        # A premium by age at entry grows older with its people and says nothing of the classes.
        moved = judge([(kind, evidence)]).shift
        by_entry = overall.errors < DOUBT or moved == overall.shift + years
        if kind != "premiums" or not by_entry:
            pieces.append((kind, evidence))
    return pieces


def count_deviations(counts: Sequence[float], first: int) -> Deviations:
    """By class: how far a count is from the mean of its neighbours, in Poisson deviations."""
    found = {}
    for at in inner(len(counts)):
        window = counts[at - REACH:at + REACH + 1]
        scale = sqrt(sum(window) / len(window) + 0.5)
        found[first + at] = from_neighbours(window) / scale
    return found


def curve_deviations(amounts: Sequence[int], first: int) -> Deviations:
    """By class: how far the logarithm of an amount is from the mean of its neighbours'."""
    found = {}
    for at in inner(len(amounts)):
        window = amounts[at - REACH:at + REACH + 1]
        if min(window) > 0:
            deviation = from_neighbours([log(amount) for amount in window])
            found[first + at] = round(deviation, DEVIATION_DECIMALS)
    return found


def inner(length: int) -> range:
    """The places whose windows are whole and leave out the last class, which gathers the oldest."""
    return range(REACH, length - 1 - REACH)


def from_neighbours(window: Sequence[float]) -> float:
    """The middle less the mean of the others."""
    return window[REACH] - (sum(window) - window[REACH]) / (2 * REACH)


def evidence_of(before: Deviations, now: Deviations, step: int, floor: float) -> Evidence:
    """By class of this year: the log likelihood that last year's moved by a step and each shift."""
    classes = [at for at in now if all(at - step - shift in before for shift in SHIFTS)]
    if len(classes) < 2 * REACH + 1:
        return {}
    residuals = [residuals_of([(before[at - step - shift], now[at]) for at in classes])
                 for shift in SHIFTS]
    scale = max(floor, min(1.48 * median([abs(value) for value in each]) for each in residuals))
    low, middle, high = ([log_likelihood(each / scale) for each in row] for row in residuals)
    return dict(zip(classes, zip(low, middle, high)))


def residuals_of(pairs: Sequence[tuple[float, float]]) -> list[float]:
    """What is left of the second numbers after a fit to the first through 0, of slope 0 to 1.5."""
    weight = sum(x * x for x, _ in pairs)
    slope = min(max(sum(x * y for x, y in pairs) / weight, 0.0), 1.5) if weight else 0.0
    return [y - slope * x for x, y in pairs]


def log_likelihood(residual: float) -> float:
    """Of Student's distribution, but for a constant."""
    return -(TAIL + 1) / 2 * log(1 + residual ** 2 / TAIL)


def judge(pieces: Iterable[Piece], barred: Optional[int] = None) -> Signal:
    """The signal of pieces of evidence; chains are added up, so that a class counts once."""
    by_class: dict[tuple[str, int], list[float]] = defaultdict(lambda: [0.0] * len(SHIFTS))
    for kind, evidence in pieces:
        for at, likelihoods in evidence.items():
            for place, each in enumerate(likelihoods):
                by_class[kind, at][place] += each
    rows = list(by_class.values())
    best = max(range(len(SHIFTS)), key=lambda place: sum(row[place] for row in rows))
    errors = min(lead([row[best] - row[other] for row in rows])
                 for other in range(len(SHIFTS)) if other != best)
    return Signal(SHIFTS[best], errors) if errors and SHIFTS[best] != barred else Signal(0, 0.0)


def lead(differences: Sequence[float]) -> float:
    """A sum in its standard errors."""
    errors = sum(differences) / (sqrt(sum(each * each for each in differences)) or 1.0)
    return round(errors, LEAD_DECIMALS)


def spread_evenly(values: BookValues) -> bool:
    """Whether neighbouring counts are more alike than chance allows: spread, not counted."""
    surplus = variance = 0.0
    for chain in values.chains:
        for one, other in zip(chain.counts, chain.counts[1:]):
            chance = chance_of_alike(one + other)
            surplus += (abs(one - other) <= 1) - chance
            variance += chance * (1 - chance)
    return surplus > ALIKE * sqrt(variance)


def chance_of_alike(people: int) -> float:
    """That so many people fall into two classes with a difference of at most 1."""
    middle = comb(people, people // 2) / (1 << people) if people < 100 else sqrt(2 / (pi * people))
    return (1 + people % 2) * middle


def decide(counts: Signal, curves: Signal) -> Finding:
    """The verdict of two signals. Curves alone may raise an alarm; they never vouch for counts."""
    errors = counts.errors
    if counts.shift == curves.shift and errors >= DOUBT:
        errors = max(errors, (errors + curves.errors) / sqrt(2))
    verdict = Verdict.CANNOT_TELL
    if errors >= SURE:
        # Counts may have slipped alone; curves that moved without the counts are no clear slip.
        if curves.errors < SURE or curves.shift in (0, counts.shift):
            verdict = OF_SHIFT[counts.shift]
    elif counts.errors < DOUBT and curves.errors >= SURE and curves.shift:
        verdict = OF_SHIFT[curves.shift]
    return Finding(verdict, counts, curves)
