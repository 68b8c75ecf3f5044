"""Do the classes follow? The rule on seeded pairs of books: sound, slipped, unrelated.

The gate draws few pairs; `--pairs 1000` draws as many sound ones, and two slips of each.
"""

import argparse
import sys
from collections import Counter
from dataclasses import replace

from reference.book import make_book
from reference.layout import CHAINS
from tests import ROOT
from tests.fixtures.book_pairs import KINDS, NO_PEOPLE, Plan, slipped, sound_pair
from tests.fixtures.people import pair_of_people
from tests.support.report import Report

sys.path.insert(0, str(ROOT / "python"))

from xaropinto.age_alignment import SLIPS, Verdict, align  # noqa: E402

SIZES = (200, 500, 1_000, 5_000, 20_000, 100_000, 500_000)
SMALL_SIZES = (200, 500, 1_000, 2_000)
# The least share of slips of whole records that is found, in percent.
LEAST_FOUND = 98
OF_SLIP = {1: Verdict.TOO_HIGH, -1: Verdict.TOO_LOW}
# The pairs of the gate: their seeds are the first ones.
PAIRS = 40


class Seen:
    """What was said of the pairs of one kind."""

    def __init__(self):
        self.verdicts = Counter()
        self.chains = Counter()

    def add(self, last, this):
        """Compare the books of two values; the alignment."""
        alignment = align(make_book(last), make_book(this))
        self.verdicts[alignment.overall.verdict] += 1
        self.chains.update(each.finding.verdict for each in alignment.chains)
        return alignment

    def alarms(self):
        """Slips over all chains, and of single chains."""
        return sum(self.verdicts[slip] for slip in SLIPS), sum(self.chains[slip] for slip in SLIPS)

    def summary(self):
        """How often each was said, over all and of chains."""
        return "; of chains ".join(", ".join(f"{each.value} {counts[each]:,}" for each in Verdict
                                             if counts[each])
                                   for counts in (self.verdicts, self.chains))


def plans(pairs, seed, kinds, years=(1, 2)):
    """So many plans, of every kind, size and number of years in turn."""
    for number in range(pairs):
        yield Plan(seed + number, SIZES[number % len(SIZES)], kinds[number % len(kinds)],
                   years[number // len(kinds) % len(years)])


def test_whole_records(report, pairs, seed):
    """No false alarm on sound pairs; slips of whole records are found, and never called sound."""
    sound, slips = Seen(), {by: Seen() for by in OF_SLIP}
    for plan in plans(pairs, seed, KINDS):
        last, this = sound_pair(plan)
        sound.add(last, this)
        for by, seen in slips.items():
            seen.add(last, slipped(this, by))
    report.test(f"no false alarm in {pairs:,} sound pairs and their chains: {sound.summary()}",
                sound.alarms() == (0, 0) and sound.verdicts[Verdict.AS_EXPECTED] > 0.9 * pairs)
    for by, seen in slips.items():
        found = seen.verdicts[OF_SLIP[by]]
        report.test(f"slips by {by:+} are found: {seen.summary()}",
                    100 * found >= LEAST_FOUND * pairs)
        report.test(f"no slip by {by:+} is called sound or the opposite",
                    found + seen.verdicts[Verdict.CANNOT_TELL] == pairs, seen.summary())


def test_people(report, pairs, seed):
    """Classes from birth years: by basis 1 as expected, by basis 2 one too high."""
    for basis, due in ((1, Verdict.AS_EXPECTED), (2, Verdict.TOO_HIGH)):
        seen = Seen()
        for number in range(pairs):
            seen.add(*pair_of_people(seed + number, SMALL_SIZES[number % len(SMALL_SIZES)], basis))
        found = seen.verdicts[due]
        report.test(f"{pairs:,} pairs counted from people on basis {basis}: {seen.summary()}",
                    100 * found >= LEAST_FOUND * pairs
                    and found + seen.verdicts[Verdict.CANNOT_TELL] == pairs)


def test_no_people(report, pairs, seed):
    """Counts that are no people: no false alarm over all chains."""
    seen = Seen()
    for plan in plans(pairs, seed, NO_PEOPLE, (1,)):
        seen.add(*sound_pair(plan))
    report.test(f"{pairs:,} sound pairs whose counts are no people: {seen.summary()}",
                seen.alarms()[0] == 0)


def test_unrelated(report, pairs, seed):
    """Two books that have nothing to do with each other."""
    seen = Seen()
    for one, other in zip(plans(pairs, seed, KINDS), plans(pairs, seed + 10_000, KINDS[::-1])):
        seen.add(sound_pair(one)[0], sound_pair(other)[1])
    report.test(f"{pairs:,} unrelated pairs: {seen.summary()}",
                seen.verdicts[Verdict.CANNOT_TELL] == pairs)


def test_same_year(report, pairs, seed):
    """Two books of one SST year: contracts stay in their class."""
    for by, due in ((0, Verdict.AS_EXPECTED), *OF_SLIP.items()):
        seen = Seen()
        for plan in plans(pairs, seed, KINDS, (0,)):
            last, this = sound_pair(plan)
            seen.add(last, slipped(this, by) if by else this)
        report.test(f"{pairs:,} pairs of one SST year, slip {by:+}: {seen.summary()}",
                    seen.verdicts[due] == pairs)


def test_year_alone(report, pairs, seed):
    """Last year's book with a new year in it is never as expected."""
    seen = Seen()
    for plan in plans(pairs, seed, KINDS, (1,)):
        last, this = sound_pair(plan)
        seen.add(last, replace(last, sst_year=this.sst_year))
    report.test(f"last year's book under a new year, {pairs:,} times: {seen.summary()}",
                seen.verdicts[Verdict.TOO_LOW] >= 0.9 * pairs
                and seen.verdicts[Verdict.AS_EXPECTED] == 0)


def test_one_chain(report, pairs, seed):
    """One chain that slipped is named, or nothing is said of it; no other chain is."""
    found = named = wrong = 0
    for plan in plans(pairs, seed, KINDS, (1,)):
        last, this = sound_pair(plan)
        chain = max(set(last.portfolios) & set(this.portfolios), default=None)
        if chain is None:
            continue
        alignment = Seen().add(last, slipped(this, 1, {chain}))
        for each in alignment.chains:
            if each.chain == CHAINS[chain].name:
                named += 1
                found += each.finding.verdict is Verdict.TOO_HIGH
                wrong += each.finding.verdict in (Verdict.AS_EXPECTED, Verdict.TOO_LOW)
            else:
                wrong += each.finding.verdict in SLIPS
    report.test(f"of {named} single chains that slipped {found} are found, {wrong} wrong",
                wrong == 0 and 100 * found >= 75 * named > 0)


def main():
    """All kinds of pairs; the exit code."""
    parser = argparse.ArgumentParser(description=__doc__)
    parser.add_argument("--pairs", type=int, default=PAIRS, help="how many sound pairs are drawn")
    parser.add_argument("--seed", type=int, default=1, help="what they are drawn with")
    chosen = parser.parse_args()
    report, few = Report(), max(10, chosen.pairs // 10)
    test_whole_records(report, chosen.pairs, chosen.seed)
    for test in (test_people, test_no_people, test_unrelated, test_same_year, test_year_alone,
                 test_one_chain):
        test(report, few, chosen.seed)
    return report.finish()


if __name__ == "__main__":
    sys.exit(main())
