"""What tests on random inputs share: how many are drawn, with which seed, and what they show."""

import os
import random
from collections import Counter

from tests import ROOT
from tests.support.case import Case
from tests.support.report import NUMBER, SEED

# At the top, since the gate empties target/.
KEPT = ROOT / "differing"
MOST_SHOWN = 5


def keep_book(book, test, seed, number):
    """Keep a book on which a test fails; its path."""
    path = KEPT / f"{test}-{seed}-{number}.book"
    path.parent.mkdir(exist_ok=True)
    path.write_bytes(book)
    return path.relative_to(ROOT)


class Tally:
    """Counts the kinds of inputs seen, the replies to each call, and those that differ."""

    def __init__(self, test, seed):
        self.test, self.seed = test, seed
        self.seen = Counter()
        self.replies = Counter()
        self.differences = Counter()

    def compare(self, call, given, due, words, kept=()):
        """One reply; `kept` is a pair of a number or name and the book to keep if it differs."""
        self.replies[call] += 1
        if given != due:
            self.differs(call, words, kept)

    def differs(self, call, words, kept=()):
        """One difference; the first are shown, and their books kept."""
        self.differences[call] += 1
        if self.differences.total() <= MOST_SHOWN:
            paths = [f"{path}: " for path in (self.keep(*kept) if kept else ())]
            print(f"difference, seed {self.seed}: {''.join(paths)}{call} {words}")

    def keep(self, number, book):
        """Keep what a reply differs on; the paths."""
        return [keep_book(book, self.test, self.seed, number)]

    def rare(self, kinds, least):
        """The kinds that were seen less often than this."""
        return [kind for kind in kinds if self.seen[kind] < least]


class Differential(Case):
    """Tests of what random inputs show, which are drawn once for all tests of a class.

    A class says how many are drawn, with which seed, how many it takes to see every kind, and
    what kept books are named by; `draw` compares each input and counts it in the tally.
    """

    number, seed, for_coverage, kept_as = 0, 0, 1, "book"
    make_tally = Tally

    @classmethod
    def setUpClass(cls):
        super().setUpClass()
        cls.number = int(os.environ.get(NUMBER) or cls.number)
        cls.seed = int(os.environ.get(SEED) or cls.seed)
        if cls.number < 1:
            raise ValueError("at least one input is needed: with none, nothing would be tested")
        print(f"seed {cls.seed}", flush=True)
        cls.tally = cls.make_tally(cls.kept_as, cls.seed)
        cls.draw(random.Random(cls.seed))

    @classmethod
    def draw(cls, chooser):
        """Draw the inputs and compare what is due with what is given."""
        raise NotImplementedError

    def check_agreement(self):
        """A check for each call: no reply differs."""
        self.assertTrue(self.tally.replies)
        for call, times in sorted(self.tally.replies.items()):
            differing = self.tally.differences[call]
            self.check(f"{times} replies agree: {call}", differing == 0, f"{differing} differ")

    def check_seen(self, least_times):
        """A check for each kind that it was seen so often."""
        for kind, least in least_times.items():
            times = self.tally.seen[kind]
            self.check(f"{kind}: {times} times", times >= least,
                       f"seen {times} times, at least {least} are due")

    def check_rare(self, words, kinds, least):
        """One check that each of these kinds was seen so often."""
        rare = self.tally.rare(kinds, least)
        self.check(words, not rare, f"rare: {rare}")

    def require_coverage(self):
        """Leave a test of coverage out where so few are drawn that a kind may be missed."""
        if self.number < self.for_coverage:
            self.skipTest(f"{self.number} of {self.for_coverage} inputs are drawn")
