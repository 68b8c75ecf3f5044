"""What the verdict stream covers of odd chains, of links and of unlinked records."""

from collections import defaultdict

from reference.layout import CHAINS, LONGEST_BOOK, RECORD_COUNT, record
from tests.fixtures.defects import without_unlinked


def shares_a_head(paths):
    """Do two heads name the same record?"""
    heads = [path[0] for path in paths if path]
    return len(set(heads)) < len(heads)


def crosses(paths):
    """Does a next lead from a record of one chain alone into a record of another?"""
    return any(before not in other and number in other
               for one in paths for other in paths
               for before, number in zip(one, one[1:]))


def linked_records(entry):
    """How many records the chains of a book link."""
    return sum(len(path) for path in entry.paths)


class ChainCoverage:
    """Tests of what the books of the stream have of chains."""

    def test_chains(self):
        """Odd shapes of chains, and the full book."""
        cyclic = [entry for entry in self.entries
                  if any(len(set(path)) < len(path) for path in entry.paths)]
        into_itself = [entry for entry in cyclic
                       if any(path[-2:] == path[-1:] * 2 for path in entry.paths if path)]
        shared_heads = [entry for entry in self.entries if shares_a_head(entry.paths)]
        crossing = [entry for entry in self.entries if crosses(entry.paths)]
        for words, odd, numbers in (("cyclic chains", cyclic, {11, 13}),
                                    ("chains into themselves", into_itself, {11, 13}),
                                    ("two heads on one record", shared_heads, {10}),
                                    ("crossing chains", crossing, {10})):
            self.covers(f"{words}, refused by {' and by '.join(map(str, sorted(numbers)))}",
                        numbers, {entry.refusal[0] for entry in odd if not entry.accepted})
            self.check(f"{words}, never accepted", not any(entry.accepted for entry in odd))
        full = [entry for entry in self.entries if entry.accepted
                and len(entry.book) == LONGEST_BOOK and without_unlinked(entry.book) == entry.book]
        self.check("a valid full book with every record linked", full)

    def test_links(self):
        """Heads and nexts at 0, N, N + 1 and 65,535."""
        heads, nexts = set(), set()
        for entry in self.entries:
            count = RECORD_COUNT.read(entry.book)
            for chain, numbers in enumerate(entry.link_numbers):
                for step, number in enumerate(numbers):
                    link = CHAINS[chain].head if step == 0 else record(numbers[step - 1]).next
                    words = {0: "0", count: "N", count + 1: "N + 1", 65_535: "65,535"}.get(number)
                    refused_here = not entry.accepted and entry.refusal[1] == link.offset
                    if words and (entry.accepted or refused_here):
                        outcome = 0 if entry.accepted else entry.refusal[0]
                        (nexts if step else heads).add((words, outcome))
        self.covers("heads at 0, N, N + 1 and 65,535",
                    {("0", 0), ("N", 0), ("N + 1", 9), ("65,535", 9)}, heads)
        self.covers("nexts at 0, N, N + 1 and 65,535, by 9 below class 120 and by 13 at it",
                    {("0", 0), ("0", 13), ("N", 0), ("N", 13), ("N + 1", 9), ("N + 1", 13),
                     ("65,535", 9), ("65,535", 13)}, nexts)

    def test_unlinked(self):
        """The same books with other bytes in their unlinked records."""
        alike = defaultdict(dict)
        for entry in self.entries:
            alike[without_unlinked(entry.book)][entry.book] = entry.verdict
        groups = [verdicts for verdicts in alike.values() if len(verdicts) > 1]
        verdicts = [set(group.values()) for group in groups]
        self.check("changed junk never changes a verdict", all(len(v) == 1 for v in verdicts))
        kinds = {verdict[0] for group in verdicts for verdict in group}
        self.covers("changed junk in accepted and in refused books", {"accepted", "refused"}, kinds)
        counts = {entry.verdict[1] != linked_records(entry)
                  for entry in self.entries if entry.accepted}
        self.covers("n with and without records of count 0", {True, False}, counts)
