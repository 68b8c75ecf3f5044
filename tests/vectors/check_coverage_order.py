"""What the verdict stream covers of the order in which refusals are given."""

from itertools import combinations, product

from tests.vectors.check_cases_order import header_pairs


def scope(first, other):
    """Where a later defect stands, seen from the refusal."""
    if first.rank[0] == 0:
        return "header"
    if first.rank[1] != other.rank[1]:
        return "other chain"
    return "same record" if first.rank[2] == other.rank[2] else "same chain"


def label(defect):
    """A chain's refusal number, with 9 split into heads and nexts."""
    return f"9 at {defect.cause}" if defect.number == 9 else f"{defect.number}"


def pairs_seen(entries):
    """The pairs of defects led by the refusal: header pairs by number, others by label."""
    seen = set()
    for entry in entries:
        for other in entry.defects[1:]:
            first = entry.defects[0]
            where = scope(first, other)
            if where == "header":
                seen.add((where, first.number, other.number))
            else:
                seen.add((where, label(first), label(other)))
    return seen


class OrderCoverage:
    """Tests of which refusals meet in the books of the stream."""

    def test_order(self):
        """Every pair of refusals that can meet, and places within one number."""
        seen = pairs_seen(self.entries)
        in_record = ("10", "11", "12", "13", "9 at next")
        in_chain = ("9 at head", *in_record)
        header = {("header", *pair) for pair in header_pairs()}
        self.covers(f"a header refusal before any it can meet, {len(header)} pairs", header, seen)
        percentages = {(1, 23), (3, 23), (4, 23), *((23, number) for number in range(5, 14))}
        self.covers(f"23 between 4 and 5, {len(percentages)} pairs",
                    {("header", *pair) for pair in percentages}, seen)
        self.covers("an earlier chain before a later one, every two numbers",
                    {("other chain", *pair) for pair in product(in_chain, in_chain)}, seen)
        self.covers("a record before a later one of its chain",
                    {("same chain", *pair) for pair in product(("10", "11", "12"), in_record)},
                    seen)
        self.covers("within a record 10, 11, 12, 13, then its next 9",
                    {("same record", *pair) for pair in combinations(in_record, 2)}, seen)

    def test_places(self):
        """The earlier place within one number, and the chain's order before the file's."""
        twice, against_file = set(), set()
        for entry in self.entries:
            for other in entry.defects[1:]:
                first = entry.defects[0]
                if first.number == other.number and first.place < other.place:
                    twice.add(first.number)
                if first.rank[0] == 1 and first.place > other.place:
                    against_file.add(scope(first, other))
        self.covers("two bad fields of one kind, the earlier named", {4, 6, 7, 8, 9, 12, 23}, twice)
        self.covers("the chain's order before the file's",
                    {"same chain", "other chain"}, against_file)
