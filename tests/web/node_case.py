"""Tests that ask one process of node and compare texts."""

from tests.support.case import Case
from tests.web.node import Node
from tools.web_tables import write_tables


def first_difference(given, due):
    """Where two texts part, for the reader of a failure."""
    at = next((at for at, (one, other) in enumerate(zip(given, due)) if one != other),
              min(len(given), len(due)))
    return f"at {at:,}: {given[max(0, at - 40):at + 40]!r}, due is {due[max(0, at - 40):at + 40]!r}"


class NodeCase(Case):
    """Tests that ask one process of node."""

    @classmethod
    def setUpClass(cls):
        write_tables()
        cls.node = Node()
        cls.addClassCleanup(cls.node.close)
        super().setUpClass()

    def same(self, name, given, due):
        """A check that all texts are as due; where one is not, the first difference is shown."""
        differing = [(at, *pair) for at, pair in enumerate(zip(given, due, strict=True))
                     if pair[0] != pair[1]]
        detail = ""
        if differing:
            at, *texts = differing[0]
            detail = f"{len(differing)} differ, first number {at}: {first_difference(*texts)}"
        self.check(name, not differing, detail)
