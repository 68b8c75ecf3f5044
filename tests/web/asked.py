"""Requests to the web page's modules, each with what the Python package gives."""

import atexit
import functools
import sys
from dataclasses import fields, is_dataclass

from tests import ROOT
from tests.support.case import Case
from tests.web.node import Node, NodeError
from tools.web_tables import in_camel_case, write_tables

sys.path.insert(0, str(ROOT / "python"))

from xaropinto import answers, tables  # noqa: E402


@functools.cache
def node():
    """One process for all tests, on the tables as the package has them now."""
    write_tables()
    process = Node()
    atexit.register(process.close)
    return process


def as_plain(held):
    """A result of the package as the modules give it."""
    if isinstance(held, answers.RefusedError):
        return ("RefusedError", held.number, held.place, held.words, held.owner)
    if isinstance(held, tables.BadLineError):
        return ("BadLineError", str(held))
    if hasattr(held, "_fields") or is_dataclass(held):
        names = getattr(held, "_fields", None) or [each.name for each in fields(held)]
        return {in_camel_case(name): as_plain(getattr(held, name)) for name in names}
    if isinstance(held, dict):
        return {name: as_plain(each) for name, each in held.items()}
    return [as_plain(each) for each in held] if isinstance(held, (tuple, list)) else held


def outcome(function, *arguments):
    """What a function of the package gives, or the error that it ends with."""
    try:
        return as_plain(function(*arguments))
    except (answers.RefusedError, tables.BadLineError) as error:
        return as_plain(error)


def in_node(reply):
    """What a function of the modules gave, or the error that it ended with."""
    if not isinstance(reply, NodeError):
        return reply
    if reply.name == "RefusedError":
        held = reply.fields
        return (reply.name, held["number"], held["place"], held["words"], held["owner"])
    return (reply.name, reply.message)


class Asked:
    """Requests to the modules, each with what is due of it."""

    def __init__(self):
        self.requests, self.due = [], []

    def ask(self, due, *asked):
        """One more: what is due, the function and its arguments."""
        self.requests.append(asked)
        self.due.append(due)

    def replies(self):
        """The function asked, what it gave, what is due, and its arguments."""
        for asked, due, given in zip(self.requests, self.due, node().outcomes(self.requests)):
            yield asked[0], in_node(given), due, asked[1:]


class NodeCase(Case):
    """Tests of which every reply counts for its function."""

    def same(self, name, asked):
        """A check that all replies are as due."""
        differing = [reply for reply in asked.replies() if reply[1] != reply[2]]
        self.assertTrue(asked.requests)
        detail = f"{len(differing)} differ, the first: {str(differing[:1])[:1_500]}"
        self.check(name, not differing, detail)


class Drawn:
    """Random inputs, all of which are asked for at once."""

    @classmethod
    def draw(cls, chooser):
        asked = Asked()
        for number in range(cls.number):
            cls.ask(asked, number, chooser)
        for function, given, due, arguments in asked.replies():
            cls.tally.compare(function, given, due, f"gives {given!r:.600}, due is {due!r:.600}",
                              cls.kept(arguments))

    @classmethod
    def kept(cls, arguments):
        """A number and the book of a request that differs."""
        book = arguments[0] if isinstance(arguments[0], bytes) else b""
        return (sum(cls.tally.replies.values()), book)

    def test_agreement(self):
        self.check_agreement()
