"""Compares every number of the promises and trial figures with the list of the order's figures.

tests/repository/order_figures.tsv says for each number which paper and section has it, and in which
definition of the specifications it stands. A promise may stay provable with a weaker number; here
that differs from the list. The test also changes each number in memory, and must notice it.
"""

import re
import sys
from collections import defaultdict
from typing import NamedTuple

from tests import ROOT
from tests.support.case import Case
from tests.support.report import run_unit_tests

LIST = ROOT / "tests" / "repository" / "order_figures.tsv"
# Steps of the code, as docs/VERIFICATION.md names them: no caller depends on these.
STEPS = {
    "arith/specs/Fractions", "book/specs/Reading", "cell/specs/States",
    "age_basis_classes/specs/Steps", "cost_rate_shares/specs/Usable",
    "fund_definitions/specs/Valued", "group_projection/specs/Added", "rate_table/specs/Puts",
    "rate_table/specs/Rows", "chain_rows/specs/Chain", "cash_flow/specs/CashFlow",
    "discount/specs/Discount", "discount/specs/Fraction", "discount_curve/specs/Curve",
    "totals/specs/Sizes", "totals_group/specs/Sums", "claims_estimates/specs/Ranked",
    "cell_projection/specs/Tables", "cell_projection/specs/Projected", "five_cells/specs/Five",
    "five_side_by_side/specs/SideBySide", "five_projections/specs/Projected",
    "report_text/specs/Tables", "report_years/specs/Asked", "present_value/specs/Outcome",
    "present_value_span/specs/Spans",
}

# What is no part of a definition, and levels of types; both are blanked, so that places stay.
NOT_READ = re.compile(r"(?<!\S)--.*|^(?:use|pub mod|infix\w*|module) .*"
                      r"|\bType \d+|\bUnit \{\d+\}", re.M)
# A definition, a record of statements or fields, and a field of one.
BEGINNING = re.compile(r"^ *(?:(?:abbrev|unfoldable) )+(?:pub )?(?P<name>\S+) :"
                       r"|^pub (?P<plain>\S+) :"
                       r"|^pub record (?P<record>[^\s:(){}]+)"
                       r"|^  pub (?P<field>\S+) :", re.M)
EDGE = r"[\s(){};,]"
NUMBER = re.compile(rf"(?:(?<={EDGE})|^)\d[\d_]*(?={EDGE}|$)")
ANY_DIGITS = re.compile(r"(?<![\w′.-])\d[\d_]*")


class Definition(NamedTuple):
    """Where a definition stands in the text of its file; a field of a record is RECORD.FIELD."""

    name: str
    start: int
    end: int

    def numbers(self, text):
        """Its numbers in their order."""
        return [int(found[0]) for found in NUMBER.finditer(text, self.start, self.end)]

    def is_statement(self):
        """Whether it is a field of a record."""
        return "." in self.name


def read_text(spec):
    """The text of a specification, with all that is not read blanked."""
    text = (ROOT / "crates" / f"{spec}.antt").read_text(encoding="utf-8")
    return NOT_READ.sub(lambda found: " " * len(found[0]), text)


def definitions(text):
    """The definitions of a text by name; a record's head is one too."""
    found, record = [], ""
    for each in BEGINNING.finditer(text):
        name = each["name"] or each["plain"] or each["record"] or f"{record}.{each['field']}"
        record = each["record"] or (record if each["field"] else "")
        found.append((name, each.start()))
    ends = [start for _, start in found[1:]] + [len(text)]
    return {name: Definition(name, start, end) for (name, start), end in zip(found, ends)}


class Row(NamedTuple):
    """A row of the list."""

    paper: str
    section: str
    figure: str
    specification: str
    definition: str
    numbers: str


def read_list():
    """The rows of the list."""
    lines = LIST.read_text(encoding="utf-8").splitlines()
    rows = [Row(*line.split("\t")) for line in lines if not line.startswith("#")]
    return rows[1:]


def numbers_due(rows):
    """The numbers of the rows, by specification and definition."""
    due = defaultdict(lambda: defaultdict(list))
    for row in rows:
        due[row.specification][row.definition] += map(int, row.numbers.split())
    return due


def must_be_listed(definition, numbers):
    """Every number of a statement, and of a definition with a number above 1."""
    return bool(numbers) and (definition.is_statement() or max(numbers) > 1)


def differences(text, due):
    """What differs between a specification and the list: the definition, its numbers, those due."""
    there = definitions(text)
    for name, definition in there.items():
        numbers = definition.numbers(text)
        if (name in due or must_be_listed(definition, numbers)) and numbers != due.get(name):
            yield name, numbers, due.get(name)
    for name in due.keys() - there.keys():
        yield name, None, due[name]


def changed_numbers(text, due):
    """The text with one number of the listed definitions one higher, for each number."""
    for name, definition in definitions(text).items():
        if name not in due:
            continue
        for found in ANY_DIGITS.finditer(text, definition.start, definition.end):
            yield name, text[:found.start()] + str(int(found[0]) + 1) + text[found.end():]


def specifications():
    """All that there are, each as CRATE/specs/FILE."""
    paths = sorted((ROOT / "crates").glob("*/specs/*.antt"))
    return [f"{path.parent.parent.name}/specs/{path.stem}" for path in paths]


class OrderFigures(Case):
    """One check for each specification, and for the list as a whole."""

    def test_numbers_are_those_of_the_list(self):
        rows = read_list()
        due, tried = numbers_due(rows), 0
        for spec in specifications():
            if spec not in STEPS:
                tried += self.check_specification(spec, due[spec])
        numbers = sum(len(row.numbers.split()) for row in rows)
        self.check(f"each of the {numbers} numbers was changed", tried == numbers > 0,
                   f"{tried} were")

    def check_specification(self, spec, due):
        """Its numbers are those of the list, and each change is noticed; how many were tried."""
        text = read_text(spec)
        wrong = [f"{name} has {numbers}, due are {numbers_listed}"
                 for name, numbers, numbers_listed in differences(text, due)]
        inside = sum(len(each.numbers(text)) for each in definitions(text).values())
        if inside != len(ANY_DIGITS.findall(text)):
            wrong.append("a number stands in no definition")
        changes = list(changed_numbers(text, due))
        # A change of a number that is wrong already may put it right.
        for name, changed in changes if not wrong else ():
            if name not in [each for each, _, _ in differences(changed, due)]:
                wrong.append(f"a change in {name} is not noticed")
        if due or wrong:
            self.check(f"numbers of {spec}: {len(changes)}", not wrong, "; ".join(wrong))
        return len(changes)

    def test_every_specification_named_is_there(self):
        self.covers("steps of the code", STEPS, specifications())
        listed = {row.specification for row in read_list()}
        self.covers("specifications of the list", listed, specifications())


if __name__ == "__main__":
    sys.exit(run_unit_tests(sys.modules[__name__]))
