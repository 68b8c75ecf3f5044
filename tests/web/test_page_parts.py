"""What pages are made of, in the web page's modules: digests, characters, logarithms, charts."""

import hashlib
import math
import random
import sys
import unicodedata
from decimal import Context, Decimal

from tests import ROOT
from tests.support.report import run_unit_tests
from tests.web.node_case import NodeCase

sys.path.insert(0, str(ROOT / "python"))

from xaropinto import age_alignment, charts, html_parts  # noqa: E402
from xaropinto.compare_page import signal_words, times  # noqa: E402

NUMBERS, CHARTS = 3_000, 100
CODES, LATIN_ENDS = 0x110000, 0x2FF
# What stands for what is no text; categories that no later version of Unicode changes.
MARK, FIXED = "\ufffd", ("Cc", "Cs")
MOST_AMOUNT = 10_000_000


def is_never_assigned(code):
    """Whether no version of Unicode has a character for it."""
    return 0xFDD0 <= code <= 0xFDEF or code & 0xFFFE == 0xFFFE


class Parts(NodeCase):
    """What the pages are made of, on numbers and characters of every kind."""

    def test_digests(self):
        chooser = random.Random(47)
        held = [chooser.randbytes(length) for length in (*range(200), 4_096, 41_876, 65_537)]
        self.same("SHA-256", self.node.calls([("sha256.sha256", each) for each in held]),
                  [hashlib.sha256(each).hexdigest() for each in held])

    def test_characters(self):
        # Apart, so that two halves do not make a character.
        given = self.node.call("html_parts.text", " ".join(map(chr, range(CODES)))).split(" ")
        # The space itself is shown as two empty words.
        given[32:34] = [" "]
        due = [html_parts.text(chr(code)) for code in range(CODES)]
        # Characters that one of the two tables of Unicode does not have yet.
        newer = [code for code in range(CODES) if {given[code], due[code]} == {chr(code), MARK}
                 and unicodedata.category(chr(code)) not in FIXED and not is_never_assigned(code)]
        self.check("newer characters are of late blocks", min(newer, default=CODES) > LATIN_ENDS,
                   str(newer[:5]))
        for code in newer:
            given[code] = due[code]
        self.same("all other characters", given, due)

    def test_logarithms(self):
        chooser = random.Random(53)
        numbers = [*range(1, 200), *(chooser.randint(1, MOST_AMOUNT) for _ in range(NUMBERS)),
                   *(1 + chooser.random() ** chooser.choice((1, 5, 40)) for _ in range(NUMBERS)),
                   *(1 + 2.0 ** -bits for bits in range(53)), 2.0**200]
        given = self.node.calls([("logarithm.log", number) for number in numbers])
        digits = Context(prec=50)
        due = [float(Decimal(number).ln(digits)) for number in numbers]
        self.same("the nearest double", [*map(repr, map(float, given))], [*map(repr, due)])
        far = [number for number, each in zip(numbers, given)
               if abs(each - math.log(number)) > math.ulp(each)]
        self.check("at most the last digit differs from the package's", not far, str(far[:5]))

    def test_chances(self):
        people = [*range(300), 99_999, 200_000]
        self.same("of counts alike",
                  [*map(repr, map(float, self.node.calls(
                      [("age_alignment.chanceOfAlike", each) for each in people])))],
                  [repr(float(age_alignment.chance_of_alike(each))) for each in people])

    def test_axes(self):
        chooser = random.Random(59)
        numbers = [0, 1, 5, 1e-9, 10_000, *(25 * (1 + 2**-52 * k) for k in range(4))]
        for _ in range(NUMBERS):
            # Around a whole number of steps.
            whole = chooser.choice((1, 2, 5)) * 10 ** chooser.randint(0, 6) * chooser.randint(1, 6)
            numbers.append(whole * (1 + chooser.choice((-1, 0, 1)) * 2**-52))
        amounts = [round(1e12 * number) for number in numbers]
        for function, due, held in (("axisStep", charts.axis_step, numbers),
                                    ("unitOf", charts.unit_of, amounts)):
            given = self.node.calls([(f"charts.{function}", each) for each in held])
            self.same(function, [*map(str, given)], [str(list(due(each))) for each in held])

    def test_charts(self):
        chooser = random.Random(61)
        for name in ("line", "bar", "step"):
            drawn = [drawn_chart(chooser, name) for _ in range(CHARTS)]
            self.same(f"{name} charts",
                      self.node.calls([(f"charts.{name}Chart", *each) for each in drawn]),
                      [python_chart(name, each) for each in drawn])

    def test_decimals_at_their_halves(self):
        quarters = [number / 4 for number in range(200)]
        rows = [(1, ("name", "value"), left, (left, 3 * left + 0.5), 0) for left in quarters]
        self.same("rows of a chart",
                  map("".join, self.node.calls([("charts.stepRow", *each) for each in rows])),
                  ["".join(charts.step_row(*each)) for each in rows])
        leads = [{"shift": 1, "errors": each} for each in quarters]
        self.same("leads of a signal",
                  self.node.calls([("compare_page.signalWords", each) for each in leads]),
                  [signal_words(age_alignment.Signal(**each)) for each in leads])
        ratios = [number / 16 for number in range(200)]
        self.same("ratios", self.node.calls([("compare_page.times", each) for each in ratios]),
                  [times(each) for each in ratios])


def drawn_chart(chooser, name):
    """The arguments of a chart, some of its values halves and quarters."""
    def value():
        """At a tie of the decimals that are shown, now and then."""
        return chooser.choice((chooser.randint(0, 40) / 4, chooser.uniform(0, 20_000), 0.0))

    if name == "step":
        sides = [(f"step {at} <&>", chooser.choice((1, -1)) * value(), at in (0, 5))
                 for at in range(6)]
        return "title", "francs", sides
    values = [[value() for _ in range(chooser.choice((50, 121)))]]
    values.append([value() for _ in values[0]])
    values[0][0] = 1.0
    return "title & more", "unit", "along", [
        {"name": name, "values": each} for name, each in zip(("one", "other"), values)]


def python_chart(name, arguments):
    """The package's chart."""
    *words, held = arguments
    if name != "step":
        held = [charts.Series(**each) for each in held]
    return getattr(charts, f"{name}_chart")(*words, held)


if __name__ == "__main__":
    sys.exit(run_unit_tests(sys.modules[__name__]))
