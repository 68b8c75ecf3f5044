"""The verb compare: the story of a slip, the analysis of change to the centime, what changed."""

import json
import random
import sys
import tempfile
import unittest
import unittest.mock
import xml.dom.minidom
from dataclasses import replace
from datetime import date
from pathlib import Path

from reference.book import (Cell, Portfolio, Values, make_book, random_book, random_values,
                            read_values)
from reference.practice_book import practice_book
from reference.valuation import totals
from tests import ROOT
from tests.cli.run import DONE, REFUSED, TROUBLE, sample, xaropinto
from tests.cli.test_page import cut_off
from tests.fixtures.book_pairs import KINDS, Plan, slipped, sound_pair
from tests.fixtures.people import two_years
from tests.support.report import run_unit_tests
from tools.sample_pages import DAY, FOLDER, write_page

sys.path.insert(0, str(ROOT / "python"))

from xaropinto import answers, calls  # noqa: E402
from xaropinto.book_changes import changes_between  # noqa: E402
from xaropinto.change_analysis import analyse_change  # noqa: E402
from xaropinto.compare import compare  # noqa: E402
from xaropinto.compare_page import Book, compare_page  # noqa: E402
from xaropinto.page import Imprint  # noqa: E402

STEPS = ["curve", "mortality", "cost rates", "lapse", "premiums and claims", "contracts"]
PAIRS = 200
# Of these pairs each step is valued by the reference implementation too.
BY_REFERENCE = 3
PG2_MEN = 6


def stepped(last, this):
    """The values after each step, made of the reference's own."""
    values = replace(last, curve=this.curve)
    yield values
    values = replace(values, edition=this.edition, percentages=this.percentages,
                     mortality=this.mortality)
    yield values
    values = replace(values, cost_rates=this.cost_rates)
    yield values
    for kinds in (("lapse",), ("premium", "claims")):
        values = replace(values, portfolios={
            chain: with_amounts(portfolio, this.portfolios.get(chain), kinds)
            for chain, portfolio in values.portfolios.items()})
        yield values
    yield this


def with_amounts(portfolio, other, kinds):
    """A chain with some amounts of another, at the classes that both have."""
    if other is None:
        return portfolio
    by_class = dict(enumerate(other.cells, start=other.first_class))
    cells = []
    for age, cell in enumerate(portfolio.cells, start=portfolio.first_class):
        new = by_class.get(age)
        cells.append(cell if new is None else
                     cell._replace(**{kind: getattr(new, kind) for kind in kinds}))
    return Portfolio(portfolio.first_class, tuple(cells))


def drawn_pairs():
    """Values of two years: sound ones, and any two with little in common."""
    chooser = random.Random(37)
    for number in range(PAIRS):
        if number % 2:
            yield sound_pair(Plan(number, 200, KINDS[number // 2 % len(KINDS)]))
        else:
            yield tuple(random_values(chooser, chooser.randint(0, 4), 90, number % 8 == 0)
                        for _ in range(2))


class Story(unittest.TestCase):
    """Last year's book is right; this year's has every class one too high."""

    def test_the_slipped_book_is_accepted_and_compare_says_so(self):
        check = xaropinto("check", sample("this_year_slipped"), "--today", DAY, "--strict")
        self.assertEqual((check.code, check.errors), (DONE, ""))
        self.assertIn(b": accepted 488\n", check.out)
        for name, verdict, code in (
                ("this_year_slipped",
                 "Age classes: every class looks one too high (is this book on age basis 2?)",
                 REFUSED), ("this_year", "Age classes: as expected", DONE)):
            run = xaropinto("compare", sample("last_year"), sample(name), "--today", DAY)
            self.assertEqual((run.code, run.errors), (DONE, ""))
            self.assertEqual(run.out.decode().splitlines()[:2], [verdict, ""])
            strict = xaropinto("compare", sample("last_year"), sample(name), "--today", DAY,
                               "--strict")
            self.assertEqual((strict.code, strict.out), (code, run.out))

    def test_the_page_shows_it(self):
        with tempfile.TemporaryDirectory() as folder:
            for name, words in (("compare_one_too_high.html", "looks one too high"),
                                ("compare_as_expected.html", "Age classes: as expected")):
                path = Path(folder) / name
                write_page(name, path)
                text = path.read_text(encoding="utf-8")
                self.assertEqual(text, (FOLDER / name).read_text(encoding="utf-8"))
                self.assertIn(words, text.split("<table")[0])
                pictures = xml.dom.minidom.parseString(text).getElementsByTagName("svg")
                self.assertEqual([cut_off(svg) for svg in pictures], [[]] * 3)
                self.assertEqual([svg.getElementsByTagName("title")[0].firstChild.data
                                  for svg in pictures],
                                 ["As the books have them", "This year's moved one class lower",
                                  "Base total, from last year to this"])

    def test_charts_of_large_books_are_not_cut_off(self):
        with tempfile.TemporaryDirectory() as folder:
            page = Path(folder) / "page.html"
            for last, this in (("full", "full"), ("one_record", "full")):
                run = xaropinto("compare", sample(last), sample(this), "-o", page)
                self.assertEqual(run.code, DONE)
                text = page.read_text(encoding="utf-8")
                pictures = xml.dom.minidom.parseString(text).getElementsByTagName("svg")
                self.assertEqual([cut_off(svg) for svg in pictures], [[]] * 3)
                self.assertIn(">billion francs<", text)

    def test_a_chain_that_differs_is_named(self):
        _, this = two_years()
        others = set(this.portfolios) - {PG2_MEN}
        with tempfile.TemporaryDirectory() as folder:
            path = Path(folder) / "this.book"
            for chains, by, lines in (
                    ({PG2_MEN}, 1, ["as expected", "of PG2 men: one too high"]),
                    (others, -1, ["every class looks one too low", "of PG2 men: as expected"])):
                path.write_bytes(make_book(slipped(this, by, chains)))
                run = xaropinto("compare", sample("last_year"), path, "--today", DAY, "--strict")
                self.assertEqual(run.out.decode().splitlines()[:3],
                                 [f"Age classes: {lines[0]}", f"Age classes {lines[1]}", ""])
                self.assertEqual(run.code, REFUSED)

    def test_json(self):
        run = xaropinto("compare", sample("last_year"), sample("this_year_slipped"), "--json",
                        "--today", DAY)
        answer = json.loads(run.out)["results"][0]["answer"]
        self.assertEqual(answer["alignment"]["overall"]["verdict"], "one too high")
        self.assertEqual([step["name"] for step in answer["analysis"]["steps"]], STEPS)
        self.assertEqual(answer["analysis"]["this"]["totals"],
                         list(totals(sample("this_year_slipped").read_bytes())[3]))


class Analysis(unittest.TestCase):
    """The analysis of change."""

    def test_steps_add_up_on_random_pairs(self):
        for number, pair in enumerate(drawn_pairs()):
            last, this = map(make_book, pair)
            analysis = analyse_change(last, this)
            self.assertEqual([step.name for step in analysis.steps], STEPS)
            ends = [calls.totals(book) for book in (last, this)]
            for kind, figures in (("totals", 8), ("differences", 4)):
                self.assertEqual(len(ends[1]._asdict()[kind]), figures)
                added = [getattr(step.adds, kind) for step in analysis.steps]
                self.assertEqual(tuple(map(sum, zip(getattr(ends[0], kind), *added))),
                                 tuple(getattr(ends[1], kind)))
            self.hold_each_step(number, pair, analysis)

    def hold_each_step(self, number, pair, analysis):
        """Each step is between two books made of the reference's values."""
        books = [make_book(values) for values in (pair[0], *stepped(*pair))]
        figures = [calls.totals(book).totals for book in books]
        if 0 < number <= BY_REFERENCE:
            figures = [tuple(totals(book)[3]) for book in books]
        for step, before, after in zip(analysis.steps, figures[:-1], figures[1:], strict=True):
            self.assertEqual(step.adds.totals, tuple(b - a for a, b in zip(before, after)))

    def test_order_by_hand(self):
        one = read_values(sample("one_record").read_bytes())
        # Ten contracts pay 1,000,000 a year for fifty years; twenty in the other book.
        cells = (Cell(20, 0, 100_000, 90_000),)
        two = replace(one, cost_rates=[200_000] * 5, portfolios={PG2_MEN: Portfolio(120, cells)})
        analysis = analyse_change(make_book(one), make_book(two))
        self.assertEqual([step.adds.totals[0] for step in analysis.steps],
                         [0, 0, 5_000_000, 0, 5_000_000, 5_000_000])
        self.assertEqual((analysis.last.totals[0], analysis.this.totals[0]),
                         (-5_000_000, 10_000_000))

    def test_what_one_book_alone_has_is_said(self):
        last, this = two_years()
        portfolio = this.portfolios.pop(PG2_MEN)
        this.portfolios[4] = Portfolio(portfolio.first_class + 5, portfolio.cells[5:])
        this.portfolios[2] = Portfolio(1, this.portfolios[2].cells[1:])
        this.portfolios[3] = Portfolio(20, this.portfolios[3].cells[20:])
        remarks = analyse_change(make_book(last), make_book(this)).remarks
        self.assertEqual(remarks, tuple(f"{words}, part of the step 'contracts'." for words in (
            "PG1b men: class 0 is in last year's book alone",
            "PG1b women: classes 0 to 19 are in last year's book alone",
            "PG1c men: the chain is in this year's book alone",
            "PG2 men: the chain is in last year's book alone")))

    def test_a_step_that_cannot_be_written_is_joined_with_the_next(self):
        last, this = map(make_book, two_years())
        whole, write = analyse_change(last, this), answers.write
        tables = answers.read(last).mortality
        for broken, names in (
                (lambda values: values.mortality == tables, ["curve and mortality", *STEPS[2:]]),
                (lambda values: True, [" and ".join(STEPS)])):
            def refusing(values, broken=broken):
                """Write, but for some books."""
                if broken(values):
                    raise answers.RefusedError(12, 0, "too large")
                return write(values)

            with unittest.mock.patch.object(answers, "write", refusing):
                joined = analyse_change(last, this)
            self.assertEqual([step.name for step in joined.steps], names)
            self.assertEqual(joined.this, whole.this)
            self.assertEqual(tuple(map(sum, zip(*(step.adds.totals for step in joined.steps)))),
                             tuple(map(sum, zip(*(step.adds.totals for step in whole.steps)))))
            self.assertIn("The book of the step 'curve' cannot be written (too large): it is "
                          "joined with the next step.", joined.remarks)


class Changes(unittest.TestCase):
    """What changed between two books."""

    def test_changes_by_hand(self):
        last = read_values(sample("worked_example").read_bytes())
        this = read_values(sample("edition_2").read_bytes())
        this.portfolios[PG2_MEN + 1] = this.portfolios.pop(PG2_MEN)
        this.cost_rates[1] = 160_000
        this.curve[2] = 7
        # Of 400,001 a tenth is 40,000.1.
        this.mortality[0][118:] = [440_001, 550_001, 1_000_000]
        found = changes_between(make_book(last), make_book(this))
        self.assertEqual((found.vanished, found.appeared), (("PG2 men",), ("PG2 women",)))
        self.assertEqual([(each.name, each.last, each.this) for each in found.percentages],
                         [("men", 87, 80), ("women", 86, 79)])
        self.assertEqual([(each.name, each.last, each.this) for each in found.mortality],
                         [("men 119", 500_000, 550_001)])
        for numbers, name in ((found.cost_rates, "PG2"), (found.curve, "3")):
            self.assertEqual([each.name for each in numbers if each.last != each.this], [name])

    def test_ratios_of_a_group(self):
        last, this = two_years()
        for chain in (2, 3):
            first, cells = this.portfolios[chain]
            this.portfolios[chain] = Portfolio(first, tuple(
                cell._replace(premium=2 * cell.premium, lapse=0) for cell in cells))
        found = changes_between(make_book(two_years()[1]), make_book(this)).groups[0]
        self.assertEqual((found.premium_ratio, found.claims_ratio, found.lapse_ratio), (2, 1, 0))
        empty = changes_between(make_book(last), make_book(this)).groups[2]
        self.assertEqual((empty.premium_ratio, empty.last.contracts), (None, 0))

    def test_unlinked_records(self):
        book = bytearray(sample("this_year").read_bytes())
        book[8 + 2 * PG2_MEN:10 + 2 * PG2_MEN] = bytes(2)
        found = changes_between(sample("last_year").read_bytes(), bytes(book))
        counts = [cell.count for cell in two_years()[1].portfolios[PG2_MEN].cells if cell.count]
        self.assertEqual((found.unlinked_this.records, found.unlinked_this.contracts),
                         (len(counts), sum(counts)))
        self.assertEqual(found.unlinked_last.records, 0)


class Ends(unittest.TestCase):
    """What is refused, and wrong use."""

    def test_a_refused_book_is_named(self):
        broken = sample("lapse_too_large")
        for pair in ((broken, sample("this_year")), (sample("last_year"), broken)):
            run = xaropinto("compare", *pair)
            self.assertEqual((run.code, run.out), (REFUSED, b""))
            self.assertIn(f"{broken}: refused 12 1232\n", run.errors)

    def test_books_in_the_wrong_order(self):
        run = xaropinto("compare", sample("this_year"), sample("last_year"))
        self.assertEqual((run.code, run.out), (TROUBLE, b""))
        self.assertIn("last year's book comes first", run.errors)

    def test_books_too_far_apart(self):
        last, this = two_years()
        with tempfile.TemporaryDirectory() as folder:
            path, page = Path(folder) / "later.book", Path(folder) / "page.html"
            for year, code in ((2075, DONE), (2076, TROUBLE)):
                path.write_bytes(make_book(replace(this, sst_year=year)))
                run = xaropinto("compare", sample("last_year"), path, "-o", page)
                self.assertEqual((last.sst_year, run.code), (2026, code))
            self.assertIn("projected over more than 49 years", run.errors)

    def test_any_two_books(self):
        chooser = random.Random(5)
        books = [random_book(chooser, chooser.choice((0, 60, 110)), 6) for _ in range(12)]
        books += [practice_book(3), make_book(Values())]
        day = date.fromisoformat(DAY)
        for last, this in zip(books, [*books[1:], books[0]]):
            # Both of one SST year.
            this = this[:2] + last[2:4] + this[4:]
            page = compare_page(Book("last", last), Book("this", this), compare(last, this, day),
                                Imprint(day))
            pictures = xml.dom.minidom.parseString(page).getElementsByTagName("svg")
            self.assertEqual([cut_off(svg) for svg in pictures], [[]] * len(pictures))

    def test_no_contracts(self):
        with tempfile.TemporaryDirectory() as folder:
            empty, page = Path(folder) / "empty.book", Path(folder) / "page.html"
            empty.write_bytes(make_book(replace(two_years()[1], portfolios={})))
            for pair in ((empty, empty), (sample("last_year"), empty)):
                run = xaropinto("compare", *pair, "-o", page, "--today", DAY)
                self.assertEqual((run.code, run.errors), (DONE, ""))
                self.assertTrue(run.out.startswith(b"Age classes: cannot tell\n"))
                xml.dom.minidom.parseString(page.read_text(encoding="utf-8"))

    def test_the_page_is_no_input(self):
        with tempfile.TemporaryDirectory() as folder:
            path = Path(folder) / "this.book"
            path.write_bytes(sample("this_year").read_bytes())
            run = xaropinto("compare", sample("last_year"), path, "-o", path)
            self.assertEqual(run.code, TROUBLE)
            self.assertEqual(path.read_bytes(), sample("this_year").read_bytes())


if __name__ == "__main__":
    sys.exit(run_unit_tests(sys.modules[__name__]))
