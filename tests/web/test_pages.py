"""Pages and comparisons of the web page's modules: letter for letter those of the package."""

import json
import subprocess
import sys
import unittest.mock
from datetime import date

from tests import ROOT
from tests.cli.run import sample
from tests.support.report import run_unit_tests
from tests.web.node import module_path, node_path
from tests.web.node_case import NodeCase
from tests.web.page_inputs import Pair, Titled, drawn_books, drawn_pairs
from tools.sample_books import PAGES
from tools.sample_pages import DAY, FOLDER, WORDS

sys.path.insert(0, str(ROOT / "python"))

from xaropinto import age_alignment, answers, calls, charts  # noqa: E402
from xaropinto.change_analysis import analyse_change  # noqa: E402
from xaropinto.cli.compare import comparison_lines  # noqa: E402
from xaropinto.compare import YearsError, compare  # noqa: E402
from xaropinto.compare_page import Book, compare_page  # noqa: E402
from xaropinto.json_data import json_fields  # noqa: E402
from xaropinto.layout import YEARS  # noqa: E402
from xaropinto.page import Imprint, page_of  # noqa: E402

REFUSED_STEPS = ROOT / "tests" / "web" / "refused_steps.mjs"
BOOKS, PAIRS = 330, 180
ACCEPTED = ("one_record", "worked_example", "edition_2", "small_insurer", "full", "last_year",
            "this_year", "this_year_slipped")
REFUSED = ("lapse_too_large", "newer_basis")
# The package's logarithms may differ in the last digit; a signal differs by less than this.
SAME = 1e-9
LARGEST_EXACT = 2**53


def imprint_of(titled):
    """What a page says of its making, as the modules take it."""
    return {"today": titled.day.isoformat(), "insurer": titled.insurer}


def compared(pair):
    """The text and the page of two books, and the comparison."""
    comparison = compare(pair.last.book, pair.this.book, pair.this.day)
    page = compare_page(Book(pair.last.name, pair.last.book), Book(pair.this.name, pair.this.book),
                        comparison, Imprint(pair.this.day, pair.this.insurer))
    return "\n".join([*comparison_lines(comparison), ""]), page, comparison


class PageCase(NodeCase):
    """Tests of whole pages."""

    def pages(self, books):
        """The pages of books."""
        return self.node.calls([("page.pageOf", each.name, each.book, imprint_of(each))
                                for each in books])

    def comparisons(self, pairs):
        """The texts and pages of pairs, and their comparisons."""
        return self.node.calls([
            ("cli_compare.shownComparison",
             *({"name": each.name, "held": each.book} for each in pair), imprint_of(pair.this))
            for pair in pairs])


class Samples(PageCase):
    """The sample books, on the day of their pages."""

    def titled(self, path):
        """A sample as the command takes it."""
        return Titled(path.name, path.read_bytes(), date.fromisoformat(DAY), "")

    def test_pages_are_the_files_byte_for_byte(self):
        for name in PAGES:
            verb, *paths = WORDS[name]
            books = [self.titled(path) for path in paths]
            page = (self.pages(books)[0] if verb == "page"
                    else self.comparisons([Pair(*books)])[0]["page"])
            self.check(name, page.encode() == (FOLDER / name).read_bytes())

    def test_pages_of_all_accepted_books(self):
        books = [self.titled(sample(name)) for name in ACCEPTED]
        self.same("pages", self.pages(books),
                  [page_of(each.name, each.book, Imprint(each.day)) for each in books])

    def test_refusals(self):
        for name in REFUSED:
            book = self.titled(sample(name))
            with self.assertRaises(answers.RefusedError) as due:
                page_of(book.name, book.book, Imprint(book.day))
            for request in (("page.pageOf", book.name, book.book, imprint_of(book)),
                            ("compare.compare", book.book, book.book, DAY)):
                error = self.node.outcomes([request])[0]
                given = error.name, error.fields["words"], error.fields["owner"]
                self.check(f"{name} in {request[0]}", given == (
                    "RefusedError", due.exception.words, due.exception.owner), str(error))


class RandomPages(PageCase):
    """Pages of books of every kind."""

    def test_pages(self):
        books = drawn_books(BOOKS, 41)
        due = [page_of(each.name, each.book, Imprint(each.day, each.insurer)) for each in books]
        self.same(f"{BOOKS} pages", self.pages(books), due)
        # What the books are there for.
        figures = [figure for each in books for figure in answers.totals(each.book).totals]
        for name, seen in (
                ("totals below zero", any(each < 0 for each in figures)),
                ("totals beyond 2^53", any(each > LARGEST_EXACT for each in figures)),
                ("no contracts", any(">No contracts.<" in page for page in due)),
                ("a name as long as a SHA-256", any(len(each.name) == 64 for each in books)),
                *((f"amounts in {unit}", any(f">{unit}</text>" in page for page in due))
                  for _, unit in charts.UNITS)):
            self.check(f"books with {name}", seen)


class RandomComparisons(PageCase):
    """Comparisons of pairs of every kind."""

    def test_texts_and_pages(self):
        pairs = drawn_pairs(PAIRS, 43)
        given, due = self.comparisons(pairs), [compared(pair) for pair in pairs]
        for at, kind in enumerate(("text", "page")):
            self.same(f"{kind} of {PAIRS} pairs", [each[kind] for each in given],
                      [each[at] for each in due])
        ours = [signals(each[2].alignment) for each in due]
        theirs = [signals_given(each["comparison"]["alignment"]) for each in given]
        far = [pair for one, other in zip(theirs, ours) for pair in zip(one, other, strict=True)
               if abs(pair[0] - pair[1]) > SAME * max(1.0, abs(pair[1]))]
        self.check("signals to nine digits", not far, str(far[:5]))
        self.covers("every verdict was given", age_alignment.Verdict,
                    {each[2].alignment.overall.verdict for each in due})
        analyses = [each[2].analysis for each in due]
        for kind in ("the chain is", "classes", "class 0 is"):
            self.check(f"{kind} in one book alone", any(
                f": {kind}" in remark for each in analyses for remark in each.remarks))
        self.check("steps below zero beyond 2^53", any(
            step.adds.totals[0] < -LARGEST_EXACT for each in analyses for step in each.steps))

    def test_years_that_do_not_fit(self):
        this, last = (sample(name).read_bytes() for name in ("this_year", "last_year"))
        later = this[:2] + (answers.read(last).year + YEARS).to_bytes(2, "little") + this[4:]
        for name, pair in (("order", (this, last)), ("too far apart", (last, later))):
            with self.assertRaises(YearsError) as due:
                compare(*pair, date.fromisoformat(DAY))
            error = self.node.outcomes([("compare.compare", *pair, DAY)])[0]
            self.check(name, (error.name, error.message) == ("YearsError", str(due.exception)))

    def test_a_step_that_cannot_be_written_is_joined_with_the_next(self):
        paths = [sample(name) for name in ("last_year", "this_year")]
        books = [path.read_bytes() for path in paths]
        for refusals in ((0, 0, 0, 0, 0), (9, 0, 0, 0, 0), (0, 9, 12, 0, 0), (0, 0, 0, 0, 21),
                         (9, 9, 9, 9, 9)):
            run = subprocess.run(
                [node_path(), REFUSED_STEPS, module_path(), *paths, *map(str, refusals)],
                capture_output=True, check=True)
            replies, write = iter(refusals), calls.write

            def refusing(*given, replies=replies, write=write):
                """Write, but for some calls."""
                refusal = next(replies)
                return calls.WriteReply(refusal, 0, 0) if refusal else write(*given)

            with unittest.mock.patch.object(calls, "write", refusing):
                due = json_fields(analyse_change(*books))
            self.check(f"refusals {refusals}", as_text(json.loads(run.stdout)) == as_text(due))


def as_text(held):
    """Numbers as their digits, tuples as lists."""
    if isinstance(held, dict):
        return {name: as_text(each) for name, each in held.items()}
    if isinstance(held, (list, tuple)):
        return [as_text(each) for each in held]
    return str(held)


def signals(alignment):
    """The shift and lead of each signal."""
    return [number for finding in (alignment.overall, *(each.finding for each in alignment.chains))
            for signal in (finding.counts, finding.curves)
            for number in (signal.shift, signal.errors)]


def signals_given(alignment):
    """The same of a reply."""
    findings = (alignment["overall"], *(each["finding"] for each in alignment["chains"]))
    return [number for finding in findings for signal in (finding["counts"], finding["curves"])
            for number in (signal["shift"], signal["errors"])]


if __name__ == "__main__":
    sys.exit(run_unit_tests(sys.modules[__name__]))
