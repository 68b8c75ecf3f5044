"""The page of a book: every figure on it, nothing cut off, and the same bytes on the same day."""

import hashlib
import re
import sys
import tempfile
import unittest
import xml.dom.minidom
from fractions import Fraction
from pathlib import Path

from reference.book import read_values
from reference.layout import CHAINS, GROUPS
from reference.valuation import group, totals
from tests.cli.run import DONE, TROUBLE, sample, xaropinto
from tests.support.report import run_unit_tests
from tools.sample_pages import DAY, FOLDER, write_page

ACCEPTED = ("one_record", "worked_example", "edition_2", "small_insurer", "full")
# The widest that a letter of the charts' font is on average, in units of the picture.
LETTER = 6.8


def swiss(number):
    """With apostrophes."""
    return f"{number:,}".replace(",", "'")


def million_francs(centimes):
    """With three decimals, halves away from zero."""
    thousands = int(abs(Fraction(centimes, 100_000)) + Fraction(1, 2))
    sign = "-" if centimes < 0 and thousands else ""
    return f"{sign}{swiss(thousands // 1_000)}.{thousands % 1_000:03d}"


def cells_of(table):
    """The rows of a table as text."""
    return [[words_of(cell) for cell in row.childNodes if cell.nodeName in ("th", "td")]
            for row in table.getElementsByTagName("tr")]


def words_of(node):
    """The text below a node."""
    if node.nodeType == node.TEXT_NODE:
        return node.data
    return "".join(words_of(child) for child in node.childNodes)


def cut_off(svg):
    """The texts of a picture that reach beyond its sides."""
    _, _, width, height = map(float, svg.getAttribute("viewBox").split())
    found = []
    for text in svg.getElementsByTagName("text"):
        words, left = words_of(text), float(text.getAttribute("x"))
        length = LETTER * len(words)
        left -= {"end": length, "middle": length / 2}.get(text.getAttribute("text-anchor"), 0)
        below = float(text.getAttribute("y"))
        if left < -0.1 or left + length > width + 0.1 or not 10 <= below <= height:
            found.append(words)
    return found


class Pages(unittest.TestCase):
    """The pages of the samples."""

    def page_of(self, name, *words):
        """The text of a page, and the same parsed."""
        with tempfile.TemporaryDirectory() as folder:
            path = Path(folder) / "page.html"
            run = xaropinto("page", sample(name), "-o", path, "--today", DAY, *words)
            self.assertEqual(run.code, DONE)
            text = path.read_text(encoding="utf-8")
            return text, xml.dom.minidom.parseString(text)

    def test_figures(self):
        for name in ACCEPTED:
            text, page = self.page_of(name)
            book = sample(name).read_bytes()
            _, _, n, by_setting, differences = totals(book)
            tables = [cells_of(table) for table in page.getElementsByTagName("table")]
            for table, figures in ((tables[1], by_setting), (tables[2], differences)):
                self.assertEqual([row[1:] for row in table[1:]],
                                 [[swiss(each), million_francs(each)] for each in figures])
            below_zero = min(read_values(book).curve) < 0
            distance = 500 * n + 14_250 if below_zero else 250 * n + 7_125
            self.assertEqual(text.count(f"within ± {swiss(distance)} centimes"), 1)
            for number, product_group in enumerate(GROUPS, start=1):
                liability = million_francs(group(book, 0, number, 200)[2])
                self.assertEqual(f"{product_group}: liability {liability} million" in text,
                                 any(CHAINS[chain].code in codes_of(number)
                                     for chain in read_values(book).portfolios))

    def test_top(self):
        text, page = self.page_of("edition_2", "--insurer", "A & B <Health>\x01")
        rows = dict(cells_of(page.getElementsByTagName("table")[0]))
        digest = hashlib.sha256(sample("edition_2").read_bytes()).hexdigest()
        self.assertEqual(rows, {
            "Insurer": "A & B <Health>\ufffd", "File": "edition_2.book", "SST year": "2021",
            "Age basis": "1", "Edition": "2, mortality percentages 80 and 79",
            "Length": "1'292 bytes", "SHA-256": digest, "Date of the run": DAY,
            "Program": rows["Program"]})
        self.assertNotIn("Insurer", self.page_of("edition_2")[0])
        self.assertIn(">accepted 3<", text)

    def test_one_linked_record(self):
        self.assertIn(">1 linked record holds contracts.<", self.page_of("one_record")[0])
        self.assertIn(">3 linked records hold contracts.<", self.page_of("worked_example")[0])

    def test_means_of_the_groups(self):
        _, page = self.page_of("small_insurer")
        rows = cells_of(page.getElementsByTagName("table")[3])[1:]
        values = read_values(sample("small_insurer").read_bytes())
        for number, (name, row) in enumerate(zip(GROUPS, rows, strict=True), start=1):
            cells = [cell for chain, (_, held) in values.portfolios.items() for cell in held
                     if CHAINS[chain].code in codes_of(number)]
            count = sum(cell.count for cell in cells)
            due = [sum(cell.count * cell[kind] for cell in cells) / count / unit
                   for kind, unit in ((2, 100), (3, 100), (1, 10_000))]
            self.assertEqual(row[:2], [name, swiss(count)])
            self.assertEqual([float(cell.replace("'", "")) for cell in row[2:5]],
                             [round(each, 2) for each in due])

    def test_tables_are_labelled(self):
        for name in ("small_insurer", "one_record"):
            _, page = self.page_of(name)
            for table in page.getElementsByTagName("table"):
                self.assertEqual(len(table.getElementsByTagName("caption")), 1)
                headings = table.getElementsByTagName("th")
                self.assertEqual({each.getAttribute("scope") for each in headings} - {"col", "row"},
                                 set())

    def test_charts(self):
        for name in ("small_insurer", "full", "one_record"):
            text, page = self.page_of(name)
            pictures = page.getElementsByTagName("svg")
            self.assertEqual([cut_off(svg) for svg in pictures], [[]] * len(pictures))
            for svg in pictures[:-1]:
                lines = [each.getAttribute("class") for each in svg.getElementsByTagName("line")]
                self.assertEqual([each for each in lines if each != "grid"], ["line0", "line1"])
        self.assertIn(".line1 { stroke: #d9692a; stroke-dasharray", text)

    def test_units(self):
        self.assertEqual(self.page_of("full")[0].count(">billion francs<"), 5)
        self.assertEqual(self.page_of("one_record")[0].count(">francs<"), 1)
        text = self.page_of("small_insurer")[0]
        for unit, charts in (("million francs", 4), ("thousand francs", 1)):
            self.assertEqual(text.count(f">{unit}</text>"), charts)

    def test_stands_alone(self):
        for name in ("small_insurer", "one_record"):
            text, _ = self.page_of(name)
            self.assertNotIn("<script", text)
            self.assertEqual(re.findall(r"(?:src|href|url)\s*[=(]", text), [])

    def test_samples_are_as_written(self):
        with tempfile.TemporaryDirectory() as folder:
            path = Path(folder) / "page.html"
            write_page("small_insurer.html", path)
            self.assertEqual(path.read_bytes(), (FOLDER / "small_insurer.html").read_bytes())

    def test_day(self):
        run = xaropinto("page", sample("one_record"), "-o", "-", "--today", "17.11.2026")
        self.assertEqual((run.code, run.out), (TROUBLE, b""))


def codes_of(product_group):
    """The subgroup codes of a product group."""
    return (1, 2, 3) if product_group == 1 else (product_group + 2,)


if __name__ == "__main__":
    sys.exit(run_unit_tests(sys.modules[__name__]))
