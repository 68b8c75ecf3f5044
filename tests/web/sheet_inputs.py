"""Sheets of random books as spreadsheets save them, most with a fault: cells, rows, text, bytes."""

import codecs
import sys
from typing import NamedTuple

from reference.book import random_book
from tests import ROOT

sys.path.insert(0, str(ROOT / "python"))

from xaropinto import answers  # noqa: E402
from xaropinto.sheets import csv_file, csv_files, read_sheets  # noqa: E402
from xaropinto.tables import saved_table  # noqa: E402

# What people enter for a number or a name: read, read in one unit only, or turned away.
WORDS = (
    "", "0", "-0", "-1", "7'00", "7'0001", "'70001", "1'000", "1\u2019000", "1'000\u2019000",
    "7e4", "70001%", "+70001", "70001.0", "1.5", "1.50", "1.234", "1.2340", "70,001", "1,5",
    "1'234,5", "12.345", "012.345", "0.123", "\u0667", "0x11", "7 0001", "9" * 30, "0." + "1" * 25,
    "x", "it's", 'say "so"', "it's \"so\"", "back\\slash", "\t7", "7\x1f", "\xa07\xa0", "\u20037",
    "\x857", "\ufeff7", "\u200b7", "\u2028", "a\nb", "a\r\nb", "\x7f", "\xad", "\ue000",
    "\U0001f600", "\U000e0001", "pg2", "PG9", "MEN", "m\u0113n", "Women ", "edition", "PG1A",
)
EDGES = (-10_001, -10_000, -1, 0, 1, 2, 3, 100, 101, 120, 121, 122, 2_016, 2_017, 2_100, 2_101,
         100_000, 100_001, 200_000, 200_001, 1_000_000, 1_000_001, 10_000_000, 10_000_001)
# How the ends of headings change with the unit, and how many digits the unit has behind its point.
OTHER_UNITS = {"_millionths": ("_percent", 4), "_centimes": ("_francs", 2)}
SEPARATOR_LINES = ("sep=;", "SEP=\t", '"sep=,"', "sep=;;;", "sep=,,,", "\u017fep=;", "sep=|",
                   "sep=", 'sep=""', "sep=\u20ac", "sep=;x")
DAMAGE = ('"', '""', '"x', 'x"y"', "\r", "\n\n", ",", ";", "\0", "'", '" "')
BYTES = (b"\x81", b"\x92", b"\xff", b"\xc3", b"\xed\xa0\x80", b"\xf4\x90\x80\x80", b"\xe2\x82",
         b"\x00", b"\x00\xd8", b"\xdc\x00", b"\n\x9d", b"\xef\xbb\xbf")


class Saved(NamedTuple):
    """A file as the Python package reads it."""

    name: str
    held: bytes

    def read_bytes(self):
        """All of it."""
        return self.held


def read_saved(files):
    """The book of saved files, as the command writes it."""
    def table(kind):
        name = csv_file(kind)
        return saved_table(Saved(name, files[name]))

    return answers.write(read_sheets(table))


def drawn_sheets(chooser):
    """The five files of a random book by name, whole or with one or two faults."""
    least_class = chooser.choice((60, 112, 117, 119))
    book = random_book(chooser, least_class, chooser.choice((1, 3, 5)), 0)
    sheets = {name: [line.split(",") for line in held.decode().splitlines()]
              for name, held in csv_files(answers.read(book)).items()}
    for _ in range(chooser.choice((0, 1, 1, 1, 2))):
        chooser.choice(CHANGES)(sheets, chooser)
    form = chooser.choice((plain_text, plain_text, saved_text, saved_text, damaged_text))
    return {name: encoded(form(rows, chooser), chooser) for name, rows in sheets.items()}


def some_rows(sheets, chooser):
    """The rows of one file; every other time of the portfolio, which has most rules."""
    return sheets[chooser.choice((*sorted(sheets), *["portfolio.csv"] * 3))]


def change_cell(sheets, chooser):
    """Another word in a cell, the heading's included."""
    rows = some_rows(sheets, chooser)
    row = chooser.choice((*rows[:1], *rows[1:8], *rows[-3:]))
    row[chooser.randrange(len(row))] = chooser.choice(WORDS)


def change_number(sheets, chooser):
    """A number at or beyond the end of a range."""
    rows = some_rows(sheets, chooser)
    row = chooser.choice(rows[1:] or rows)
    row[chooser.randrange(len(row))] = str(chooser.choice(EDGES))


def change_units(sheets, chooser):
    """Percent and francs; here and there a digit more, or one that is left out."""
    for rows in sheets.values():
        for at, heading in enumerate(rows[0]):
            for end, (other, digits) in OTHER_UNITS.items():
                if heading.endswith(end):
                    rows[0][at] = heading.removesuffix(end) + other
                    for row in rows[1:]:
                        row[at:at + 1] = [in_other_unit(cell, digits, chooser)
                                          for cell in row[at:at + 1]]


def in_other_unit(word, digits, chooser):
    """A whole number with a point before its last digits; three of these can be read in two
    ways."""
    sign, word = ("-", word[1:]) if word.startswith("-") else ("", word)
    word = word.rjust(digits + 1, "0")
    more = "1" if chooser.random() < 0.002 else ""
    return f"{sign}{word[:-digits]}.{word[-digits:]}{more}"


def change_heading(sheets, chooser):
    """A heading in other letters or other words, with a column more or less."""
    rows = some_rows(sheets, chooser)
    heading = rows[0]
    change = chooser.choice(("upper", "title", "long s", "other", "more", "fewer"))
    if change == "more":
        heading.append(chooser.choice(("", "", "x")))
    elif change == "fewer":
        heading[1:] = heading[1:-1]
    elif change == "other":
        heading[-1] = chooser.choice((heading[-1] + "s", "rate_percent", "rate_francs", ""))
    else:
        rows[0] = [{"upper": cell.upper(), "title": cell.title(),
                    "long s": cell.replace("s", "\u017f")}[change] for cell in heading]


def change_rows(sheets, chooser):
    """A row less, twice, elsewhere, longer or shorter; or all in another order."""
    rows = some_rows(sheets, chooser)
    at = chooser.randrange(len(rows))
    change = chooser.choice(("drop", "repeat", "last", "swap", "longer", "shorter", "shuffle",
                             "none"))
    if change == "last":
        rows.append(list(rows[-1]))
    elif change == "drop":
        rows[at:at + 1] = [] if len(rows) > 1 else [[""]]
    elif change == "repeat":
        rows.insert(chooser.randrange(len(rows) + 1), list(rows[at]))
    elif change == "swap":
        rows[at], rows[-1] = rows[-1], rows[at]
    elif change == "longer":
        rows[at] += chooser.choice(([""], ["", ""], ["x"], ["", "x"]))
    elif change == "shorter":
        rows[at][1:] = rows[at][1:-1]
    elif change == "shuffle":
        portfolio = sheets["portfolio.csv"]
        portfolio[1:] = chooser.sample(portfolio[1:], len(portfolio) - 1)
    else:
        rows[:] = chooser.choice((rows[:1], [[""]]))


def change_basis(sheets, chooser):
    """Another age basis, with classes that are its own or are left; or none."""
    header, basis = sheets["header.csv"], chooser.choice(("2", "2", "2", "3", ""))
    if not basis:
        header[:] = [row for row in header if row[0] != "age_basis"]
        return
    header[2:3] = [["Age_Basis", basis]]
    rows = [row for row in sheets["portfolio.csv"][1:] if len(row) > 2 and row[2].isdigit()]
    if chooser.random() < 0.7:
        for row in rows:
            row[2] = str(int(row[2]) + 1)
    if rows and chooser.random() < 0.4:
        chooser.choice(rows)[2] = chooser.choice(("0", "122", "x"))


def change_edition(sheets, chooser):
    """Percentages of one edition in the other."""
    for row in sheets["header.csv"][1:]:
        if row[0] == "edition":
            row[1:] = chooser.choice("1223")
        elif row[0].startswith("mortality"):
            row[1:] = [chooser.choice(("0", "1", "87", "100", "101"))]


def change_thousands(sheets, chooser):
    """Marks between thousands."""
    mark = chooser.choice(("'", "\u2019"))
    for rows in sheets.values():
        for row in rows[1:]:
            row[:] = [f"{int(cell):,}".replace(",", mark) if cell.lstrip("-").isdigit() else cell
                      for cell in row]


def change_case(sheets, chooser):
    """Names in other letters, and spaces around cells."""
    change = chooser.choice((str.upper, str.lower, lambda cell: f"\xa0{cell} ",
                             lambda cell: f"\t {cell}\x1f"))
    rows = some_rows(sheets, chooser)
    for row in rows[1:]:
        row[:] = map(change, row)


CHANGES = (change_cell, change_cell, change_cell, change_number, change_number, change_units,
           change_heading, change_rows, change_rows, change_rows, change_basis, change_edition,
           change_thousands, change_case)


def plain_text(rows, chooser):
    """With commas, quotes where a cell needs them."""
    return joined(rows, ",", "\n", 0, chooser)


def saved_text(rows, chooser):
    """As some spreadsheet saves it: its separator, line ends, quotes, tails and empty lines."""
    separator, end = chooser.choice(",;\t"), chooser.choice(("\n", "\r\n", "\r"))
    if chooser.random() < 0.2:
        rows = [[*row, "", ""] for row in rows] + [["", ""], []]
    text = joined(rows, separator, end, chooser.choice((0, 0.1, 1)), chooser)
    if chooser.random() < 0.3:
        told = chooser.choice((f"sep={separator}", f"sep={separator}",
                               chooser.choice(SEPARATOR_LINES)))
        text = told + end + text
    elif chooser.random() < 0.2:
        text = end * chooser.randint(1, 3) + text
    return text if chooser.random() < 0.8 else text.rstrip("\r\n")


def damaged_text(rows, chooser):
    """Something in a place where it does not belong; one file in five has it."""
    text = saved_text(rows, chooser)
    if chooser.random() < 0.8:
        return text
    at = chooser.randrange(min(len(text), 400) + 1)
    return text[:at] + chooser.choice(DAMAGE) + text[at:]


def joined(rows, separator, end, share, chooser):
    """Rows as lines; a cell is in quotes where it must be, and so is a share of the others."""
    def shown(cell):
        if set(cell) & {separator, '"', "\r", "\n"} or chooser.random() < share:
            return '"' + cell.replace('"', '""') + '"'
        return cell

    return "".join(separator.join(map(shown, row)) + end for row in rows)


def encoded(text, chooser):
    """The bytes of a file in some encoding; a few are damaged."""
    form = chooser.choices(("utf-8", "utf-8-sig", "utf-16-le", "utf-16-be", "cp1252", "no mark"),
                           weights=(10, 3, 2, 2, 4, 0.1))[0]
    if form == "cp1252":
        held = text.encode("cp1252", "replace")
    elif form == "no mark":
        held = text.encode("utf-16-le")
    else:
        mark = {"utf-16-le": codecs.BOM_UTF16_LE, "utf-16-be": codecs.BOM_UTF16_BE}.get(form, b"")
        held = mark + text.encode(form)
    if chooser.random() < 0.985:
        return held
    at = chooser.randrange(min(len(held), 300) + 1)
    return chooser.choice((held[:at] + chooser.choice(BYTES) + held[at:], held[:-1]))
