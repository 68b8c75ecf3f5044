"""A table of a spreadsheet: its lines as saved, its columns by heading, its cells by name."""

import csv
import io
import re
from pathlib import Path
from typing import NamedTuple, NoReturn, Optional

from xaropinto.cell_numbers import NoNumberError, Unit, headings_of, number_of
from xaropinto.layout import Field

# How a text says in its first bytes which encoding it has.
MARKS = ((b"\xef\xbb\xbf", "utf-8-sig"), (b"\xff\xfe", "utf-16"), (b"\xfe\xff", "utf-16"))
SEPARATOR_LINE = re.compile(r'"?sep=(.?)"?[,;\t]*(?:\r\n|\r|\n)', re.IGNORECASE)
SEPARATORS = "\t;,"


class BadLineError(Exception):
    """What is wrong in a sheet: the place, the value found there, and the rule."""

    def __init__(self, place: str, value: str, rule: str):
        super().__init__(f"{place}: {value!r}; {rule}")
        self.place, self.value, self.rule = place, value, rule


class Kind(NamedTuple):
    """A kind of table: the name of its file or sheet, and its columns in their order."""

    name: str
    columns: tuple[str, ...]


class Table(NamedTuple):
    """The lines of a table, each with its number; a sheet names its cells by letter and number."""

    file: str
    lines: tuple[tuple[int, tuple[str, ...]], ...]
    sheet: Optional[str] = None

    def place(self, line: int, column: int, heading: str) -> str:
        """The name of a cell."""
        if self.sheet is None:
            return f"{self.file}, line {line}, column {heading}"
        return f"{self.file}, sheet {self.sheet}, cell {letters(column)}{line}, column {heading}"


class Column(NamedTuple):
    """Where a column stands, its heading as saved, and the unit that this says."""

    at: int
    heading: str
    unit: Unit


class Row(NamedTuple):
    """A line of a table."""

    table: Table
    line: int
    columns: dict[str, Column]
    cells: tuple[str, ...]

    def word(self, column: str) -> str:
        """A cell as it stands."""
        return self.cells[self.columns[column].at]

    def place(self, column: str) -> str:
        """The name of a cell."""
        held = self.columns[column]
        return self.table.place(self.line, held.at, held.heading)

    def bad(self, column: str, rule: str) -> NoReturn:
        """Stop at a cell."""
        raise BadLineError(self.place(column), self.word(column), rule)

    def number(self, column: str, low: int, high: int) -> int:
        """A cell's number in the book's unit, within a range."""
        try:
            return number_of(self.word(column), self.columns[column].unit, low, high)
        except NoNumberError as wrong:
            raise BadLineError(self.place(column), self.word(column), str(wrong)) from wrong

    def ranged(self, column: str, field: Field) -> int:
        """A cell's number, within the range of a book's field."""
        return self.number(column, field.low, field.high)

    def choice(self, column: str, words: tuple[str, ...]) -> int:
        """Which of these words a cell has, in any case."""
        for at, word in enumerate(words):
            if same_word(self.word(column), word):
                return at
        return self.bad(column, f"one of {', '.join(words)} is due")


def letters(column: int) -> str:
    """A column's letters, as spreadsheets name them; the first is 0."""
    before = letters(column // 26 - 1) if column >= 26 else ""
    return before + chr(ord("A") + column % 26)


def same_word(one: str, other: str) -> bool:
    """Are two words the same but for their case?"""
    return one.casefold() == other.casefold()


def saved_table(path: Path) -> Table:
    """The lines of a file of separated values."""
    text = decoded(path.name, path.read_bytes())
    told = SEPARATOR_LINE.match(text)
    if told and told[1] not in tuple(SEPARATORS):
        raise BadLineError(
            f"{path.name}, line 1",
            told[0].strip(),
            "the separator is a comma, a semicolon or a tab",
        )
    body = text[told.end():] if told else text
    heading = re.split(r"[\r\n]", body.lstrip("\r\n"), maxsplit=1)[0]
    separator = told[1] if told else next((each for each in SEPARATORS if each in heading), ",")
    reader = csv.reader(io.StringIO(body, newline=""), delimiter=separator, strict=True)
    before, lines = 1 if told else 0, []
    try:
        for cells in reader:
            lines.append((before + reader.line_num, tuple(cells)))
    except csv.Error as wrong:
        raise BadLineError(
            f"{path.name}, line {before + reader.line_num}", "", f"no line of cells: {wrong}"
        ) from wrong
    return Table(path.name, tuple(lines))


def decoded(file: str, raw: bytes) -> str:
    """The text of a file by its mark; without one UTF-8, and Windows-1252 where it is not that."""
    marked = next((name for mark, name in MARKS if raw.startswith(mark)), None)
    for encoding in (marked,) if marked else ("utf-8", "cp1252"):
        try:
            text = raw.decode(encoding)
        except UnicodeDecodeError as wrong:
            # A place is counted in what was decoded, which may be the text behind its mark.
            held, at = wrong.object, wrong.start
            line, byte = held[:at].count(b"\n") + 1, held[at:at + 1]
            continue
        if "\0" in text:
            raise BadLineError(
                f"{file}, line 1", "\0", "text has no zero bytes; UTF-16 begins with its mark"
            )
        return text
    raise BadLineError(
        f"{file}, line {line}", repr(byte), "UTF-8, UTF-16 with its mark or Windows-1252 is due"
    )


def rows_of(table: Table, kind: Kind) -> list[Row]:
    """The rows below the heading, without empty lines and empty cells after the last column."""
    lines = [(line, tuple(cell.strip() for cell in cells)) for line, cells in table.lines]
    lines = [(line, without_tail(cells, len(kind.columns))) for line, cells in lines if any(cells)]
    columns = columns_of(lines[0][1], kind) if lines else None
    if columns is None:
        line, told = (lines[0][0], ",".join(lines[0][1])) if lines else (1, "")
        units = "; _percent may stand for _millionths and _thousandths, _francs for _centimes"
        raise BadLineError(
            table.place(line, 0, "any"), told, f"the heading is {','.join(kind.columns)}{units}"
        )
    for line, cells in lines:
        if len(cells) != len(kind.columns):
            raise BadLineError(
                table.place(line, 0, "any"), ",".join(cells), f"{len(kind.columns)} columns are due"
            )
    return [Row(table, line, columns, cells) for line, cells in lines[1:]]


def without_tail(cells: tuple[str, ...], count: int) -> tuple[str, ...]:
    """The first cells, where all behind them are empty; else all."""
    return cells if any(cells[count:]) else cells[:count]


def columns_of(headings: tuple[str, ...], kind: Kind) -> Optional[dict[str, Column]]:
    """The columns by their own names, if the headings are theirs."""
    if len(headings) != len(kind.columns):
        return None
    held = {}
    for index, (heading, column) in enumerate(zip(headings, kind.columns)):
        for allowed, unit in headings_of(column).items():
            if same_word(heading, allowed):
                held[column] = Column(index, heading, unit)
    return held if len(held) == len(kind.columns) else None


def in_order(rows: list[Row], table: Table, firsts: list[str]) -> list[Row]:
    """The rows, if their first column holds just these words, each once and in this order."""
    for row, due in zip(rows, firsts):
        first = next(iter(row.columns))
        if not same_word(row.word(first), due):
            row.bad(first, f"{due} is due here")
    if len(rows) > len(firsts):
        rows[len(firsts)].bad(next(iter(rows[0].columns)), f"there are {len(firsts)} lines")
    if len(rows) < len(firsts):
        last = rows[-1].line if rows else 1
        raise BadLineError(table.place(last + 1, 0, "any"), "", f"{firsts[len(rows)]} is due here")
    return rows
