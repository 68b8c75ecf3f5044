"""A refusal in words: where in the book, what stands there, the rule, and the owner."""

from typing import NamedTuple, Optional

from xaropinto.chains import (
    CLASS,
    CODE,
    NEXT,
    SEX,
    SPARE,
    Step,
    class_in,
    next_field,
    record_of,
    step_to,
)
from xaropinto.layout import (
    CHAINS,
    HEADER_BYTES,
    LAST_CLASS,
    LONGEST_BOOK,
    RECORD_BYTES,
    SUBGROUPS,
    TABLES_AT,
    Field,
    Record,
    header_fields,
    heads,
    percentages,
    record_at,
)
from xaropinto.refusals import BOOK, refusal_of

# The calls whose refusals have words of their own.
CONVERT, WRITE, READ, RECORD, GROUP, FUNDS, PRACTICE = (
    "convert",
    "write",
    "read",
    "record",
    "group",
    "funds",
    "practice",
)
# How files begin that people take for a book.
SIGNATURES = (
    (b"%PDF", "a PDF"),
    (b"PK\x03\x04", "a spreadsheet or another zipped file"),
    (b"\xd0\xcf\x11\xe0", "an old spreadsheet or document"),
    (b"\x1f\x8b", "a compressed file"),
    (b"\x89PNG", "a picture"),
    (b"\xef\xbb\xbf", "text"),
    (b"\xff\xfe", "text"),
    (b"{\\rtf", "a document"),
)
TEXT_BYTES = frozenset(range(32, 127)) | {9, 10, 12, 13} | frozenset(range(128, 256))
# Enough of a file to know text by.
FIRST_BYTES = 512
TABLE_BYTES = HEADER_BYTES - TABLES_AT
SST_YEAR = "SST year"
SHORT, BAD_EDITION, BAD_BASIS, BAD_LENGTH, BAD_TABLE_FILE = 1, 2, 3, 5, 24


class Subject(NamedTuple):
    """The bytes that a call refused, as one book, and the call."""

    book: bytes
    call: str = BOOK

    def age_basis(self) -> int:
        """The age basis that the call reads."""
        return 2 if self.call == CONVERT else 1

    def last_class(self) -> int:
        """The class at which a chain ends."""
        return LAST_CLASS + self.age_basis() - 1

    def byte(self, place: int) -> str:
        """A place in words: of two funds that of the file which has it."""
        if self.call != FUNDS:
            return f"byte {place:,}"
        file, at = fund_place(place)
        return f"byte {at:,} of the {file} file"


def fund_place(place: int) -> tuple[str, int]:
    """Which file of a fund has a byte of the joined book, and where."""
    if TABLES_AT <= place < HEADER_BYTES:
        return "table", place - TABLES_AT
    return "fund", place if place < TABLES_AT else place - TABLE_BYTES


def explain(number: int, place: int, book: Optional[bytes] = None, call: str = BOOK) -> str:
    """The refusal's words, those of the call; with the book's bytes also where and what."""
    if book is None:
        return in_words(number, call)
    return in_words(
        number, call, foreign(number, book), found_at(number, place, Subject(book, call))
    )


def in_words(number: int, call: str, *found: str) -> str:
    """What was found, the rule and the owner."""
    row = refusal_of(number, call)
    return "; ".join(
        [*(words for words in found if words), f"rule: {row.rule}", f"owner: {row.owner}"]
    )


def explain_fund(number: int, place: int, table: bytes, fund: bytes) -> str:
    """A fund's refusal, in places and lengths of the table file and the fund file."""
    if number == BAD_TABLE_FILE:
        return in_words(
            number,
            FUNDS,
            f"the table file has {len(table):,} bytes",
            foreign(SHORT, table, "table file"),
        )
    if number == SHORT:
        return in_words(
            number,
            FUNDS,
            foreign(number, fund, "fund file"),
            f"the fund file has {len(fund):,} bytes",
        )
    if number == BAD_LENGTH:
        return in_words(number, FUNDS, wrong_length("fund file", fund, TABLES_AT))
    joined = Subject(fund[:TABLES_AT] + table + fund[TABLES_AT:], FUNDS)
    return in_words(
        number, FUNDS, foreign(number, fund, "fund file"), found_at(number, place, joined)
    )


def refused_file(number: int, place: int, fund: bytes) -> tuple[str, int]:
    """The file of a fund's refusal, `table` or `fund`, and the place or length in it."""
    if number == BAD_TABLE_FILE:
        return "table", place
    return ("fund", len(fund)) if number in (SHORT, BAD_LENGTH) else fund_place(place)


def foreign(number: int, book: bytes, due: str = "book") -> str:
    """That a file is none of its kind at all, where its beginning shows what it is."""
    kind = kind_of(book) if number in (SHORT, BAD_EDITION) else ""
    return f"this is no {due} at all: it looks like {kind}" if kind else ""


def kind_of(book: bytes) -> str:
    """What a file is by its beginning; nothing where that is not known."""
    if not book:
        return "an empty file"
    for signature, kind in SIGNATURES:
        if book.startswith(signature):
            return kind
    return "text" if all(byte in TEXT_BYTES for byte in book[:FIRST_BYTES]) else ""


def found_at(number: int, place: int, subject: Subject) -> str:
    """Where a book's refusal points, and what stands there; nothing where it is not the book's."""
    book = subject.book
    if number == SHORT:
        return f"the file has {place:,} bytes"
    if number == BAD_LENGTH:
        return wrong_length("book", book, HEADER_BYTES)
    if number == BAD_BASIS:
        return wrong_basis(subject)
    if number == 23:
        return at_field(next(field for field in percentages() if field.at == place), subject)
    if number == 4 and place == 6:
        return f"{subject.byte(6)} is {book[6]} and {subject.byte(7)} is {book[7]}"
    if number in (2, 4, 6, 7, 8):
        return at_field(next(field for field in header_fields() if field.at == place), subject)
    if number == 9 and 0 < place < HEADER_BYTES:
        return beyond_records(next(head for head in heads() if head.at == place), subject)
    if number in (9, 10, 11, 12, 13, 21) and place >= HEADER_BYTES:
        return in_record(number, place, subject)
    return ""


def wrong_length(kind: str, held: bytes, before_records: int) -> str:
    """A file's length, and the one that its number of records asks for."""
    count = int.from_bytes(held[4:6], "little")
    due = before_records + RECORD_BYTES * count
    longest = LONGEST_BOOK - HEADER_BYTES + before_records
    longer = f"; no {kind} is as long" if len(held) > longest else ""
    file = "file" if kind == "book" else kind
    records = f"its {count:,} records ask for {due:,}"
    return f"the {file} has {len(held):,} bytes, and {records}{longer}"


def wrong_basis(subject: Subject) -> str:
    """The age basis that is found and the one that is read; and what turns basis 2 into basis 1."""
    due, found = subject.age_basis(), subject.book[1]
    field = next(field for field in header_fields() if field.at == 1)
    words = at_field(field._replace(low=due, high=due), subject)
    if (found, due) == (2, 1):
        return f"{words}; `xaropinto convert` turns a book of age basis 2 into one of basis 1"
    return (
        f"{words}; a book of age basis 1 needs no conversion" if (found, due) == (1, 2) else words
    )


def at_field(field: Field, subject: Subject) -> str:
    """A field, the value found and its range."""
    found, low, high = (
        shown(field, number) for number in (field.read(subject.book), field.low, field.high)
    )
    due = low if low == high else f"{low} to {high}{' ' if field.unit else ''}{field.unit}"
    return f"{field.name} at {subject.byte(field.at)} is {found}; it must be {due}"


def shown(field: Field, number: int) -> str:
    """A field's number as people read it; a year has no separator."""
    return str(number) if field.name == SST_YEAR else f"{number:,}"


def beyond_records(field: Field, subject: Subject) -> str:
    """A head or next that names no record."""
    count = int.from_bytes(subject.book[4:6], "little")
    found = f"{field.name} at {subject.byte(field.at)} is {field.read(subject.book):,}"
    return f"{found}; the book has {count:,} records"


def in_record(number: int, place: int, subject: Subject) -> str:
    """A fault in a linked record: the chain that is read, the record, its class, what is wrong."""
    record = record_at(place)
    step = step_to(subject.book, record.number, lambda step: is_fault(number, step, subject))
    named = f"{CHAINS[step.chain]}, " if step else ""
    where = f"{named}record {record.number:,}, class {class_in(record, subject.book)}"
    return f"{where}: {wrong_in_record(number, place, record, step, subject)}"


def is_fault(number: int, step: Step, subject: Subject) -> bool:
    """Is the rule broken at this step? All but two are broken by the record alone."""
    if number == 10:
        return bool(wrong_start(step, subject))
    if number == 11:
        held = class_in(step.record, subject.book)
        return held != due_class(step, subject) if step.before else held > subject.last_class()
    return True


def wrong_in_record(
    number: int, place: int, record: Record, step: Optional[Step], subject: Subject
) -> str:
    """What is wrong in a record."""
    if number == 12:
        return at_field(next(field for field in record.fields() if field.at == place), subject)
    if number == 9:
        return beyond_records(next_field(record)._replace(name="next"), subject)
    if number == 13:
        return wrong_end(record, step, subject)
    if number == 10 and step:
        return f"{led_by(step, subject)}; {wrong_start(step, subject)}"
    if number == 11 and step:
        return wrong_class(step, subject)
    return f"the class at {subject.byte(record.start + CLASS)} is {class_in(record, subject.book)}"


def led_by(step: Step, subject: Subject) -> str:
    """The head or next that leads to a record; and that it leads back, where it does."""
    back = "back " if step.is_loop() else ""
    return f"{step.lead.name} at {subject.byte(step.lead.at)} leads {back}here"


def wrong_start(step: Step, subject: Subject) -> str:
    """The first byte of code, sex and spare bytes that is not the chain's, if there is one."""
    book, start = subject.book, step.record.start
    for name, offset, due in (
        ("subgroup code", CODE, step.chain // 2 + 1),
        ("sex", SEX, step.chain % 2),
        *(("a spare byte", spare, 0) for spare in SPARE),
    ):
        if book[start + offset] != due:
            held = book[start + offset]
            own = (
                f" ({SUBGROUPS[held - 1]})" if offset == CODE and 0 < held <= len(SUBGROUPS) else ""
            )
            return f"{name} at {subject.byte(start + offset)} is {held}{own}; it must be {due}"
    return ""


def due_class(step: Step, subject: Subject) -> int:
    """The class that must follow in the chain."""
    return class_in(step.before[-1], subject.book) + 1


def wrong_class(step: Step, subject: Subject) -> str:
    """The class found and the one that was due; or that the chain is a loop."""
    at = subject.byte(step.record.start + CLASS)
    found = f"the class at {at} is {class_in(step.record, subject.book)}"
    previous = step.previous()
    if previous is None:
        return f"{found}; a first class is at most {subject.last_class()}"
    due = f"{due_class(step, subject)} was due after record {previous.number:,}"
    if step.is_loop():
        return f"the chain is a loop: {led_by(step, subject)}; {due}"
    return f"{found}; {due}, whose next at {subject.byte(step.lead.at)} leads here"


def wrong_end(record: Record, step: Optional[Step], subject: Subject) -> str:
    """A next that is not zero at the last class, or zero before it."""
    number, last = next_field(record).read(subject.book), subject.last_class()
    words = f"next at {subject.byte(record.start + NEXT)} is {number:,}; "
    if number == 0:
        return f"{words}the chain must go on up to class {last}"
    loop = step is not None and record_of(number) in (*step.before, record)
    return f"{words}it must be 0 at class {last}{': the chain is a loop' if loop else ''}"
