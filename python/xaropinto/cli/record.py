"""The verb record: the fields of one record, checked or not."""

import argparse

from xaropinto import answers
from xaropinto.cli.errors import DONE, REFUSED, CommandError
from xaropinto.cli.files import read_file
from xaropinto.cli.outcome import Fields, Json, put, report_refusal
from xaropinto.layout import HEADER_BYTES, RECORD_BYTES, Record


def show_record(chosen: argparse.Namespace) -> int:
    """The fields of a record, linked or not; of a refused book too, marked as not checked."""
    book = read_file(chosen.file)
    try:
        answers.check(book)
    except answers.RefusedError as refused:
        held = unchecked_bytes(chosen.file, book, chosen.number)
        mark = f"not checked: the book is refused {refused.number} {refused.place}\n"
        mark += f"bytes {held.hex(' ')}\n"
        put(fields_of(held, mark, checked=False))
        report_refusal(refused)
        return REFUSED
    put(fields_of(answers.record(book, chosen.number), "", checked=True))
    return DONE


def unchecked_bytes(path: str, book: bytes, number: int) -> bytes:
    """The bytes at a record's place, whatever the header says."""
    start = HEADER_BYTES + RECORD_BYTES * (number - 1)
    held = book[start:start + RECORD_BYTES] if number else b""
    if len(held) != RECORD_BYTES:
        whole = max(0, len(book) - HEADER_BYTES) // RECORD_BYTES
        raise CommandError(
            f"{path}: there is no record {number}; the file is refused, and has bytes for {whole}"
        )
    return held


def fields_of(held: bytes, mark: str, checked: bool) -> Fields:
    """A record's bytes as fields."""
    amounts = {field.name: field.read(held) for field in Record(1, 0).fields()}
    start = {
        "code": held[0],
        "sex": held[1],
        "class": held[2],
        "next": int.from_bytes(held[4:6], "little"),
    }
    lines = [
        *(f"{name} {value}\n" for name, value in start.items()),
        f"spare {held[3]} {held[6]} {held[7]}\n",
        *(f"{name} {value}\n" for name, value in amounts.items()),
    ]
    data: dict[str, Json] = {
        "checked": checked,
        "bytes": held.hex(),
        **start,
        "spare": [held[3], held[6], held[7]],
        **amounts,
    }
    return Fields(mark + "".join(lines), data)
