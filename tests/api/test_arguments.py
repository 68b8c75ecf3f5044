"""Books and tables that the Python module takes or rejects, and that none harms a call."""

import ctypes
import sys
import threading
from array import array

from reference.book import empty_book, one_record_book
from reference.layout import FIRST_RECORD_PLACE
from tests.fixtures.insurers import dense_full_book
from tests.support.library import LibraryCase
from tests.support.report import run_unit_tests

SEED = 1_600
TABLE_BYTES = 8 * 200
CALLS_BESIDE_A_WRITER = 100
FIRST_YEAR = [1_000_000, 900_000, 1_000_000, 900_000]


class Arguments(LibraryCase):
    """What can be passed to Group and to the calls on a book."""

    def test_rejected_numbers(self):
        self.rejects("a number above 64 bits", ValueError, self.library.record, empty_book(), 2**64)
        self.rejects("a number below 0", ValueError, self.library.group, empty_book(), -1, 1,
                     array("Q"))

    def test_rejected_tables(self):
        misaligned = memoryview(bytearray(TABLE_BYTES + 8))[1:TABLE_BYTES + 1].cast("Q")
        for words, error, table in (
                ("signed numbers", TypeError, array("q", [0] * 200)),
                ("two tables of fifty rows", TypeError,
                 memoryview(bytearray(2 * TABLE_BYTES)).cast("Q", (2, 50, 4))),
                ("a table that cannot be written", TypeError,
                 memoryview(bytes(TABLE_BYTES)).cast("Q")),
                ("a table that starts at no multiple of 8 bytes", ValueError, misaligned)):
            self.rejects(words, error, self.library.group, empty_book(), 0, 1, table)

    def test_accepted_tables(self):
        """Tables of every form that has unsigned 64-bit numbers, and one that has none."""
        for words, table in (
                ("an array", array("Q", bytes(TABLE_BYTES))),
                ("an array of ctypes", (ctypes.c_uint64 * 200)()),
                ("a view of a bytearray", memoryview(bytearray(TABLE_BYTES)).cast("L"))):
            reply = self.library.group(one_record_book(), 0, 2, table)
            given = (reply, list(table)[:4])
            self.check(f"{words} is a table", given == ((0, 0, -5_000_000, 1), FIRST_YEAR), given)
        rows = memoryview(bytearray(TABLE_BYTES)).cast("Q", (50, 4))
        self.library.group(one_record_book(), 0, 2, rows)
        self.check("fifty rows of four are a table", rows.tolist()[0] == FIRST_YEAR)
        reply = self.library.group(one_record_book(), 0, 2, array("Q"))
        self.check("an empty array is a table of no numbers", reply == (16, 0, 0, 0), reply)

    def test_a_table_in_the_books_own_memory_does_no_harm(self):
        book = dense_full_book(SEED)
        apart = array("Q", bytes(TABLE_BYTES))
        due = self.library.group(book, 0, 1, apart)
        shared = bytearray(book)
        table = memoryview(shared)[:TABLE_BYTES].cast("Q")
        reply = self.library.group(shared, 0, 1, table)
        self.assertEqual((reply, table.tolist()), (due, apart.tolist()))

    def test_a_thread_that_writes_the_book_does_no_harm(self):
        """Every reply is that of what the book held when it was passed."""
        valid = dense_full_book(SEED)
        refused = valid[:FIRST_RECORD_PLACE].ljust(len(valid), b"\xff")
        due = [self.library.totals(book) for book in (valid, refused)]
        shared, done = bytearray(valid), threading.Event()

        def write():
            while not done.is_set():
                shared[:] = refused
                shared[:] = valid

        writer = threading.Thread(target=write)
        writer.start()
        try:
            replies = [self.library.totals(shared) for _ in range(CALLS_BESIDE_A_WRITER)]
        finally:
            done.set()
            writer.join()
        self.assertTrue(all(reply in due for reply in replies))


if __name__ == "__main__":
    sys.exit(run_unit_tests(sys.modules[__name__]))
