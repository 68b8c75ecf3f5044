"""Compares the call In force, for one cell, with the reference and with runs worked by hand."""

import sys
from array import array
from itertools import product
from typing import NamedTuple

from reference.book import empty_book, one_record_book, random_book
from reference.layout import CHAINS, COST_RATES, OLDEST_CLASS, SETTINGS, changed, record
from reference.in_force import in_force_run, screen_reply
from tests import ROOT
from tests.fixtures.damage import any_book
from tests.fixtures.insurers import MANY_PRODUCTS, highest_full_book, insurer_book
from tests.fixtures.trial_books import in_force_book, very_old_book
from tests.support.differential import Differential
from tests.support.library import LibraryCase
from tests.support.report import run_unit_tests

LEAST_TIMES = 3
LEAST_ACCEPTED = 800
# Numbers out of range, and some that would be in range if they lost their high bits.
ODD_SETTINGS = (8, 2**32, 2**63, 2**64 - 1)
ODD_CODES = (0, 8, 2**32 + 1, 2**64 - 1)
ODD_SEXES = (2, 2**32, 2**32 + 1, 2**64 - 1)
ODD_CLASSES = (OLDEST_CLASS + 1, 255, 256 + OLDEST_CLASS, 2**32 + OLDEST_CLASS, 2**64 - 1)
BOOK_REFUSALS = (*range(1, 14), 23)
LENGTHS = (0, 1, 49, 50, 51, 200)
# Longer than any buffer, so that a number written past its end shows.
MEMORY_NUMBERS = max(LENGTHS) + 60
WORKED_EXAMPLE = ROOT / "samples" / "worked_example.book"
PG2 = 4
MEN, WOMEN = 0, 1


class Asked(NamedTuple):
    """What the call is asked beside the book; `length` is how many numbers the buffer has."""

    setting: int
    code: int
    sex: int
    age_class: int
    length: int


class WorkedByHand(LibraryCase):
    """Runs worked by hand, and what the module takes as numbers."""

    def run_of(self, book, age_class, setting=0):
        """The run of a cell of PG2 men; none where it is refused."""
        numbers = array("Q", [0] * 50)
        reply = self.library.in_force(book, setting, PG2, MEN, age_class, numbers)
        return list(numbers) if tuple(reply) == (0, 0) else []

    def check_run(self, words, book, age_class, due):
        """Call and reference give the whole run."""
        for side, run in (("call", self.run_of(book, age_class)),
                          ("reference", in_force_run(book, 0, 2 * (PG2 - 1) + MEN, age_class))):
            self.check(f"{words} ({side})", run == due, run[:12])

    def test_worked_example(self):
        """The worked example of the documents."""
        worked = WORKED_EXAMPLE.read_bytes()
        self.check_run("cell 1", worked, 118, [
            3_000_000_000, 1_819_075_616, 924_999_950, 60_124_996, 3_908_124, 254_028, 16_511,
            1_073, 69, 4] + [0] * 40)
        self.check_run("cell 2", worked, 119, [
            2_000_000_000, 1_017_000_000, 66_105_000, 4_296_825, 279_293, 18_154, 1_180, 76, 4]
            + [0] * 41)
        self.check_run("cell 3", worked, 120, [
            1_000_000_000, 65_000_000, 4_225_000, 274_625, 17_850, 1_160, 75, 4] + [0] * 42)

    def test_deaths_and_lapses(self):
        # No deaths, no lapse: ten contracts stay for fifty years.
        self.check_run("ten contracts at class 120 stay", one_record_book(), 120,
                       [10_000_000_000] * 50)
        # T7 and T8: everybody dies with 0.87 of certainty, and with more than certainty in
        # setting 1.
        certain = self.run_of(in_force_book(1_000_000, 0), 100)
        self.check("0.13 of a contract lives on",
                   certain[:3] == [1_000_000_000, 130_000_000, 16_900_000], certain[:3])
        certain = self.run_of(in_force_book(1_000_000, 0), 100, 1)
        self.check("nobody lives on in setting 1", certain == [1_000_000_000] + [0] * 49,
                   certain[:3])
        # 0.565 x 0.8 in the first year, then 0.913 x 0.95 in each.
        old = self.run_of(very_old_book(), 119)
        self.check("class 120 goes on by its own rates",
                   old[:4] == [1_000_000_000, 452_000_000, 392_042_200, 340_037_801], old[:4])

    def test_rejected_arguments(self):
        book, in_force = one_record_book(), self.library.in_force
        for words, numbers in (
                ("signed numbers", array("q", [0] * 50)), ("bytes", bytearray(400)),
                ("numbers that cannot be written", memoryview(bytes(400)).cast("Q"))):
            self.rejects(words, TypeError, in_force, book, 0, PG2, MEN, 120, numbers)
        for words, asked in (("setting", (2**64, PG2, MEN, 120)), ("code", (0, -1, MEN, 120)),
                             ("sex", (0, PG2, -1, 120)), ("class", (0, PG2, MEN, 2**64))):
            self.rejects(f"a {words} that 64 bits do not hold", ValueError, in_force, book, *asked,
                         array("Q", [0] * 50))

    def test_an_empty_array_is_a_buffer_of_no_numbers(self):
        reply = self.library.in_force(one_record_book(), 0, PG2, MEN, 120, array("Q"))
        self.assertEqual(tuple(reply), (25, 0))

    def test_numbers_in_the_books_own_memory_do_no_harm(self):
        book = one_record_book()
        shared = bytearray(book.ljust(1_600, b"\0"))
        numbers = memoryview(shared)[:400].cast("Q")
        reply = self.library.in_force(memoryview(shared)[:len(book)], 0, PG2, MEN, 120, numbers)
        self.assertEqual((tuple(reply), numbers.tolist()), ((0, 0), [10_000_000_000] * 50))


def random_cell(chooser):
    """A cell to ask for: mostly one that could be there, else with numbers out of range."""
    def drawn(good, odd, often=0.93):
        return chooser.choice(good if chooser.random() < often else odd)

    return Asked(drawn(SETTINGS, ODD_SETTINGS), drawn(range(1, 8), ODD_CODES),
                 drawn((MEN, WOMEN), ODD_SEXES),
                 drawn(range(95, 121), (*range(95), *ODD_CLASSES)),
                 drawn((50, 51, 200), (0, 1, 49)))


def likely_cell(book, chooser):
    """A cell of a chain that has records: its first, one below that, the last or any."""
    heads = [chain for chain in CHAINS
             if chain.head.is_within(book) and chain.head.read(book) != 0]
    if not heads:
        return random_cell(chooser)
    chain = chooser.choice(heads)
    first = record(chain.head.read(book)).age_class
    first_class = first.read(book) if first.is_within(book) else 0
    age_class = chooser.choice((first_class, max(first_class - 1, 0), OLDEST_CLASS,
                                chooser.randint(min(first_class, OLDEST_CLASS), OLDEST_CLASS)))
    return random_cell(chooser)._replace(code=chain.code, sex=chain.sex, age_class=age_class)


def later_faults(book, asked, refusal):
    """Which later faults stand beside the refusal that is given."""
    if refusal == 14 and screen_reply(book, 0, *asked[1:])[0] == 25:
        yield "25 behind 14"
    elsewhere = (asked.setting, PG2, MEN, asked.age_class, 50)
    if refusal == 25 and screen_reply(book, *elsewhere)[0] in BOOK_REFUSALS:
        yield "the book's behind 25"
    if refusal in BOOK_REFUSALS and asked.age_class > OLDEST_CLASS:
        yield "26 behind the book's"


def kinds_of_run(asked, run):
    """What the coverage counts of a cell that is accepted."""
    yield "setting", asked.setting
    yield "chain", asked.code, asked.sex
    yield "length", asked.length
    if run[0] > 0:
        yield "ends", "before k = 49" if run[-1] == 0 else "never"
    yield "class", "120" if asked.age_class == OLDEST_CLASS else "below"


class RandomCells(LibraryCase, Differential):
    """Damaged and valid books in turn, each with five cells; named books with cells at edges."""

    number, seed, for_coverage, kept_as = 700, 209, 700, "in_force"

    @classmethod
    def draw(cls, chooser):
        for number in range(cls.number):
            book = any_book(chooser) if number % 2 else random_book(
                chooser, chooser.choice((100, 112, 117)), chooser.choice((1, 4, 14)))
            for asked in (random_cell(chooser), *(likely_cell(book, chooser) for _ in range(4))):
                cls.try_cell(number, book, asked, chooser)
        for name, book, asked in cls.named_cells():
            cls.try_cell(name, book, asked, chooser)

    @classmethod
    def named_cells(cls):
        """Books that no random one comes near, each with cells at every edge."""
        damaged = changed(one_record_book(), (COST_RATES[4], 1_000_001))
        books = (("insurer", insurer_book(MANY_PRODUCTS, cls.seed)),
                 ("highest", highest_full_book()), ("zeros", bytes(1_220)),
                 ("empty", empty_book()), ("one_record", one_record_book()),
                 ("damaged", damaged), ("nothing", b""), ("worked", WORKED_EXAMPLE.read_bytes()))
        chains = ((PG2, MEN), (PG2, WOMEN), (7, WOMEN), (8, MEN), (1, 2))
        classes = ((0, 50), (119, 50), (120, 51), (121, 200), (118, 49), (2**64 - 1, 0))
        for name, book in books:
            for setting, (code, sex), (age_class, length) in product((0, 1, 4, 8), chains, classes):
                yield name, book, Asked(setting, code, sex, age_class, length)

    @classmethod
    def try_cell(cls, name, book, asked, chooser):
        """One call, and every number of a marked memory, also those that are not passed."""
        marks = [chooser.getrandbits(64) for _ in range(MEMORY_NUMBERS)]
        memory = array("Q", marks)
        reply = cls.library.in_force(book, *asked[:4], memoryview(memory)[:asked.length])
        refusal, place, run = screen_reply(book, *asked)
        due = (refusal, place, marks if run is None else [*run, *marks[50:]])
        given = (*reply, list(memory))
        cls.tally.seen[refusal] += 1
        cls.tally.compare("in force", given, due,
                          f"{asked} gives {given[:2]}, due is {due[:2]}"
                          f"{'; the memory differs' if given[2] != due[2] else ''}", (name, book))
        cls.tally.seen.update(later_faults(book, asked, refusal))
        if run is not None:
            cls.tally.seen.update(kinds_of_run(asked, run))

    def test_agreement(self):
        self.check_agreement()

    def test_coverage(self):
        self.require_coverage()
        self.check_rare("every refusal is seen", (*BOOK_REFUSALS, 14, 25, 26), LEAST_TIMES)
        self.check_rare("cells are accepted", [0], LEAST_ACCEPTED)
        self.check_seen(dict.fromkeys(("25 behind 14", "the book's behind 25",
                                       "26 behind the book's"), LEAST_TIMES))
        due = [*(("setting", setting) for setting in SETTINGS),
               *(("chain", chain.code, chain.sex) for chain in CHAINS),
               *(("length", length) for length in LENGTHS if length >= 50),
               *product(("ends",), ("before k = 49", "never")),
               *product(("class",), ("120", "below"))]
        self.check_rare("every setting, chain, length and kind of cell is accepted", due,
                        LEAST_TIMES)


if __name__ == "__main__":
    sys.exit(run_unit_tests(sys.modules[__name__]))
