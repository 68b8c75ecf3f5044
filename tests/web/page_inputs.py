"""Books, pairs of books and names for the tests of the pages, out of a seed."""

import random
import unicodedata
from dataclasses import replace
from datetime import date, timedelta
from typing import NamedTuple

from reference.book import (Cell, Portfolio, Values, empty_book, full_book, make_book, random_book,
                            random_values)
from reference.layout import CLASSES
from reference.practice_book import practice_book
from tests.fixtures.book_pairs import KINDS, NO_PEOPLE, Plan, mortality, slipped, sound_pair
from tests.fixtures.insurers import (HOSPITAL_PRODUCT, MANY_PRODUCTS, dense_full_book, ends_book,
                                     highest_full_book, insurer_book, rich_book, thinned_book)
from tests.fixtures.people import two_years
from tests.fixtures.trial_books import (PG1A_MEN, PG1B_WOMEN, contract, loss_in_every_cell_book,
                                        one_contract_book, rich_and_poor_book, very_old_book)

FIRST_DAY, DAYS = date(2016, 1, 1), 9_000
SIZES = (60, 200, 1_000, 5_000, 50_000)
# Letters that a page writes in another way, and some of each length in UTF-8.
ODD_LETTERS = "&<>\"'\t\n\r\x00\x1b\x7f\x85\xad\u00e9\u2028\ufeff\ufffe\uffff\U0001f600\U0010ffff"
DIGEST_LETTERS = 64
HIGHEST_CODE = 0x10FFFF


class Titled(NamedTuple):
    """A book with what its page says beside it."""

    name: str
    book: bytes
    day: date
    insurer: str


class Pair(NamedTuple):
    """Last year's book and this year's, with what their page says beside them."""

    last: Titled
    this: Titled


def any_text(chooser):
    """A name of any characters, now and then as long as a SHA-256."""
    length = chooser.choice((1, 5, 20, DIGEST_LETTERS, DIGEST_LETTERS + 1))
    return "".join(chooser.choice(ODD_LETTERS) if chooser.random() < 0.3 else known_letter(chooser)
                   for _ in range(length))


def known_letter(chooser):
    """A character that every table of characters has."""
    while True:
        letter = chr(chooser.choice((chooser.randint(32, 0x2FF), chooser.randint(0, HIGHEST_CODE))))
        if unicodedata.category(letter) not in ("Cn", "Cs"):
            return letter


def titled(chooser, book):
    """A book with a name, a day and an insurer."""
    return Titled(any_text(chooser), book, FIRST_DAY + timedelta(chooser.randrange(DAYS)),
                  chooser.choice(("", any_text(chooser))))


def books_by_hand():
    """Large books, empty ones, some without contracts, with credits and with the largest totals."""
    yield from (empty_book(), practice_book(7), practice_book(2**64 - 1), highest_full_book(),
                dense_full_book(3), insurer_book(MANY_PRODUCTS, 4),
                insurer_book(HOSPITAL_PRODUCT, 5), rich_book(6, 80), very_old_book(),
                rich_and_poor_book(), loss_in_every_cell_book(range(14)))
    yield from (thinned_book(8, spacing) for spacing in (0, 1, 7))
    yield from (ends_book(code, seed) for code in range(1, 8) for seed in range(2))
    # Totals of 0, of one centime and around the halves of the decimals that are shown.
    for claims in (0, 1, 49, 50, 51, 499, 500, 50_000, 150_000, 1_050_000):
        yield one_contract_book([(0, claims)])
        yield one_contract_book([(claims, 0)])
    yield make_book(Values(portfolios={PG1A_MEN: contract([(1, 1)], count=100_000),
                                       PG1B_WOMEN: contract([(3, 2)], count=3)}))


def drawn_books(number, seed):
    """So many books, those by hand first."""
    chooser = random.Random(seed)
    held = list(books_by_hand())
    while len(held) < number:
        least = chooser.choice((0, 30, 90, 110, 117, 120))
        held.append(random_book(chooser, least, chooser.choice((0, 1, 4, 14)), 20))
    return [titled(chooser, book) for book in held]


def progression(chooser):
    """A chain whose amounts rise by the same few units from class to class: nearly no ups and
    downs, or none but those of rounding."""
    first, steps = chooser.choice((0, 40, 90)), [chooser.choice((0, 1, 2, 10, 100)) for _ in "123"]
    bases = [chooser.choice((1, 1_000, 100_000, 900_000)) for _ in steps]
    cells = [Cell(chooser.randint(0, 300), *(base + step * at for base, step in zip(bases, steps)))
             for at in range(CLASSES - first)]
    return Portfolio(first, tuple(cells))


def drawn_progressions(chooser):
    """Two books of such chains, some of them the same in both."""
    last, this = (Values(sst_year=year, mortality=mortality())
                  for year in (2025, 2025 + chooser.choice((0, 1))))
    for chain in chooser.sample(range(14), chooser.randint(1, 4)):
        last.portfolios[chain] = this.portfolios[chain] = progression(chooser)
        if chooser.random() < 0.6:
            this.portfolios[chain] = progression(chooser)
    return last, this


def drawn_values(chooser, number):
    """Values of two years: sound or slipped, with little in common, or nearly without a signal."""
    if number % 3 == 0:
        kinds = (*KINDS, *NO_PEOPLE)
        plan = Plan(number, chooser.choice(SIZES), kinds[number // 3 % len(kinds)],
                    chooser.choice((0, 1, 1, 2)))
        last, this = sound_pair(plan)
        by = chooser.choice((0, 0, -1, 1))
        chains = chooser.choice((None, set(list(this.portfolios)[:1])))
        return last, slipped(this, by, chains) if by else this
    if number % 3 == 1:
        last, this = (random_values(chooser, chooser.randint(0, 8), 60, chooser.random() < 0.2)
                      for _ in range(2))
        first, second = sorted((last.sst_year, this.sst_year))
        return replace(last, sst_year=first), replace(this, sst_year=min(second, first + 49))
    return drawn_progressions(chooser)


def pairs_by_hand():
    """Empty books, full ones, the farthest years, and a book beside itself."""
    empty, full = empty_book(), highest_full_book()
    people, later = two_years()
    far = make_book(replace(later, sst_year=people.sst_year + 49))
    people, later = make_book(people), make_book(later)
    dense = dense_full_book(11)
    year = dense[2:4]
    for last, this in ((empty, empty), (empty, full), (full, empty), (full, full), (dense, dense),
                       (dense, full_book(random.Random(12), True)), (people, later), (people, far),
                       (people, people), (later, empty)):
        years = [int.from_bytes(book[2:4], "little") for book in (last, this)]
        if years[0] > years[1]:
            last, this = last[:2] + year + last[4:], this[:2] + year + this[4:]
        yield last, this


def drawn_pairs(number, seed):
    """So many pairs, those by hand first."""
    chooser = random.Random(seed)
    held = list(pairs_by_hand())
    while len(held) < number:
        held.append(tuple(map(make_book, drawn_values(chooser, len(held)))))
    return [Pair(titled(chooser, last), titled(chooser, this)) for last, this in held]
