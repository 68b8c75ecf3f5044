"""Compares the library's standard deviation with the reference: by hand, at edges and at random."""

import sys

from reference import standard_deviation as reference
from reference.book import empty_book, random_book
from reference.standard_deviation import HIGHEST_FACTOR, ONE, SPANS, THOUSAND_FRANCS
from reference.valuation import totals
from tests.fixtures.damage import any_book
from tests.fixtures.insurers import dense_full_book, highest_full_book
from tests.fixtures.risk_models import (BY_HAND, INSURER, WORKED, broken_models, edge_coefficients,
                                        model, random_model, whole_models)
from tests.support.differential import Differential
from tests.support.library import LibraryCase
from tests.support.report import run_unit_tests

SEED = 212
MODELS_A_BOOK = 60
# The kinds of replies to random books and models, and how often each is due.
LEAST_TIMES = {"accepted": 1_000, "accepted above 0": 500, "refused 29": 100, "refused 30": 200,
               "refused 31": 150, "refused by the book": 500,
               "refused by the book, with a model that breaks a rule": 50,
               "a factor of 1,000,000": 20, "a factor just above 1,000,000": 50,
               "a negative factor that is cut": 500, "refused 29 and a factor too large": 20,
               "refused 30 and a negative form": 10}


def kinds(reply, differences, asked):
    """What the coverage counts of a reply to an accepted book."""
    refusal, _, deviation = reply
    yield f"refused {refusal}" if refusal else "accepted"
    if deviation:
        yield "accepted above 0"
    factors = [reference.factor(*each) for each in zip(differences, asked.coefficients, SPANS)]
    largest = max(map(abs, factors))
    if refusal != 29:
        if largest == HIGHEST_FACTOR:
            yield "a factor of 1,000,000"
        if HIGHEST_FACTOR < largest <= HIGHEST_FACTOR + 50:
            yield "a factor just above 1,000,000"
        if any(difference < 0 and difference * coefficient % (THOUSAND_FRANCS * ONE * span)
               for difference, coefficient, span in zip(differences, asked.coefficients, SPANS)):
            yield "a negative factor that is cut"
    if refusal == 29 and largest > HIGHEST_FACTOR:
        yield "refused 29 and a factor too large"
    if refusal == 30 and reference.quadratic_form(factors, asked.correlation) < 0:
        yield "refused 30 and a negative form"


class RiskModels(LibraryCase):
    """Models worked by hand, and at the edges of every rule."""

    def test_by_hand(self):
        for rule, book, asked, due in BY_HAND:
            given = (reference.deviation(book, *asked),
                     tuple(self.library.deviation(book, *asked)))
            self.check(rule, given == (due, due), given)

    def check_models(self, name, book, differences, models, refusal=None):
        """Both agree on every model, and give this refusal where it is not None."""
        models, wrong = list(models), []
        for asked in models:
            due = reference.deviation_of(differences, *asked)
            given = tuple(self.library.deviation(book, *asked))
            if given != due or refusal not in (None, due[0]):
                wrong.append((due, given, asked))
        self.check(name, models and not wrong, wrong[:1])

    def test_edges_of_rules(self):
        differences = totals(INSURER)[4]
        self.check_models("models that break a rule in one place", INSURER, differences,
                          broken_models(), 29)
        self.check_models("models at the ends of every range", INSURER, differences,
                          whole_models())

    def test_large_books(self):
        """The largest differences: those of Totals, which other tests compare."""
        for name, book in (("highest", highest_full_book()), ("dense", dense_full_book(SEED))):
            differences = self.library.totals(book).differences
            edges = [model((0,) * 4).with_coefficient(i, number) for i in reference.FACTORS
                     for number in edge_coefficients(differences[i], SPANS[i])]
            self.check_models(f"the {name} full book", book, differences, [*whole_models(), *edges])

    def test_refusals_of_the_book_come_first(self):
        broken = model((2**64 - 1,) * 4)
        without_year = empty_book()[:2] + b"\0\0" + empty_book()[4:]
        for words, book, due in (("no bytes", b"", (1, 0, 0)), ("zeros", bytes(1_220), (2, 0, 0)),
                                 ("a year of 0", without_year, (4, 2, 0)),
                                 ("an accepted book", empty_book(), (29, 0, 0))):
            self.check(f"{words}, and a model that breaks a rule",
                       self.library.deviation(book, *broken) == due)

    def test_a_book_is_only_read(self):
        passed = bytearray(INSURER)
        self.library.deviation(passed, *WORKED)
        self.assertEqual(passed, INSURER)

    def test_rejected_arguments(self):
        coefficients, correlation = WORKED
        for words, arguments in (
                ("three coefficients", (coefficients[:3], correlation)),
                ("three rows", (coefficients, correlation[:3])),
                ("a row of three", (coefficients, (correlation[0][:3], *correlation[1:]))),
                ("a row of five", (coefficients, ((*correlation[0], 0), *correlation[1:]))),
                ("a coefficient below 0", ((-1, 0, 0, 0), correlation)),
                ("a coefficient above 64 bits", ((2**64, 0, 0, 0), correlation)),
                ("a correlation above 63 bits", WORKED.with_entry(0, 1, 2**63)),
                ("a correlation below 63 bits", WORKED.with_entry(3, 3, -2**63 - 1))):
            self.rejects(words, ValueError, self.library.deviation, INSURER, *arguments)


def random_books(chooser, count):
    """Damaged and valid books in turn."""
    for number in range(count):
        if number % 4 == 0:
            yield any_book(chooser)
        else:
            yield random_book(chooser, chooser.choice((60, 100, 117)), 6)


class RandomModels(LibraryCase, Differential):
    """Both agree on random books and models, and every kind of them is seen."""

    number, seed, for_coverage, kept_as = 6_000, SEED, 5_000, "deviation"

    @classmethod
    def draw(cls, chooser):
        books = random_books(chooser, -(-cls.number // MODELS_A_BOOK))
        for number, book in enumerate(books):
            reply = totals(book)
            for _ in range(MODELS_A_BOOK):
                cls.try_model(number, book, reply, random_model(chooser, reply[4]))

    @classmethod
    def try_model(cls, number, book, reply, asked):
        """One model on a book whose reply of Totals is this."""
        refusal, place, _, _, differences = reply
        seen = cls.tally.seen
        if refusal:
            due = (refusal, place, 0)
            seen["refused by the book"] += 1
            seen["refused by the book, with a model that breaks a rule"] += \
                not reference.keeps_rules(*asked)
        else:
            due = reference.deviation_of(differences, *asked)
            seen.update(kinds(due, differences, asked))
        given = tuple(cls.library.deviation(book, *asked))
        cls.tally.compare("standard deviation", given, due,
                          f"of {asked} gives {given}, due is {due}", (number, book))

    def test_agreement(self):
        self.check_agreement()

    def test_coverage(self):
        self.require_coverage()
        self.check_seen(LEAST_TIMES)


if __name__ == "__main__":
    sys.exit(run_unit_tests(sys.modules[__name__]))
