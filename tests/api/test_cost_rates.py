"""Compares the library's cost rates with the reference: by hand, at every edge and at random."""

import sys

from reference import cost_rates as reference
from reference.cost_rates import GROUPS, HIGHEST_RATE
from reference.book import empty_book
from reference.layout import COST_RATES
from tests.fixtures.accounts import BY_HAND, MOST, WORKED, at_limits, at_zero, random_accounts
from tests.support.differential import Differential
from tests.support.library import LibraryCase
from tests.support.report import run_unit_tests

# The kinds of random accounts, and how often each is due.
LEAST_TIMES = {"accepted": 1_000, "refused 17": 500, "refused 18": 500, "refused 19": 500,
               "accepted with an empty group": 500, "accepted with a rate above 500,000": 50,
               "refused 17 and without a sum or a premium": 50,
               "accepted with a split that misses 4 francs": 5}


def kinds(accounts, refusal, rates):
    """What the coverage counts of accounts with this reply."""
    yield f"refused {refusal}" if refusal else "accepted"
    if refusal == 17 and not reference.divisible(*accounts[1:]):
        yield "refused 17 and without a sum or a premium"
    if refusal == 0:
        if any(reference.is_empty(*accounts[1:], group) for group in GROUPS):
            yield "accepted with an empty group"
        if max(rates) > HIGHEST_RATE // 2:
            yield "accepted with a rate above 500,000"
        if max(all_missed(accounts)) == 4:
            yield "accepted with a split that misses 4 francs"


def all_missed(accounts):
    """What the shares leave of the year's lowered expenses, for both splits of every year."""
    return [reference.lowered(expense) - sum(reference.shares(expense, row))
            for rows in (accounts.stock, accounts.claims)
            for expense, row in zip(accounts.expenses, rows)]


class Accounts(LibraryCase):
    """Accounts worked by hand, and at the edges of every rule."""

    def test_by_hand(self):
        for rule, accounts, due in BY_HAND:
            given = (reference.cost_rates(*accounts), tuple(self.library.cost_rates(*accounts)))
            self.check(rule, given == (due, due), given)

    def check_edges(self, name, cases):
        """Both agree at every edge, and the refusal is the one that is due."""
        cases, wrong = list(cases), []
        for refusal, accounts in cases:
            due, given = reference.cost_rates(*accounts), tuple(self.library.cost_rates(*accounts))
            if given != due or due[0] != refusal:
                wrong.append((refusal, due, given, accounts))
        self.check(f"{len(cases)} accounts {name}", cases and not wrong, wrong[:1])

    def test_edges_of_limits(self):
        self.check_edges("at and above their limits", at_limits())

    def test_edges_at_zero(self):
        self.check_edges("with a zero that counts, or with an empty group", at_zero())

    def test_a_book_takes_the_rates(self):
        for rule, accounts, due in BY_HAND:
            if due[0] == 0:
                book = bytearray(empty_book())
                for field, rate in zip(COST_RATES, self.library.cost_rates(*accounts).rates):
                    field.put(book, rate)
                self.check(f"a book takes the rates: {rule}", self.library.check(book).refusal == 0)

    def test_rejected_arguments(self):
        expenses, stock, claims, premium = WORKED
        for words, arguments in (
                ("two expenses", (expenses[:2], stock, claims, premium)),
                ("two rows", (expenses, stock[:2], claims, premium)),
                ("a row of four", (expenses, stock, [claims[0][:4], *claims[1:]], premium)),
                ("a row of six", (expenses, stock, claims, [[*premium[0], 1], *premium[1:]])),
                ("a number below 0", ([-1, 0, 0], stock, claims, premium)),
                ("a number above 64 bits", ([MOST + 1, 0, 0], stock, claims, premium))):
            self.rejects(words, ValueError, self.library.cost_rates, *arguments)


class RandomAccounts(LibraryCase, Differential):
    """Both agree on random accounts, and every kind of them is seen."""

    number, seed, for_coverage = 6_000, 201, 5_000

    @classmethod
    def draw(cls, chooser):
        cls.misses = set()
        for _ in range(cls.number):
            accounts = random_accounts(chooser)
            due = reference.cost_rates(*accounts)
            given = tuple(cls.library.cost_rates(*accounts))
            cls.tally.seen.update(kinds(accounts, due[0], due[2]))
            if due[0] == 0:
                cls.misses.update(all_missed(accounts))
            cls.tally.compare("cost rates", given, due,
                              f"of {accounts} gives {given}, due is {due}")

    def test_agreement(self):
        self.check_agreement()

    def test_shares_of_a_split_miss_at_most_4_francs(self):
        self.assertLessEqual(self.misses, set(range(5)))

    def test_coverage(self):
        self.require_coverage()
        self.check_seen(LEAST_TIMES)


if __name__ == "__main__":
    sys.exit(run_unit_tests(sys.modules[__name__]))
