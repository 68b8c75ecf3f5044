"""Books in the web page's modules: values, words, warnings, sheets and shifts as the package's."""

import random
import re
import sys
import tempfile
from dataclasses import replace
from datetime import date
from pathlib import Path

from reference.book import (PG2_MEN, Portfolio, make_book, random_book, random_values,
                            slots_in_chain_order)
from reference.layout import CHAINS, changed, record
from tests import ROOT
from tests.api.funds_cases import CASES as FUNDS_CASES
from tests.api.funds_cases import TABLE, WOMEN_BOOK
from tests.cli import test_plausibility as cases
from tests.cli.run import SAMPLES, sample, without_warnings, xaropinto
from tests.fixtures.accounts import random_accounts
from tests.fixtures.age_basis_2 import on_basis_2
from tests.fixtures.book_pairs import mortality
from tests.fixtures.claims import random_claims
from tests.fixtures.damage import any_book, damaged
from tests.fixtures.insurers import LOWEST, flat_values, repeated_book
from tests.fixtures.risk_models import BY_HAND as MODELS
from tests.support.differential import Differential
from tests.support.report import run_unit_tests
from tests.web.asked import Asked, Drawn, NodeCase, as_plain, node, outcome
from tests.web.node import NodeError, request
from tests.web.sheet_inputs import drawn_sheets, read_saved
from tools.web_tables import in_camel_case

sys.path.insert(0, str(ROOT / "python"))

from xaropinto import (answers, faults, layout, messages, plausibility, portfolio,  # noqa: E402
                       refusals, sheets)
from xaropinto.age_shift import age_shift  # noqa: E402
from xaropinto.cli.check import faults_line, means_line  # noqa: E402
from xaropinto.cli.portfolio import age_shift_text  # noqa: E402

CALLS = (refusals.BOOK, messages.CONVERT, messages.WRITE, messages.READ, messages.RECORD,
         messages.GROUP, messages.FUNDS, messages.PRACTICE)
BOOK_REFUSALS = (*range(1, 14), 21, 23)
# How files begin that are no books.
FOREIGN = (b"%PDF-1.7", b"PK\x03\x04", b"\xd0\xcf\x11\xe0", b"\x1f\x8b", b"\x89PNG",
           b"\xef\xbb\xbf", b"\xff\xfe", b"{\\rtf1", b"group,premium\n",
           "Pr\xe4mie;".encode("cp1252"), b"a\x00b", b"")
# What is said of sheets, but for places, values and numbers.
SHEET_RULES = (
    "the heading is", "columns are due", "is due here", "a whole number from", "a number from",
    "this is no whole number of", "read in two ways", "one of men, women", "one of PG1a",
    "of this chain is missing", "stands in line", "on age basis 1", "on age basis 2",
    "the separator is", "begins with its mark", "or Windows-1252 is due", "unexpected end of data",
    "expected after", "there are")
RULES = [rule.name for rule in plausibility.RULES]


class Refusals(Drawn, Differential):
    """Damaged books of both age bases, and files that are no books: verdict, words, every fault."""

    number, seed, for_coverage, kept_as = 500, 31, 500, "web-refusal"

    @classmethod
    def ask(cls, asked, number, chooser):
        book, function, name = cls.drawn(number, chooser)
        due = outcome(function, book)
        cls.tally.seen[due[1] if isinstance(due, tuple) else 0] += 1
        asked.ask(due, f"answers.{name}", book)
        found = faults.all_faults(book)
        asked.ask(as_plain(found), "faults.allFaults", book)
        asked.ask(faults_line(found), "cli_check.faultsLine", as_plain(found))
        record = chooser.randint(0, 4)
        asked.ask(outcome(answers.record, book, record), "answers.record", book, record)

    @classmethod
    def drawn(cls, number, chooser):
        """A book, and the call that reads it, in both languages."""
        if number % 10 == 0:
            start = chooser.choice(FOREIGN)
            filling = chooser.choice((b"", bytes(2_000), b"text " * 400, bytes([9, 11, 200]) * 700))
            return start + filling[:chooser.choice((0, 100, 2_000))], answers.check, "check"
        if number % 10 < 7:
            return any_book(chooser), answers.check, "check"
        older = random_book(chooser, chooser.choice((100, 117)), chooser.choice((1, 4)), 2)
        newer = on_basis_2(older)
        heads = [chain.head.read(newer) for chain in CHAINS if chain.head.read(newer)]
        if number % 10 == 9 and heads:
            newer = changed(newer, (record(heads[0]).age_class, 0))
        else:
            newer = damaged(newer, chooser)
        return newer, answers.convert, "convert"

    def test_every_refusal_is_seen(self):
        self.require_coverage()
        self.check_seen({number: 3 for number in BOOK_REFUSALS})


def unusual_values(chooser):
    """Values of an accepted book of which something may be unusual."""
    values = random_values(chooser, chooser.randint(0, 6), chooser.choice((0, 60, 105, 117)),
                           chooser.random() < 0.1)
    change = chooser.choice(("none", "curve", "men", "mortality", "rising", "lapse", "premium"))
    if change == "curve":
        values.curve = [0] * len(values.curve)
    elif change == "men":
        values.portfolios = {chain: held for chain, held in values.portfolios.items()
                             if chain % 2 == 0}
    elif change == "mortality":
        values.mortality = [values.mortality[1], [rate + 1 for rate in values.mortality[0]]]
        values.mortality[1] = [min(1_000_000, rate) for rate in values.mortality[1]]
    elif change == "rising":
        values.mortality = [[min(1_000_000, 40 * age * age) for age in range(121)]] * 2
    elif change in ("lapse", "premium"):
        part = chooser.choice((0, 1, 200))
        values.portfolios = {
            chain: Portfolio(held.first_class, tuple(
                cell._replace(**{change: getattr(cell, change) * part // 100_000})
                for cell in held.cells))
            for chain, held in values.portfolios.items()}
    return values


def with_strays(values, chooser):
    """The book of these values, with a few records that no chain links."""
    counts = [chooser.choice((0, 1, 100_000, 100_001)) for _ in range(chooser.randint(0, 2))]
    strays = [bytes(8) + count.to_bytes(4, "little") + bytes(12) for count in counts]
    return make_book(values, [*slots_in_chain_order(values), *strays])


class Accepted(Drawn, Differential):
    """Accepted books: values, figures, warnings, sheets, classes and shifts."""

    number, seed, for_coverage, kept_as = 220, 32, 220, "web-accepted"

    @classmethod
    def ask(cls, asked, number, chooser):
        values = unusual_values(chooser)
        book = with_strays(values, chooser) if number % 4 else any_book(chooser)
        day = date(chooser.randint(2015, 2101), chooser.randint(1, 12), chooser.randint(1, 28))
        due = outcome(answers.read, book)
        asked.ask(due, "answers.read", book)
        if isinstance(due, tuple):
            return
        cls.tally.seen["accepted"] += 1
        notes = plausibility.notes_of(book, day)
        cls.tally.seen.update(each.name for each in notes)
        asked.ask(as_plain(notes), "plausibility.notesOf", book, day.isoformat())
        asked.ask(as_plain(plausibility.unlinked_of(book)), "plausibility.unlinkedOf", book)
        asked.ask(age_shift_text(age_shift(book)), "cli_portfolio.ageShiftText",
                  request("age_shift.ageShift", book))
        cls.ask_of_values(asked, due, answers.read(book), chooser)
        cls.ask_figures(asked, book, chooser)

    @classmethod
    def ask_of_values(cls, asked, passed, values, chooser):
        """What is made of the values alone."""
        means = plausibility.group_means(values)
        asked.ask(as_plain(means), "plausibility.groupMeans", passed)
        for each in means:
            asked.ask(means_line(each), "cli_check.meansLine", as_plain(each))
        asked.ask(answers.write(values), "answers.write", passed)
        asked.ask(sheets.csv_files(values), "sheets.csvFiles", passed)
        group, sex = chooser.choice(("", *layout.GROUPS)), chooser.choice(("", *layout.SEXES))
        asked.ask(portfolio.contracts_by_class(values, group, sex), "portfolio.contractsByClass",
                  passed, group, sex)

    @classmethod
    def ask_figures(cls, asked, book, chooser):
        """What the calls answer, with settings, groups and cells that there are and are not."""
        setting, group = chooser.randint(0, 8), chooser.randint(0, 6)
        cell = (setting % 8, chooser.randint(0, 8), chooser.randint(0, 2), chooser.randint(60, 121))
        for function, name, arguments in (
                (answers.totals, "totals", ()), (answers.listing, "listing", ()),
                (answers.report, "report", (setting,)), (answers.group, "group", (setting, group)),
                (answers.cell, "cell", cell)):
            asked.ask(outcome(function, book, *arguments), f"answers.{name}", book, *arguments)

    def test_every_warning_is_seen(self):
        self.require_coverage()
        self.check_seen({name: 2 for name in (*RULES, "accepted")})


class Thresholds(NodeCase):
    """Warnings on both sides of their thresholds."""

    def test_both_sides(self):
        asked, seen = Asked(), set()
        cells = [{"premium": premium, "claims": 4_000} for premium in (4_999, 5_000)]
        cells += [{"premium": premium, "claims": 4_000_000} for premium in (5_000_000, 5_000_001)]
        cells += [{"claims": claims} for claims in (39_999, 40_000, 1_000_000, 1_000_001)]
        cells += [{"lapse": lapse} for lapse in (0, 1, 500_000, 500_001)]
        held = [cases.with_cells(**amounts) for amounts in cells]
        held += [replace(cases.plain_values(), cost_rates=[rate] * 5)
                 for rate in (500_000, 500_001)]
        held += [cases.with_mortality(sex, 100, mortality()[sex][90] + more)
                 for sex in range(2) for more in range(2)]
        held += [cases.with_mortality(0, age, mortality()[0][50]) for age in (39, 40)]
        held += [cases.with_mortality(1, 110, mortality()[1][100])]
        held += [cases.with_women_above(classes) for classes in (60, 61)]
        held += [replace(cases.plain_values(), curve=[0] * 48 + [rate]) for rate in range(2)]
        held += [cases.with_old_contracts(count) for count in (10, 11)]
        held += [replace(cases.plain_values(), sst_year=year) for year in range(2024, 2029)]
        for book in map(make_book, held):
            notes = plausibility.notes_of(book, cases.TODAY)
            seen.update(note.name for note in notes)
            asked.ask(as_plain(notes), "plausibility.notesOf", book, cases.TODAY.isoformat())
        self.covers("warnings", set(RULES) - {"unlinked-contracts", "one-sex"}, seen)
        self.same("warnings at their thresholds", asked)

    def test_today_is_the_clock(self):
        book = make_book(replace(cases.plain_values(), sst_year=2100))
        before = as_plain(plausibility.notes_of(book))
        given = node().call("plausibility.notesOf", book)
        self.assertIn(given, (before, as_plain(plausibility.notes_of(book))))
        self.assertEqual([note["name"] for note in given], ["sst-year"])


class SavedSheets(Drawn, Differential):
    """Files as spreadsheets save them, whole and with faults: the book, or the first fault."""

    number, seed, for_coverage, kept_as = 500, 33, 500, "web-sheets"

    @classmethod
    def ask(cls, asked, number, chooser):
        files = drawn_sheets(chooser)
        due = outcome(read_saved, files)
        said = due[1] if isinstance(due, tuple) else "a book"
        cls.tally.seen.update(rule for rule in (*SHEET_RULES, "a book") if rule in said)
        tables_of_files = request("sheets.folderTables", files)
        asked.ask(due, "answers.write", request("sheets.readSheets", tables_of_files))

    def test_every_rule_is_seen(self):
        self.require_coverage()
        self.check_seen({**dict.fromkeys(SHEET_RULES, 1), "a book": 100})


class OtherRefusals(NodeCase):
    """Refusals of every number and call, in words; those of calls that read no book."""

    def test_lengths_kinds_and_codes(self):
        asked, longest = Asked(), sample("full").read_bytes()
        for book in (longest + bytes(24), longest[:-24], longest + bytes(1),
                     b"a" * 512, b"a" * 511 + b"\0", b"a" * 512 + b"\0", b"a" * 513,
                     b"a" * 1_220, b"a" * 511 + b"\0" * 800, b"a" * 512 + b"\0" * 800):
            asked.ask(outcome(answers.check, book), "answers.check", book)
        for code in (0, 1, 7, 8, 255):
            book = changed(sample("worked_example").read_bytes(), (record(1).code, code))
            asked.ask(outcome(answers.check, book), "answers.check", book)
        for number in range(256):
            book = bytes([number]) * 20
            asked.ask(messages.kind_of(book), "messages.kindOf", book)
        self.same("lengths, kinds of files and codes of records", asked)

    def test_every_number_and_call(self):
        asked = Asked()
        for number in refusals.refusals():
            for call in CALLS:
                asked.ask(messages.explain(number, 0, None, call), "messages.explain", number, 0,
                          None, call)
                row = refusals.refusal_of(number, call)
                asked.ask({"number": number, "rule": row.rule, "owner": row.owner},
                          "refusals.refusalOf", number, call)
        self.same("words of 32 refusals and 8 calls", asked)

    def test_corrections_at_their_edges(self):
        asked = Asked()
        plain = repeated_book(flat_values(0, 0, 0), PG2_MEN, 113, LOWEST)
        two = flat_values(0, 0, 0)
        two.portfolios = {0: Portfolio(118, (LOWEST,) * 3), PG2_MEN: Portfolio(0, (LOWEST,) * 121)}
        for book, places in (
                # The third record leads past the fourth, the seventh back to the second: the chain
                # starts anew at the fifth once.
                (changed(plain, (record(3).next, 5), (record(7).next, 2)), [1_318, 1_246, 1_318]),
                # A first class above 120 before a class of 1 was 0.
                (changed(make_book(two), (record(4).age_class, 200)), [1_294]),
                # A head that leads into the first chain.
                (changed(make_book(two), (CHAINS[PG2_MEN].head, 2)), [1_244])):
            found = faults.all_faults(book)
            self.assertEqual([each.place for each in found.found], places)
            asked.ask(as_plain(found), "faults.allFaults", book)
        self.same("faults that are corrected in one way alone", asked)

    def test_funds(self):
        asked, seen = Asked(), set()
        files = [(pair.table, pair.first, pair.second) for pair in FUNDS_CASES]
        files += [(TABLE, b"text", b"text " * 40), (b"text", b"", b"%PDF" + bytes(100))]
        for held in files:
            replies = answers.funds(*held)
            asked.ask([refused_fields(reply) for reply in replies], "answers.funds", *held)
            for reply, fund in zip(replies, held[1:]):
                if isinstance(reply, answers.RefusedError):
                    seen.add(reply.number)
                    at = reply.number, reply.place, fund
                    asked.ask(list(messages.refused_file(*at)), "messages.refusedFile", *at)
        self.covers("refusals of funds", (1, 2, 4, 5, 6, 9, 10, 12, 24), seen)
        self.same("two funds", asked)

    def test_write(self):
        asked, values = Asked(), answers.read(sample("worked_example").read_bytes())
        far = values.chains[0]._replace(first_class=122)
        longer = values.chains[6]._replace(counts=(*values.chains[6].counts, 1))
        high = values.chains[6]._replace(claims=(10_000_001,) * 3)
        for number, changes in (
                (2, {"edition": 3}), (4, {"year": 2016}), (4, {"percentages": (1, 0)}),
                (23, {"edition": 2, "percentages": (0, 1)}), (6, {"cost_rates": (1_000_001,) * 5}),
                (7, {"curve": (-10_001,) * 49}), (8, {"mortality": (1_000_001,) * 242}),
                (11, {"chains": (far, *values.chains[1:])}),
                (22, {"chains": (*values.chains[:6], longer, *values.chains[7:])}),
                (12, {"chains": (*values.chains[:6], high, *values.chains[7:])})):
            broken = values._replace(**changes)
            due = outcome(answers.write, broken)
            self.assertEqual(due[1], number)
            asked.ask(due, "answers.write", as_plain(broken))
        self.same("values that are refused", asked)

    def test_calls_that_read_no_book(self):
        asked, chooser, seen = Asked(), random.Random(34), set()
        for _ in range(60):
            accounts = random_accounts(chooser)
            five = random_claims(chooser)
            for function, name, given, passed in (
                    (answers.cost_rates, "costRates", accounts, accounts),
                    (answers.spread, "spread", five, (five[:5], *five[5:]))):
                due = outcome(function, *given)
                seen.add(due[1] if isinstance(due, tuple) else name)
                asked.ask(due, f"answers.{name}", *passed)
        for start in (0, 1, 2**64 - 1):
            asked.ask(outcome(answers.practice, start), "answers.practice", start)
        self.covers("refusals and figures", (17, 18, 19, 27, 28, "costRates", "spread"), seen)
        self.same("accounts, claims and practice books", asked)

    def test_deviation(self):
        asked, seen = Asked(), set()
        for _, book, held, (number, *_) in MODELS:
            seen.add(number)
            asked.ask(outcome(answers.deviation, book, *held), "answers.deviation", book, *held)
        self.covers("refusals of models", (0, 29, 30, 31), seen)
        self.same("risk models", asked)


def refused_fields(reply):
    """A fund's reply as the modules give it: an error by its fields."""
    if not isinstance(reply, answers.RefusedError):
        return as_plain(reply)
    return {"name": "RefusedError", "number": reply.number, "place": reply.place,
            "words": reply.words, "owner": reply.owner}


class Layout(NodeCase):
    """The fields of a book, from the one place where they are defined."""

    def test_fields(self):
        asked = Asked()
        for name in ("header_fields", "percentages", "heads"):
            due = as_plain(list(getattr(layout, name)()))
            asked.ask(due, f"layout.{in_camel_case(name)}")
        self.same("header, percentages and heads", asked)

    def test_records(self):
        asked, book = Asked(), sample("small_insurer").read_bytes()
        for place in (1_220, 1_243, 1_244, 5_000):
            asked.ask(as_plain(layout.record_at(place)), "layout.recordAt", place)
        asked.ask(layout.record_count(book), "layout.recordCount", book)
        self.same("records", asked)


class Commands(NodeCase):
    """What the command prints, run as people run it."""

    def printed(self, *words, refused=False):
        """Lines of standard output, and those of standard error that are no warnings."""
        run = xaropinto(*words)
        self.assertEqual(run.code, 1 if refused else 0, run.errors)
        return run.out.decode().splitlines(), without_warnings(run.errors)

    def test_check(self):
        chooser = random.Random(36)
        books = [path.read_bytes() for path in sorted(SAMPLES.glob("*.book"))]
        books += [any_book(chooser) for _ in range(30)]
        with tempfile.TemporaryDirectory() as folder:
            paths = [Path(folder) / f"{number}.book" for number in range(len(books))]
            for path, book in zip(paths, books):
                path.write_bytes(book)
            for every in (True, False):
                printed, reported = self.printed("check", *paths, *["--all"] * every, refused=True)
                replies = node().calls([("cli_check.checkFile", str(path), book, every)
                                        for path, book in zip(paths, books)])
                self.check(f"verdicts, every fault: {every}",
                           printed == [line for each in replies for line in each["printed"]])
                self.check(f"words beside them, every fault: {every}",
                           reported == [line for each in replies for line in each["reported"]])

    def test_record(self):
        for name, number, refused in (("worked_example", 2, False), ("newer_basis", 3, True),
                                      ("lapse_too_large", 1, True)):
            path = sample(name)
            printed, _ = self.printed("record", path, number, refused=refused)
            given = node().call("cli_record.recordLines", str(path), path.read_bytes(), number)
            self.check(f"record {number} of {name}", given == printed, given)

    def test_no_such_record(self):
        path = sample("newer_basis")
        for number in (0, 4):
            run = xaropinto("record", path, number)
            with self.assertRaises(NodeError) as caught:
                node().call("cli_record.recordLines", str(path), path.read_bytes(), number)
            self.assertEqual(run.errors, f"xaropinto: {caught.exception.message}\n")

    def test_classes_and_age_shift(self):
        with tempfile.TemporaryDirectory() as folder:
            one = Path(folder) / "one_contract.book"
            one.write_bytes(WOMEN_BOOK)
            for path in (one, sample("small_insurer"), sample("full")):
                book = path.read_bytes()
                printed, _ = self.printed("age-shift", path)
                given = node().call("cli_portfolio.ageShiftText",
                                    request("age_shift.ageShift", book))
                self.check(f"age shift of {path.name}", given.splitlines() == printed)
        printed, _ = self.printed("classes", sample("full"), "--group", "PG1", "--sex", "women")
        given = node().call("cli_portfolio.classesText", request("answers.read", book), "PG1",
                            "women")
        self.check("classes", given.splitlines() == printed)

    def test_a_missing_file(self):
        files = sheets.csv_files(answers.read(sample("worked_example").read_bytes()))
        del files["curve.csv"]
        with tempfile.TemporaryDirectory() as folder:
            for name, held in files.items():
                (Path(folder) / name).write_bytes(held)
            run = xaropinto("write", folder, "-o", Path(folder) / "book")
            with self.assertRaises(NodeError) as caught:
                node().call("sheets.readSheets", request("sheets.folderTables", files))
            self.assertEqual(re.sub(r".*/", "", run.errors), caught.exception.message + "\n")


if __name__ == "__main__":
    sys.exit(run_unit_tests(sys.modules[__name__]))
