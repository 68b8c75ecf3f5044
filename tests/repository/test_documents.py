"""Tests that the documents stay true to the tree: what they name, quote and show is as they say.

A rule makes items: where, whether it holds, what is wrong if not. Its docstring is its line in the
report. Each rule is also tried on copies of documents, broken in memory: it must notice.
"""

import sys

from tests.repository import document_form as form
from tests.repository import document_names as names
from tests.repository import document_quotes as quotes
from tests.repository.pages import (API, CHANGELOG, CONTRIBUTING, DECISIONS, DOCS, METHOD, README,
                                    TRACEABILITY, VERIFICATION, broken)
from tests.support.report import Report, read_no_words

FILE_FORMAT, GUIDE = DOCS / "FILE_FORMAT.md", DOCS / "USER_GUIDE.md"
NOTE = DOCS / "landings" / "W-201.md"
EXAMPLES = DOCS / "WORKED_EXAMPLES.md"

RULES = [names.paths, names.links, names.edits, names.notes, names.names, names.functions,
         names.calls, names.parts, names.counts, names.definitions, names.checkers, names.machines,
         form.lengths, form.widths, form.words, form.one_file, form.decisions, quotes.commands,
         quotes.programs, quotes.python_names, quotes.spans, quotes.files_shown,
         quotes.fragments]

LONG = "word " * 50
# For each rule pages, what is changed in the copy and into what.
BREAKS = [
    (names.paths, README, "samples/full.book", "samples/fuller.book"),
    (names.links, README, "(docs/API.md)", "(docs/APIS.md)"),
    (names.links, TRACEABILITY, "### Cap", "### The cap"),
    (names.edits, TRACEABILITY, "totals/leaves_out_a_group", "totals/leaves_out_no_group"),
    (names.notes, NOTE, "158 s after", "some time after"),
    (names.names, TRACEABILITY, "`accepted_held`", "`accepted_hold`"),
    (names.functions, API, "`totals::totals(book)`", "`totals::total(book)`"),
    (names.calls, API, "| `totals::totals(book)`", "| `totals::add_group(book)`"),
    (names.parts, VERIFICATION, "- **sample books**", "- **sampled books**"),
    (names.counts, VERIFICATION, "/Bytes.antt, 19:", "/Bytes.antt, 20:"),
    (names.definitions, VERIFICATION, "specs/Version.antt", "specs/Versions.antt"),
    (names.definitions, VERIFICATION, "`totals_group`, `totals` and", "`totals` and"),
    (names.machines, README, "`/usr/local`", "`/" + "opt/local`"),
    (form.lengths, README, "# Xaropinto\n", "# Xaropinto\n" + 30 * "\n"),
    (form.widths, README, "**For whom.**", LONG + LONG),
    (form.widths, API, "| n: linked records", f"| {LONG}"),
    (form.words, README, "**For whom.** Insurers", "**For whom.** The desks"),
    (form.words, METHOD, "how the other figures are defined", "how they are reckoned"),
    (form.words, GUIDE, "compare with your own counts, or with last year", "look at your sheets"),
    (form.words, VERIFICATION, "its buffers, and terminates", "what was lent, and ends"),
    (form.words, form.HEADER, "The caller owns every buffer.", "The caller owns what it lends."),
    (form.one_file, CHANGELOG, "Totals and Funds take less stack.", "Totals takes 64 KiB."),
    (form.one_file, CHANGELOG, "Totals and Funds take less stack.", "Totals takes 34,472 bytes."),
    (form.one_file, README, "It also needs gcc", "It is within 500 n + 2,850, and needs gcc"),
    (form.one_file, README, "It also needs gcc", "It takes 20 to 45 minutes, and needs gcc"),
    (form.decisions, DECISIONS, "- **D7** ", "- **D6** "),
    (form.decisions, DECISIONS, "- **D7** ", f"- **D7** {LONG}".replace("word ", "a ")),
    (form.decisions, NOTE, "**Stayed.**", "**Stayed.** (D999)"),
    (quotes.commands, README, "    5 -4900000 1", "    5 -4900001 1"),
    (quotes.commands, GUIDE, "    n 3\n", "    n 4\n"),
    (quotes.commands, GUIDE, "$ cmp again.book samples/worked_example.book",
     "$ cmp again.book samples/one_record.book"),
    (quotes.programs, GUIDE, "`xaropinto page FILE", "`xaropinto pages FILE"),
    (quotes.programs, README, "`make dist`", "`make dists`"),
    (quotes.programs, CONTRIBUTING, "python3 -m tests.api.test_base_calls",
     "python3 -m tests.api.test_calls"),
    (quotes.python_names, API, "xaropinto.RefusedError", "xaropinto.Refused"),
    (quotes.spans, VERIFICATION, "`for group in 1usize..6`", "`for group in 0usize..5`"),
    (quotes.spans, METHOD, "`years_in_force`", "`years_in_forced`"),
    (quotes.spans, FILE_FORMAT, "`refused 13 1248`", "`refused 99 1248`"),
    (quotes.files_shown, CONTRIBUTING, "    old: 1300,", "    old: 1301,"),
    (quotes.fragments, VERIFICATION, "(ltb kind 2) 10 1000", "(ltb kind 2) 10 1001"),
]


def wrong(rule):
    """The items of a rule that fail, each once, and how many it has."""
    items = list(rule())
    return dict.fromkeys((where, what) for where, holds, what in items if not holds), len(items)


def try_rule(report, rule, failing, count):
    """A line for each item that fails, or one for the rule; a rule without items fails."""
    for where, what in failing:
        report.test(where, False, what)
    if not failing:
        report.test(f"{rule.__doc__.rstrip('.')} ({count})", count > 0, "there are none")


def try_break(report, before, rule, page, old, new):
    """A rule fails on a copy of a page with `new` for `old`, where it did not fail `before`."""
    with broken(page, old, new):
        noticed = set(wrong(rule)[0]) - set(before)
    report.test(f"{rule.__name__} notices {new.strip()[:60]!r} in {page.name}", noticed)


def main():
    """All rules on the documents, then each on broken copies."""
    read_no_words(__doc__)
    report = Report()
    found = {rule: wrong(rule) for rule in RULES}
    for rule, (failing, count) in found.items():
        try_rule(report, rule, failing, count)
    for rule, *change in BREAKS:
        try_break(report, found[rule][0], rule, *change)
    untried = {rule.__name__ for rule in RULES} - {rule.__name__ for rule, *_ in BREAKS}
    report.test("every rule is tried on a broken copy", untried == {"checkers"}, untried)
    return report.finish()


if __name__ == "__main__":
    sys.exit(main())
