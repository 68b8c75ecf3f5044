"""The verb `compare`: last year's book and this year's."""

import argparse
from typing import Optional, Sequence

from xaropinto import answers
from xaropinto.cli.errors import DONE, REFUSED, CommandError
from xaropinto.cli.files import read_file, write_file
from xaropinto.cli.notes import add_notes
from xaropinto.cli.outcome import Fields, put, put_notes, report_refusal
from xaropinto.cli.pages import add_insurer, imprint_of, name_of
from xaropinto.cli.words import Verbs, add_parser
from xaropinto.compare import Comparison, YearsError, compare
from xaropinto.compare_page import Book, compare_page
from xaropinto.json_data import json_fields
from xaropinto.layout import SETTINGS

DIFFERENCES = ("mortality", "lapse", "costs", "claims")


def add_verbs(verbs: Verbs) -> None:
    """Its words."""
    verb = add_parser(verbs, "compare", show_comparison,
                      "do this year's age classes follow last year's, and what moved the totals",
                      "xaropinto compare last.book this.book -o page.html")
    for name, words in (("last", "last year's book"), ("this", "this year's book")):
        verb.add_argument(name, metavar=name.upper(), help=words)
    verb.add_argument("-o", dest="out", metavar="PAGE.html", help="a page that is written as well")
    add_insurer(verb)
    add_notes(verb)


def show_comparison(chosen: argparse.Namespace) -> int:
    """The comparison as text, and its page where one is asked for."""
    last, this = (Book(name_of(path), read_file(path)) for path in (chosen.last, chosen.this))
    for path, book in ((chosen.last, last), (chosen.this, this)):
        try:
            answers.check(book.held)
        except answers.RefusedError as refused:
            report_refusal(refused, f"{path}: ")
            return REFUSED
    try:
        comparison = compare(last.held, this.held, chosen.today)
    except YearsError as error:
        raise CommandError(str(error)) from error
    if chosen.out:
        page = compare_page(last, this, comparison, imprint_of(chosen))
        write_file(chosen.out, page.encode())
    # The document has the notes as warnings.
    data = {name: held for name, held in json_fields(comparison).items() if name != "notes"}
    put(Fields("\n".join([*comparison_lines(comparison), ""]),
               {"verdict": comparison.verdict(), **data}))
    put_notes(comparison.notes, f"{chosen.this}: ")
    return REFUSED if chosen.strict and not comparison.is_clean() else DONE


def comparison_lines(comparison: Comparison) -> list[str]:
    """The verdict first, then the analysis of change, what changed, and chain by chain."""
    return [comparison.verdict(), *comparison.exceptions(), "", *analysis_lines(comparison), "",
            *change_lines(comparison), "", *chain_lines(comparison)]


def analysis_lines(comparison: Comparison) -> list[str]:
    """Comma-separated: last year's figures, what each step adds, this year's figures."""
    analysis = comparison.analysis
    rows = [(f"SST year {comparison.last_year}", analysis.last),
            *((step.name, step.adds) for step in analysis.steps),
            (f"SST year {comparison.this_year}", analysis.this)]
    heading = ["step", *SETTINGS, *(f"difference of {name}" for name in DIFFERENCES)]
    return ["Analysis of change, in centimes", ",".join(heading),
            *(",".join([name, *map(str, (*each.totals, *each.differences))])
              for name, each in rows), *analysis.remarks]


def change_lines(comparison: Comparison) -> list[str]:
    """What changed between the books."""
    changes = comparison.changes
    lines = ["What changed", f"chains that vanished: {listed(changes.vanished)}",
             f"chains that appeared: {listed(changes.appeared)}"]
    for name, held in (("last", changes.unlinked_last), ("this", changes.unlinked_this)):
        lines.append(f"in no chain of {name} year's book: records {held.records}, "
                     f"contracts {held.contracts}")
    lines.append("group,what,last,this,ratio")
    for each in changes.groups:
        for what, last, this, ratio in (
                ("contracts", each.last.contracts, each.this.contracts, None),
                ("premium_centimes", each.last.premium, each.this.premium, each.premium_ratio),
                ("claims_centimes", each.last.claims, each.this.claims, each.claims_ratio),
                ("lapse_millionths", each.last.lapse, each.this.lapse, each.lapse_ratio)):
            lines.append(",".join([each.last.group, what, *map(rounded, (last, this, ratio))]))
    for what, numbers in (("cost_rate_millionths", changes.cost_rates),
                          ("mortality_percentage", changes.percentages),
                          ("mortality_millionths", changes.mortality),
                          ("curve_millionths", changes.curve)):
        lines += [f"{each.name},{what},{each.last},{each.this}," for each in numbers]
    return lines


def chain_lines(comparison: Comparison) -> list[str]:
    """Comma-separated: the verdict of every chain that both books have."""
    return ["Age classes, chain by chain",
            "chain,verdict,counts_shift,counts_errors,curves_shift,curves_errors",
            *(f"{each.chain},{each.finding.verdict.value},{each.finding.counts.shift},"
              f"{each.finding.counts.errors:.1f},{each.finding.curves.shift},"
              f"{each.finding.curves.errors:.1f}" for each in comparison.alignment.chains)]


def listed(names: Sequence[str]) -> str:
    """Names, or that there are none."""
    return ", ".join(names) or "none"


def rounded(number: Optional[float]) -> str:
    """Whole numbers as they are, others with four decimals, nothing where there is none."""
    if number is None:
        return ""
    return f"{number:.4f}" if isinstance(number, float) else str(number)
