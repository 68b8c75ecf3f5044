"""A page about two years' books: age classes, analysis of change, what changed."""

import hashlib
from typing import Callable, NamedTuple, Optional, Sequence

from xaropinto import answers
from xaropinto.age_alignment import ChainFinding, Signal, Verdict, expected_by_class
from xaropinto.book_changes import BookChanges, NumberChange, ratio
from xaropinto.change_analysis import ChangeAnalysis
from xaropinto.charts import Series, line_chart, step_chart, unit_of
from xaropinto.compare import Comparison
from xaropinto.html_parts import (captioned, charts, document, element, items, note, section, table,
                                  text)
from xaropinto.layout import CHAINS, SETTINGS
from xaropinto.number_format import counted, francs, percent, swiss
from xaropinto.page import DIFFERENCES, Imprint, warnings_section
from xaropinto.portfolio import contracts_by_class
from xaropinto.version import VERSION

COLOURS = {Verdict.AS_EXPECTED: "good", Verdict.CANNOT_TELL: "open"}
# The years of the curve that the page shows, and the most classes of mortality.
CURVE_YEARS, MOST_CLASSES = (1, 2, 5, 10, 20, 30, 40, 49), 20
# The chart of steps has five digits: a step is much smaller than a total.
MOST_IN_A_CHART = 100_000
LAST, THIS = "last year's book", "this year's book"
PROVED = ("Every total and difference comes from proved calls, also those of the steps between the "
          "two books. Whether the classes follow is decided by a statistical rule that is tested "
          "and not proved; it compares, so a fault that both books have is not seen.")
STRUCTURE_NOTE = ("Last year's contracts are those that the assumptions of last year's book leave "
                  "in force. Where the classes follow, the ups and downs of both lines are at the "
                  "same classes in the first chart; where they slipped, in the second.")
SIGNALS_NOTE = ("Counts: do the ups and downs of the contracts grow older with them? Curves: do "
                "those of premium, claims and lapse stay at their class? A verdict takes a lead of "
                "three standard errors.")


class Book(NamedTuple):
    """A book with the name that the page calls it by."""

    name: str
    held: bytes


def compare_page(last: Book, this: Book, comparison: Comparison, imprint: Imprint) -> str:
    """The page of two accepted books."""
    title = f"{this.name} compared with {last.name}"
    return document(title, [
        heading(title, comparison), identity(last, this, imprint),
        structure_section(last.held, this.held, comparison),
        analysis_section(comparison.analysis), chains_section(last.held, this.held, comparison),
        changes_section(comparison.changes), warnings_section(comparison.notes), note(PROVED)])


def heading(title: str, comparison: Comparison) -> str:
    """What it is, and the verdict with the chains that differ from it."""
    colour = COLOURS.get(comparison.alignment.overall.verdict, "bad")
    parts = [element("h1", title),
             element("p", comparison.verdict(), class_=f"verdict {colour}")]
    parts += [element("p", line, class_="verdict bad") for line in comparison.exceptions()]
    return "\n".join(parts)


def identity(last: Book, this: Book, imprint: Imprint) -> str:
    """Which books this is about."""
    rows = []
    for name, book in ((LAST, last), (THIS, this)):
        values = answers.read(book.held)
        rows.append(f"<tr>{element('th', name, scope='row')}<td>{text(book.name)}, SST year "
                    f"{values.year}, age basis 1, edition {values.edition}, "
                    f"{counted(len(book.held), 'byte', 'bytes')}<br/>{digest(book.held)}</td></tr>")
    if imprint.insurer:
        rows.insert(0, f"<tr>{element('th', 'Insurer', scope='row')}"
                       f"{element('td', imprint.insurer)}</tr>")
    run = f"{imprint.today.isoformat()}, xaropinto {VERSION}"
    rows.append(f"<tr>{element('th', 'Date of the run', scope='row')}{element('td', run)}</tr>")
    return "\n".join(['<table class="facts">',
                      element("caption", "The books, each with its SHA-256"), "<tbody>", *rows,
                      "</tbody></table>"])


def digest(book: bytes) -> str:
    """A book's SHA-256."""
    return element("span", hashlib.sha256(book).hexdigest(), class_="hash")


def structure_section(last: bytes, this: bytes, comparison: Comparison) -> str:
    """Both age structures over each other; beside them this year's moved by a class."""
    years, verdict = comparison.alignment.years, comparison.alignment.overall.verdict
    expected, counts = expected_by_class(last, years), contracts_by_class(answers.read(this))
    higher = verdict is Verdict.TOO_LOW
    moved = [0, *counts[:-1]] if higher else [*counts[1:], 0]
    way = "higher" if higher else "lower"
    older = f"last year's, {counted(years, 'class', 'classes')} older"
    parts = [class_lines(title, (Series(older, expected), Series(name, shown)))
             for title, name, shown in (
                 ("As the books have them", "this year's", counts),
                 (f"This year's moved one class {way}", f"this year's, one {way}", moved))]
    return section("Contracts by age class", charts(parts), note(STRUCTURE_NOTE))


def class_lines(title: str, series: Sequence[Series]) -> str:
    """Two age structures over each other."""
    if not any(any(each.values) for each in series):
        return captioned(title, element("p", "No contracts."))
    return captioned(title, line_chart(title, "contracts", "age class", series))


def analysis_section(analysis: ChangeAnalysis) -> str:
    """From last year's total to this year's: a chart of the base, and all figures in centimes."""
    names = ["last year", *(step.name for step in analysis.steps), "this year"]
    totals = [analysis.last.totals, *(step.adds.totals for step in analysis.steps),
              analysis.this.totals]
    differences = [analysis.last.differences, *(step.adds.differences for step in analysis.steps),
                   analysis.this.differences]
    divisor, unit = unit_of(max(abs(row[0]) for row in totals), MOST_IN_A_CHART)
    steps = [(name, row[0] / divisor, at in (0, len(names) - 1))
             for at, (name, row) in enumerate(zip(names, totals))]
    chart = captioned("Base total", step_chart("Base total, from last year to this", unit, steps))
    parts = [charts([chart, items(analysis.remarks)] if analysis.remarks else [chart])]
    for first in (0, 4):
        some = slice(first, first + 4)
        parts.append(step_table(f"Totals of settings {first} to {first + 3}, in centimes", names,
                                SETTINGS[some], [row[some] for row in totals]))
    pairs = [f"{SETTINGS[one]} less {SETTINGS[other]}" for one, other in DIFFERENCES]
    parts.append(step_table("Differences between settings, in centimes", names, pairs, differences))
    return "\n".join(["<h2>Analysis of change</h2>", *parts])


def step_table(caption: str, names: Sequence[str], headings: Sequence[str],
               rows: Sequence[Sequence[int]]) -> str:
    """Last year's figures, what each step adds, and this year's."""
    return "<section>" + table(caption, ("step", *headings),
                               [(name, *map(swiss, row)) for name, row in zip(names, rows)],
                               "stack") + "</section>"


def chains_section(last: bytes, this: bytes, comparison: Comparison) -> str:
    """Every chain with its contracts in both years and its verdict."""
    found = {each.chain: each for each in comparison.alignment.chains}
    rows = []
    for name, before, now in zip(CHAINS, answers.read(last).chains, answers.read(this).chains):
        if before.counts or now.counts:
            rows.append((name, swiss(sum(before.counts)), swiss(sum(now.counts)),
                         *signal_cells(found.get(name))))
    return section("Age classes, chain by chain",
                   table("The likeliest shift of each signal, and its lead in standard errors",
                         ("chain", "last year", "this year", "counts", "curves", "verdict"), rows,
                         "stack"),
                   note(SIGNALS_NOTE))


def signal_cells(found: Optional[ChainFinding]) -> tuple[str, str, str]:
    """A chain's two signals and its verdict."""
    if found is None:
        return "", "", "in one book alone"
    return (signal_words(found.finding.counts), signal_words(found.finding.curves),
            found.finding.verdict.value)


def signal_words(signal: Signal) -> str:
    """A shift with its lead; nothing where there is no signal."""
    shift = f"{signal.shift:+d}" if signal.shift else "0"
    return f"{shift} ({signal.errors:.1f})" if signal.errors else ""


def changes_section(changes: BookChanges) -> str:
    """What changed between the books."""
    lines = []
    for words, names in (("Chains that vanished", changes.vanished),
                         ("Chains that appeared", changes.appeared)):
        lines.append(f"{words}: {', '.join(names) or 'none'}")
    for name, unlinked in ((LAST, changes.unlinked_last), (THIS, changes.unlinked_this)):
        records = counted(unlinked.records, "record", "records")
        contracts = counted(unlinked.contracts, "contract", "contracts")
        lines.append(f"In no chain of {name}: {records} with {contracts}")
    lines += [f"Mortality percentage of {each.name}: {each.last}, now {each.this}"
              for each in changes.percentages if each.last != each.this]
    return "\n".join([section("What changed", items(lines), group_table(changes)),
                      curve_section(changes.curve), mortality_section(changes.mortality)])


def group_table(changes: BookChanges) -> str:
    """Contracts, means and cost rates of both years, with their ratios."""
    rows = []
    for each, rate in zip(changes.groups, changes.cost_rates):
        if not each.last.contracts and not each.this.contracts:
            continue
        name = each.last.group
        rows += [(f"{name} contracts", swiss(each.last.contracts), swiss(each.this.contracts),
                  times(ratio(each.this.contracts, each.last.contracts))),
                 compared(f"{name} premium, francs", each.last.premium, each.this.premium, francs),
                 compared(f"{name} claims, francs", each.last.claims, each.this.claims, francs),
                 compared(f"{name} lapse, percent", each.last.lapse, each.this.lapse, percent),
                 compared(f"{name} cost rate, percent", rate.last, rate.this, percent)]
    return table("Product groups: means over the contracts, for a contract and a year",
                 ("", "last year", "this year", "ratio"), rows)


def compared(name: str, last: Optional[float], this: Optional[float],
             way: Callable[[float], str]) -> tuple[str, str, str, str]:
    """A row of a number in both years."""
    return (name, "" if last is None else way(last), "" if this is None else way(this),
            times(ratio(this, last)))


def times(over: Optional[float]) -> str:
    """A ratio; nothing where there is none."""
    return "" if over is None else f"{over:.3f}"


def curve_section(curve: Sequence[NumberChange]) -> str:
    """Both curves over each other, and how many rates changed."""
    changed = [each for each in curve if each.last != each.this]
    if not changed:
        return section("Curve", element("p", "No rate changed."))
    largest = max(changed, key=lambda each: abs(each.this - each.last))
    words = (f"{counted(len(changed), 'rate', 'rates')} of {len(curve)} changed, most that of year "
             f"{largest.name}: {percent(largest.last)} percent, now {percent(largest.this)}.")
    rows = [(f"year {each.name}", percent(each.last), percent(each.this))
            for each in curve if int(each.name) in CURVE_YEARS]
    return section("Curve", element("p", words),
                   table("Rates in percent", ("", "last year", "this year"), rows))


def mortality_section(moved: Sequence[NumberChange]) -> str:
    """The classes whose mortality moved by more than a tenth."""
    if not moved:
        return section("Mortality", element("p", "No class moved by more than a tenth."))
    rows = [(each.name, swiss(each.last), swiss(each.this)) for each in moved[:MOST_CLASSES]]
    rest = len(moved) - len(rows)
    more = [note(f"and {counted(rest, 'class', 'classes')} more")] if rest else []
    return section("Mortality",
                   table("In millionths, where it moved by more than a tenth",
                         ("sex and class", "last year", "this year"), rows), *more)
