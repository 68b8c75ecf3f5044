"""One page about a book that stands alone: verdict, warnings, totals, product groups, charts."""

import hashlib
from dataclasses import dataclass
from datetime import date
from typing import Sequence

from xaropinto import answers
from xaropinto.book_values import BookValues
from xaropinto.charts import Series, bar_chart, line_chart, unit_of
from xaropinto.distances import total_distance
from xaropinto.html_parts import (captioned, charts, document, element, facts, items, note,
                                  section, table)
from xaropinto.layout import GROUPS, SETTINGS, SEXES
from xaropinto.number_format import counted, francs, million_francs, percent, swiss
from xaropinto.plausibility import Note, group_means, notes_of
from xaropinto.portfolio import contracts_by_class
from xaropinto.version import VERSION

DIFFERENCES = ((1, 2), (3, 4), (5, 6), (7, 0))
AMOUNTS = ("centimes", "million francs")
PROVED = ("Verdict, n, totals, differences, liabilities and years come from proved calls. The "
          "counts, means, warnings, charts and the formula of the distance are the program's own: "
          "tested, not proved.")
WARNING_NOTE = "A warning is no refusal: the figures are those of the book as it is."
TOTALS_NOTE = ("A total below zero is a credit. The exact value follows the same steps in "
               "unrounded fractions; that no total is further from it is proved.")


@dataclass(frozen=True)
class Imprint:
    """What a page says of its making: the day, and whose book it is."""

    today: date
    insurer: str = ""


def page_of(name: str, book: bytes, imprint: Imprint) -> str:
    """The page of an accepted book; `RefusedError` where it is refused."""
    totals, values = answers.totals(book), answers.read(book)
    return document(name, [heading(name, totals.n), identity(name, book, values, imprint),
                           warnings_section(notes_of(book, imprint.today)),
                           totals_section(totals, values), differences_section(totals),
                           groups_section(values), charts_section(book, values), note(PROVED)])


def heading(name: str, n: int) -> str:
    """What it is, and the verdict."""
    holding = counted(n, "linked record holds", "linked records hold")
    return "\n".join([element("h1", name),
                      element("p", f"accepted {n}", class_="verdict good"),
                      element("p", f"{holding} contracts.")])


def identity(name: str, book: bytes, values: BookValues, imprint: Imprint) -> str:
    """Which book this is about, and which run."""
    edition = str(values.edition)
    if values.edition == 2:
        edition += f", mortality percentages {values.percentages[0]} and {values.percentages[1]}"
    rows = [("Insurer", imprint.insurer)] if imprint.insurer else []
    rows += [("File", name), ("SST year", str(values.year)), ("Age basis", "1"),
             ("Edition", edition), ("Length", counted(len(book), "byte", "bytes")),
             ("SHA-256", hashlib.sha256(book).hexdigest()),
             ("Date of the run", imprint.today.isoformat()), ("Program", f"xaropinto {VERSION}")]
    return facts("The book", rows)


def warnings_section(notes: Sequence[Note]) -> str:
    """What is unusual about the book."""
    if not notes:
        return section("Warnings", element("p", "None."))
    return section("Warnings", items([f"{each.text} ({each.name})" for each in notes]),
                   note(WARNING_NOTE))


def totals_section(totals: answers.Totals, values: BookValues) -> str:
    """The eight totals with their distance."""
    distance = swiss(total_distance(totals.n, min(values.curve) >= 0))
    rows = [(f"{setting} {SETTINGS[setting]}", swiss(total), million_francs(total))
            for setting, total in enumerate(totals.totals)]
    return section(
        "Totals", table(f"Total by setting, each within ± {distance} centimes of its exact value",
                        ("setting", *AMOUNTS), rows),
        note(TOTALS_NOTE))


def differences_section(totals: answers.Totals) -> str:
    """The four differences."""
    rows = [(f"{SETTINGS[one]} less {SETTINGS[other]}", swiss(each), million_francs(each))
            for (one, other), each in zip(DIFFERENCES, totals.differences)]
    return section("Differences", table("Between two settings", ("settings", *AMOUNTS), rows))


def groups_section(values: BookValues) -> str:
    """What a contract of each group pays and costs: a wrong unit is seen here."""
    rows = []
    for each, rate in zip(group_means(values), values.cost_rates):
        means = ("", "", "")
        if each.premium is not None and each.claims is not None and each.lapse is not None:
            means = (francs(each.premium), francs(each.claims), percent(each.lapse))
        rows.append((each.group, swiss(each.contracts), *means, percent(rate)))
    headings = ("group", "contracts", "premium, francs", "claims, francs", "lapse, percent",
                "cost rate, percent")
    return section("Product groups",
                   table("Means over the contracts, for a contract and a year", headings, rows,
                         "stack"))


def charts_section(book: bytes, values: BookValues) -> str:
    """The years of each product group in the base, and the contracts by class."""
    parts = [year_chart(name, answers.group(book, 0, number))
             for number, name in enumerate(GROUPS, start=1)]
    return "\n".join(["<h2>Years of the product groups in the base, and age classes</h2>",
                      charts([*parts, class_chart(values)])])


def year_chart(name: str, group: answers.Group) -> str:
    """Premium after the cap and outgo of a product group, by year."""
    premium, outgo = ([year[at] for year in group.years] for at in range(2))
    if not any(premium) and not any(outgo):
        return captioned(name, element("p", "No premium and no outgo in any year."))
    divisor, unit = unit_of(max(*premium, *outgo))
    series = [Series(words, [amount / divisor for amount in amounts])
              for words, amounts in (("premium after cap", premium), ("outgo", outgo))]
    return captioned(f"{name}: liability {million_francs(group.liability)} million francs",
                     line_chart(f"{name}: premium after the cap and outgo by year", unit, "year",
                                series))


def class_chart(values: BookValues) -> str:
    """Contracts by class and sex."""
    by_sex = {people: contracts_by_class(values, sex=people) for people in SEXES}
    if not any(any(counts) for counts in by_sex.values()):
        return captioned("Contracts by age class", element("p", "No contracts."))
    words = ", ".join(f"{swiss(sum(counts))} {people}" for people, counts in by_sex.items())
    return captioned(f"Contracts by age class: {words}",
                     bar_chart("Contracts by age class and sex", "contracts", "age class",
                               [Series(people, counts) for people, counts in by_sex.items()]))
