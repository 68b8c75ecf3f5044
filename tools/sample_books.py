"""Writes the sample books with their listings and reports."""

import argparse
import sys
from dataclasses import replace

from reference.book import PG2_MEN, Cell, Portfolio, make_book, one_record_book
from reference.layout import changed, record
from reference.valuation import listing
from reference.year_report import report_page
from tests import ROOT
from tests.cli.inputs import accounts_text, factors_text
from tests.fixtures.insurers import MANY_PRODUCTS, dense_full_book, flat_values, insurer_book
from tests.fixtures.age_basis_2 import on_basis_2
from tests.fixtures.people import two_years

FOLDER = ROOT / "samples"
# Pages of the command, which tests/cli holds.
PAGES = ["small_insurer.html", "compare_as_expected.html", "compare_one_too_high.html"]
# The report program is run with a word: claims up, which moves a figure of the first sample.
REPORTED_SETTING = 7


def refused_book():
    """The one-record book with a lapse one millionth too large."""
    return changed(one_record_book(), (record(1).amounts[1], 1_000_001))


def worked_values():
    """What the book says that docs/WORKED_EXAMPLES works through by hand."""
    values = flat_values(150_000, 0, 0)
    values.curve[:2] = [10_000, -5_000]
    values.mortality[0][118:] = [400_001, 500_000, 1_000_000]
    cells = (Cell(3, 70_001, 60_123, 30_456), Cell(2, 100_000, 60_321, 40_877),
             Cell(1, 500_000, 60_111, 56_789))
    values.portfolios[PG2_MEN] = Portfolio(118, cells)
    return values


def worked_book():
    """The worked example's book."""
    return make_book(worked_values())


def edition_2_book():
    """The worked example with mortality percentages of its own: 80 for men, 79 for women."""
    return make_book(replace(worked_values(), edition=2, percentages=(80, 79)))


# Each sample's name, its bytes and the verdict that the documents name.
SAMPLES = [
    ("one_record", one_record_book(), "accepted 1"),
    ("worked_example", worked_book(), "accepted 3"),
    ("edition_2", edition_2_book(), "accepted 3"),
    ("small_insurer", insurer_book(MANY_PRODUCTS, 2021), "accepted 315"),
    ("full", dense_full_book(2021), "accepted 1694"),
    ("lapse_too_large", refused_book(), "refused 12 1232"),
    ("newer_basis", on_basis_2(worked_book()), "refused 3 1"),
    ("last_year", make_book(two_years()[0]), "accepted 490"),
    ("this_year", make_book(two_years()[1]), "accepted 488"),
    ("this_year_slipped", make_book(two_years(age_basis=2)[1]), "accepted 488"),
]


def files():
    """Each file of samples/ by its name: sheets; books, each with its listing and report."""
    held = {"accounts.csv": accounts_text().encode("ascii"),
            "factors.csv": factors_text().encode("ascii")}
    for name, book, _ in SAMPLES:
        held |= {f"{name}.book": book, f"{name}.listing": listing(book),
                 f"{name}.report": report_page(book, 0)}
    return held


def copies():
    """What the proofs of the programs run them on: a sample, and what comes of it."""
    name, book, _ = SAMPLES[0]
    listed = {"crates/listing_main/stdin": book,
              "crates/listing_main/stdout": files()[f"{name}.listing"]}
    reported = {"crates/year_report_main/stdin": book,
                "crates/year_report_main/args": f"{REPORTED_SETTING}\n".encode("ascii"),
                "crates/year_report_main/stdout": report_page(book, REPORTED_SETTING)}
    converted = {"crates/age_basis_main/stdin": on_basis_2(worked_book()),
                 "crates/age_basis_main/stdout": worked_book()}
    return listed | reported | converted


def all_files():
    """Every file that is made, by its path from the top."""
    return {f"samples/{name}": content for name, content in files().items()} | copies()


def main():
    """Write every sample."""
    parser = argparse.ArgumentParser(description=__doc__)
    parser.add_argument("verb", choices=("write",), help="write the samples anew")
    parser.parse_args()
    FOLDER.mkdir(exist_ok=True)
    for name, content in all_files().items():
        (ROOT / name).write_bytes(content)
        print(f"{name}: {len(content)} bytes")
    return 0


if __name__ == "__main__":
    sys.exit(main())
