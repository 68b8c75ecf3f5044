"""Prints rows for tests/repository/order_figures.tsv: the numbers that differ from the list."""

import argparse
import sys

from tests.repository.test_order_figures import (STEPS, Row, definitions, differences, numbers_due,
                                                 read_list, read_text, specifications)


def moved_rows(rows, spec, name, numbers):
    """The rows of a definition of this name and these numbers that another specification had."""
    for other, due in numbers_due(rows).items():
        if other != spec and due.get(name) == numbers:
            return [row._replace(specification=spec) for row in rows
                    if (row.specification, row.definition) == (other, name)]
    return []


def unlisted(rows, due):
    """Rows for what differs: those of a definition that was moved, or empty ones."""
    found = {spec: read_text(spec) for spec in specifications() if spec not in STEPS}
    gone = {name for spec, listed in due.items()
            for name in listed.keys() - definitions(found.get(spec, "")).keys()}
    for spec, text in found.items():
        differing = [name for name, _, _ in differences(text, due[spec])]
        for name, definition in definitions(text).items():
            numbers = definition.numbers(text)
            known = moved_rows(rows, spec, name, numbers) if name in gone else []
            if numbers and name in differing:
                known = known or [Row("", "", "", spec, name, " ".join(map(str, numbers)))]
            yield from known


def main():
    """One line for each row."""
    argparse.ArgumentParser(description=__doc__).parse_args()
    rows = read_list()
    for row in unlisted(rows, numbers_due(rows)):
        print(*row, sep="\t")
    return 0


if __name__ == "__main__":
    sys.exit(main())
