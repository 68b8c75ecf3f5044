"""Times Totals of the reference on a book: median milliseconds, n, totals and differences."""

import argparse
import statistics
import sys
import time
from pathlib import Path

from reference.valuation import totals


def main():
    """One line."""
    parser = argparse.ArgumentParser(description=__doc__)
    parser.add_argument("book", type=Path, help="the path of a book")
    parser.add_argument("runs", type=int, help="how often it is timed")
    wanted = parser.parse_args()
    book = wanted.book.read_bytes()
    times = []
    for _ in range(wanted.runs):
        began = time.perf_counter()
        _, _, n, by_setting, differences = totals(book)
        times.append(time.perf_counter() - began)
    print(f"{statistics.median(times) * 1_000:.3f}", n, *by_setting, *differences)
    return 0


if __name__ == "__main__":
    sys.exit(main())
