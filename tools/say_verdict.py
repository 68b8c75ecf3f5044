"""The verdict on the book in a file, by the built listing program; a refusal in plain words."""

import argparse
import sys

from reference.layout import MOST_BYTES_TAKEN, SETTINGS
from tests import ROOT
from tests.support.program import ProgramFailed, run_program

sys.path.insert(0, str(ROOT / "python"))

from xaropinto.messages import explain  # noqa: E402


def verdict_of(book):
    """The verdict line of a book, out of what the listing program says of it."""
    written, code = run_program("listing_main", book)
    lines = written.decode("ascii").splitlines()
    if code == 0 and len(lines) == 1 and lines[0].startswith("refused "):
        return lines[0]
    if code == 0 and len(lines) == len(SETTINGS):
        return f"accepted {lines[0].split(' ')[2]}"
    raise ProgramFailed(f"the program wrote no listing and ended with code {code}")


def main():
    """Print the verdict: 0 where the book is accepted, 1 where refused, 2 where it is unknown."""
    parser = argparse.ArgumentParser(description=__doc__)
    parser.add_argument("book", help="the path of a book")
    path = parser.parse_args().book
    try:
        with open(path, "rb") as file:
            book = file.read(MOST_BYTES_TAKEN)
        line = verdict_of(book)
    except (OSError, ProgramFailed) as trouble:
        print(f"no verdict: {trouble}", file=sys.stderr)
        return 2
    print(line)
    if line.startswith("accepted "):
        return 0
    _, number, place = line.split(" ")
    print(explain(int(number), int(place), book))
    return 1


if __name__ == "__main__":
    sys.exit(main())
