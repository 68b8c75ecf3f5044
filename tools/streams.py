"""Writes the streams of the test programs: cases for each, with the answers due."""

import argparse
import sys

from tests import ROOT
from tests.vectors import (cell_projection_stream, check_stream, group_stream, listing_stream,
                           record_view_stream)

# What makes entries, stdin and stdout, by the crate of the program.
STREAMS = {
    "test_check": check_stream.build,
    "test_record_view": record_view_stream.build,
    "test_group": group_stream.build,
    "test_listing": listing_stream.build,
    "test_cell_projection": cell_projection_stream.build,
}


def main():
    """Write the files of each crate."""
    argparse.ArgumentParser(description=__doc__).parse_args()
    for crate, build in STREAMS.items():
        _, stdin, stdout = build()
        folder = ROOT / "crates" / crate
        folder.mkdir(parents=True, exist_ok=True)
        (folder / "stdin").write_bytes(stdin)
        (folder / "stdout").write_bytes(stdout)
        print(f"crates/{crate}: stdin {len(stdin)} bytes, stdout {len(stdout)} bytes")
    return 0


if __name__ == "__main__":
    sys.exit(main())
