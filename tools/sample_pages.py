"""The sample pages, as the command writes them on a fixed day: written, or tested to be so."""

import argparse
import subprocess
import sys
import tempfile
from pathlib import Path

from tests import ROOT
from tests.cli.run import sample, surroundings
from tests.support.report import Report
from tools.sample_books import PAGES

FOLDER = ROOT / "samples"
DAY = "2026-11-17"
WORDS = {"small_insurer.html": ("page", sample("small_insurer")),
         "compare_as_expected.html": ("compare", sample("last_year"), sample("this_year")),
         "compare_one_too_high.html": ("compare", sample("last_year"), sample("this_year_slipped"))}


def write_page(name, path):
    """Write a page by the command."""
    subprocess.run([sys.executable, "-m", "xaropinto", *map(str, WORDS[name]), "-o", str(path),
                    "--today", DAY], check=True, env=surroundings(), stdout=subprocess.DEVNULL,
                   stderr=subprocess.DEVNULL)


def test():
    """Each page is what the command writes today; the exit code."""
    report = Report()
    with tempfile.TemporaryDirectory() as folder:
        for name in PAGES:
            path = Path(folder) / name
            write_page(name, path)
            report.test(f"{name} is as written", path.read_bytes() == (FOLDER / name).read_bytes())
    return report.finish()


def write():
    """Write every page anew; the exit code."""
    for name in PAGES:
        write_page(name, FOLDER / name)
    return 0


def main():
    """The two verbs."""
    parser = argparse.ArgumentParser(description=__doc__)
    parser.add_argument("verb", choices=("write", "test"), help="write the pages, or test")
    return write() if parser.parse_args().verb == "write" else test()


if __name__ == "__main__":
    sys.exit(main())
