"""python3 -m tools.targets build: the proved code for other targets, under target/targets."""

import argparse
import sys

from tests import ROOT
from tools.targets import BuildError
from tools.targets.build import build


def main():
    """Build; the exit code."""
    parser = argparse.ArgumentParser(prog="python3 -m tools.targets", description=__doc__)
    parser.add_argument("what", choices=("build",), help="capture the module, build all targets")
    parser.parse_args()
    try:
        for path in build():
            print(f"{path.relative_to(ROOT)}: {path.stat().st_size} bytes")
    except BuildError as error:
        print(error, file=sys.stderr)
        return 1
    return 0


if __name__ == "__main__":
    sys.exit(main())
