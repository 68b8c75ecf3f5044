"""`python -m xaropinto` is the command."""

import sys

from xaropinto.start import start

if __name__ == "__main__":
    sys.exit(start())
