"""The checkers that the proofs were tried with: docs/CHECKERS.txt, one identity a line."""

import re

from tests import ROOT

TRIED = ROOT / "docs" / "CHECKERS.txt"
IDENTITY = re.compile(r"[\w.-]+ logic [0-9a-f]{16}")
NOT_TRIED = "note: docs/CHECKERS.txt does not name this checker; see docs/VERIFICATION.md"


def tried():
    """The identities of the file, without its remarks."""
    lines = TRIED.read_text(encoding="utf-8").splitlines()
    return [line for line in lines if line and not line.startswith("#")]


def checker_line(identity):
    """The gate's first line; below it a note, no failure, where the checker was not tried."""
    line = f"checker: {identity.strip()}"
    return line if identity.strip() in tried() else f"{line}\n{NOT_TRIED}"
