"""The version, as the file VERSION at the top of the repository has it, and what was built.

An older Python must be able to read this file, as `start.py` says.
"""

VERSION = "2.2.0"
# Beside this file where a package is made, with the commit and the checker; in the repository there
# is none.
BUILD = "build.json"
UNKNOWN = "unknown"


def version_text() -> str:
    """What `--version` prints: the version, the commit that was built, the checker that proved
    it."""
    import json
    import os

    held = {}
    try:
        here = os.path.dirname(os.path.abspath(__file__))
        with open(os.path.join(here, BUILD), encoding="utf-8") as file:
            held = json.load(file)
    except (OSError, ValueError):
        pass
    commit, checker = (held.get(name, UNKNOWN) for name in ("commit", "checker"))
    return "xaropinto %s\ncommit %s\nchecker %s\n" % (VERSION, commit, checker)
