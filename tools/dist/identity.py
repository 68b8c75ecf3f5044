"""What a build is of: the commit, its time and the checker. Equal ones make equal bytes."""

import functools
import json
import os
import subprocess
from pathlib import Path

ROOT = Path(__file__).resolve().parents[2]
VERSION = (ROOT / "VERSION").read_text(encoding="ascii").strip()
UNKNOWN = "unknown"
# The time of all files where no commit has one: the first that a zip archive can hold.
OLDEST = 315_532_800
# Also where another user owns the tree, as in `sudo make install`.
GIT = ("git", "-c", f"safe.directory={ROOT}")


def printed(*words):
    """What a command prints, without the last line's end; empty where it fails or is not there."""
    try:
        ended = subprocess.run(words, cwd=ROOT, stdin=subprocess.DEVNULL, capture_output=True,
                               check=True)
    except (OSError, subprocess.CalledProcessError):
        return ""
    return ended.stdout.decode().strip()


@functools.cache
def commit():
    """The commit of the tree, marked where the tree holds anything else."""
    found = printed(*GIT, "rev-parse", "--verify", "HEAD")
    if not found:
        return UNKNOWN
    return found + "-modified" if printed(*GIT, "status", "--porcelain") else found


@functools.cache
def checker():
    """The identity of the checker: what was built is proved by this one, or it is proved again."""
    return printed("rt", "version") or UNKNOWN


def seconds():
    """The time of every file that is written: the commit's, in seconds since 1970."""
    named = os.environ.get("SOURCE_DATE_EPOCH") or printed(*GIT, "log", "-1", "--format=%ct")
    return max(int(named or OLDEST), OLDEST)


def build_json():
    """The file of the package that `xaropinto --version` reads."""
    held = {"version": VERSION, "commit": commit(), "checker": checker()}
    return (json.dumps(held, indent=1) + "\n").encode()
