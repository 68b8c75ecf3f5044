"""How far a long run is: one line, rewritten on a terminal, printed every minute elsewhere.

`rt` prints a line as each crate ends and as the must-fail edits of a crate begin: what is done is
read off these lines. Nothing that runs is disturbed.
"""

import os
import re
import sys
import time

from tests import ROOT

# What `rt ci` printed when the gate last ran it: there it says what each must-fail edit came to.
CI_LOG = ROOT / "target" / "rt-ci.log"
# A crate ends: under `rt ci`, and under `rt all`. One begins, and the one before it has ended:
# under `rt lib` and `rt run`.
ENDED = re.compile(r"(?:rt: (\w+) (?:proved$|NOT PROVED|is kept:)|== (\w+)$)")
BUILDING = re.compile(r"rt: chose --jobs \d+ for (\w+)$")
# The must-fail edits of a crate begin, and one has ended.
TRYING = re.compile(r"rt: (\w+): trying its must-fail edits")
EDIT = re.compile(r"rt: must-fail (\w+/[\w.-]+)\.edit:")
BAD = re.compile(r"(?:rt: (?:must-fail )?([\w/.-]+?)(?:\.edit)?(?:: its tests(?: are)?)?"
                 r"(?: \([^()]*\))?:? (?:NOT PROVED|NOT REFUSED|BAD EDIT|NOT TRIED|FAILED"
                 r"|the program (?:ended|had|was)|what the program wrote)"
                 r"|(\w+): (?:failed \(|not run,))")
# What a crate, an edit or a test takes by itself, before any has ended.
LIKELY_SECONDS = 10
AT_ONCE = 2
SLOWEST = 10
# On a terminal: before the line is first shown, and before it is rewritten. Elsewhere: between two.
FIRST_SECONDS, REWRITE_SECONDS, LINE_SECONDS = 2, 0.5, 60
CLEAR = "\r\x1b[K"
LIKELY_WIDTH = 80


def crates_listed():
    """The crates of crates.txt, each with the crates of it that it needs."""
    text = (ROOT / "crates.txt").read_text(encoding="utf-8")
    needs = dict(re.findall(r"^(\w+)\b[^:\n]*:(.*)", text, re.MULTILINE))
    return {crate: [word for word in words.split() if word in needs]
            for crate, words in needs.items()}


def crates_needed(crate):
    """A crate, and all that it needs directly or by way of others."""
    listed, found, waiting = crates_listed(), set(), [crate]
    while waiting:
        each = waiting.pop()
        if each not in found:
            found.add(each)
            waiting += listed.get(each, [])
    return found


def edits_listed():
    """The must-fail edits, as CRATE/EDIT."""
    edits = (ROOT / "crates").glob("*/must-fail/*.edit")
    return {f"{edit.parent.parent.name}/{edit.stem}" for edit in edits}


def clock(seconds):
    """A time in minutes and seconds."""
    return f"{int(seconds) // 60}:{int(seconds) % 60:02}"


def crates_built():
    """The crates of which `rt` has built the library, as they stand or as they once stood."""
    stamps = (ROOT / "crates").glob("*/out/rlib/stamp")
    return {stamp.parent.parent.parent.name for stamp in stamps}


class Work:
    """What a run has to do, what of it is done, and what went wrong so far."""

    def __init__(self, crates, edits=(), parts=()):
        self.crates, self.edits, self.parts = set(crates), set(edits), list(parts)
        self.proved, self.begun, self.tried = set(), set(), set()
        self.building, self.bad, self.ended = "", {}, {}
        self.began = time.monotonic()

    def read(self, lines):
        """Take in what `rt` printed; a line that is read twice counts once."""
        for line in lines:
            if building := BUILDING.match(line):
                self.proved.add(self.building)
                self.building = building[1]
            for form, done in ((ENDED, self.proved), (TRYING, self.begun), (EDIT, self.tried)):
                if ended := form.match(line):
                    done.add(next(filter(None, ended.groups())))
            if bad := BAD.match(line):
                self.bad[bad[1] or bad[2]] = True
        self.proved &= self.crates

    def edits_begun(self):
        """The edits that have ended, and those of the crates whose edits have begun."""
        return {edit for edit in self.edits
                if edit in self.tried or edit.partition("/")[0] in self.begun}

    def seconds_left(self, elapsed):
        """An estimate: what is left takes as long as what is done."""
        # The first part proves the crates and tries the edits; the others are tests.
        tests = self.parts[1:]
        due = len(self.crates) + len(self.edits) + len(tests)
        done = len(self.proved) + len(self.edits_begun())
        done += sum(test in self.ended for test in tests)
        return elapsed * (due - done) / done if done else due * LIKELY_SECONDS / AT_ONCE

    def words(self, running=()):
        """The line: time so far and left, what is done of all, and the parts that run."""
        elapsed = time.monotonic() - self.began
        left = max(1, round(self.seconds_left(elapsed) / 60))
        words = f"{clock(elapsed)} so far, about {left} min left"
        words += f"; crates {len(self.proved)} of {len(self.crates)}"
        if self.edits:
            words += f", edits {len(self.edits_begun())} of {len(self.edits)}"
        if self.bad:
            words += f"; FAILED {', '.join(self.bad)}"
        if running:
            at = " and ".join(str(self.parts.index(name) + 1) for name in running)
            words += f"; part {at} of {len(self.parts)}: {'; '.join(running)}"
        return words

    def slowest(self):
        """The lines that say which parts took longest."""
        timed = [(name, seconds) for name, seconds in self.ended.items() if seconds >= 1]
        if timed:
            yield "slowest parts:"
        for name, seconds in sorted(timed, key=lambda each: -each[1])[:SLOWEST]:
            yield f"{seconds:6.0f} s  {name}"


class Line:
    """Where progress is shown: a terminal among the outputs, or else the one given."""

    def __init__(self, elsewhere):
        terminals = [each for each in (sys.stderr, sys.stdout) if each.isatty()]
        self.rewritten = bool(terminals) and os.environ.get("TERM") != "dumb"
        self.stream = terminals[0] if self.rewritten else elsewhere
        self.due = time.monotonic() + (FIRST_SECONDS if self.rewritten else LINE_SECONDS)

    def show(self, make_words):
        """Show the line where it is due."""
        now = time.monotonic()
        if now < self.due:
            return
        self.due = now + (REWRITE_SECONDS if self.rewritten else LINE_SECONDS)
        if self.rewritten:
            # A terminal that does not know its width says 0.
            width = os.get_terminal_size(self.stream.fileno()).columns or LIKELY_WIDTH
            self.stream.write(CLEAR + make_words()[:width - 1])
        else:
            self.stream.write(make_words() + "\n")
        self.stream.flush()

    def clear(self):
        """Make way for other lines."""
        if self.rewritten:
            self.stream.write(CLEAR)
            self.stream.flush()
