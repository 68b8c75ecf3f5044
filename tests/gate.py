"""The gate: proves every crate by `rt ci`, then runs the outside tests; last comes the tally.

Tests that need nothing of the proofs run beside these, on what they leave idle. `quick` begins with
what checks have kept here, runs the same tests and tries no must-fail edit. `callers` and `fuzz`
run some of the tests, one after the other. A test counts as one, or as the checks that it makes,
which are its subtests; one that is skipped has failed.
"""

import argparse
import os
import re
import subprocess
import sys
from typing import NamedTuple

from tests import ROOT
from tests.support.checker import checker_line
from tests.support.command import run, run_beside
from tests.support.progress import CI_LOG, Line, Work, crates_listed, edits_listed
from tests.support.report import NUMBER, SEED
from tools.prove import OF_CI, state_of_all

TALLY = re.compile(r"^(\d+) passed, (\d+) failed$")
# The last line of `rt all test`.
PROVED = re.compile(r"^(\d+) of (\d+) crates ok$")
# Where all else passed, `rt ci` passes with must-fail edits that it could not apply or read.
BAD_EDITS = re.compile(r"^rt: ok;.*, (\d+) bad\b")
# What the whole gate may take at the most: a part that takes longer hangs.
MOST_SECONDS = 4 * 60 * 60
INTERRUPTED = 130
# What is shown of a part that passes: the seed, and the largest distance.
SHOWN = ("seed ", "largest share")


class Part(NamedTuple):
    """A part, as the documents name it: its command, and the fewest tests that it must count."""

    name: str
    command: list
    least: int


def script(name, module, least):
    """A part that is one of our test modules; these lists are the only ones of them."""
    return Part(name, [sys.executable, "-m", module], least)


PROOFS = Part("proofs, must-fail edits and programs", ["rt", "ci"], 481)
# The proofs of `quick`: a crate that is as it was when it was proved is not proved again.
QUICK_PROOFS = Part("proofs and programs", ["rt", "all", "test"], 94)
# What needs the repository's files and nothing that is proved or built: it runs beside the proofs,
# on what these leave idle of the processors.
SOURCES = [
    script("numbers of the promises, against the order", "tests.repository.test_order_figures", 55),
    script("declarations of the calls in four languages", "tests.repository.test_struct_layouts",
           20),
    script("refusals, from one table", "tests.repository.test_refusals", 4),
    script("reference check, by hand-worked examples", "tests.reference.test_check", 43),
    script("stream of the check", "tests.vectors.test_check", 53),
    script("stream of Record", "tests.vectors.test_record_view", 12),
    script("reference valuation, by hand-worked examples", "tests.reference.test_valuation", 39),
    script("table of weights, entry by entry", "tests.reference.test_table_of_weights", 80),
    script("stream of Group, against the fractions", "tests.vectors.test_group", 31),
    script("stream of listings, against the fractions", "tests.vectors.test_listing", 36),
    script("stream of projection lengths", "tests.vectors.test_cell_projection", 11),
]
# What the parts below run on: built once, before them.
BUILDS = script("archive and programs, built as they are shipped", "tests.programs.test_builds", 12)
# What runs on the proved programs, two parts at once.
PROGRAMS = [
    script("must-fail edits fit the proof files", "tests.repository.test_must_fail_reasons", 2),
    script("behaviour of the gate", "tests.repository.test_gate", 29),
    script("listing program, by the paper's figures", "tests.programs.test_listing_main", 9),
    script("report program", "tests.programs.test_year_report_main", 9),
    script("convert program, by hand-worked books", "tests.programs.test_age_basis_main", 9),
    script("sample books", "tests.programs.test_samples", 51),
    script("random books against the reference check", "tests.fuzz.test_check", 17),
    script("random listings against the reference valuation and the fractions",
           "tests.fuzz.test_listing", 25),
]
# The callers of the archive and of the shared library.
CALLERS = script("callers in C and Rust", "tests.bindings.test_callers", 288)
CALLS = [
    script("calls from Python, on random books", "tests.api.test_base_calls", 14),
    script("arguments of the calls from Python", "tests.api.test_arguments", 13),
    script("cost rates from Python, on random accounts", "tests.api.test_cost_rates", 38),
    script("calls of the listing", "tests.api.test_listing", 14),
    script("calls of the report", "tests.api.test_year_report", 27),
    script("conversions from Python, on random books", "tests.api.test_age_basis", 63),
    script("Write and Read from Python, on random values and lists", "tests.api.test_write_read",
           31),
    script("two funds from Python, on random pairs", "tests.api.test_funds", 84),
    script("in force of a cell from Python, on random cells", "tests.api.test_in_force", 27),
    script("spread of claims from Python, on random claims", "tests.api.test_claims_variation", 32),
    script("deviations from Python, on random books and risk models",
           "tests.api.test_standard_deviation", 50),
    script("practice books from Python, on random start numbers", "tests.api.test_practice_book",
           19),
    script("the command's behaviour", "tests.cli.test_habits", 15),
    script("the command's answers, against the reference", "tests.cli.test_figures", 16),
    script("sheets as spreadsheets save them", "tests.cli.test_sheets", 19),
    script("a book as a workbook", "tests.cli.test_workbook", 9),
    script("the words of a refusal", "tests.cli.test_messages", 16),
    script("table file and fund files", "tests.cli.test_funds_files", 6),
    script("outputs, inputs and endings of the command", "tests.cli.test_outputs", 18),
    script("check, and every fault of a file", "tests.cli.test_check", 15),
    script("JSON, by its schema", "tests.cli.test_json", 8),
    script("the archive, and the types of the package", "tests.cli.test_package", 12),
    script("warnings about a book", "tests.cli.test_plausibility", 19),
    script("a slip of the age class", "tests.cli.test_age_shift", 6),
    script("pages of books", "tests.cli.test_page", 10),
    script("two years' books compared", "tests.cli.test_compare", 18),
    script("age classes of two years, on seeded pairs", "tests.cli.test_age_alignment", 14),
    script("what is installed", "tests.cli.test_installed", 15),
    script("the command as on Windows", "tests.cli.test_windows", 42),
    script("archives of three platforms", "tests.packaging.test_archives", 46),
    script("wheels, and what their names promise", "tests.packaging.test_wheels", 25),
    script("the header in dialects of C and C++", "tests.packaging.test_header", 44),
    script("targets: which code, exports, stack, tables and layouts",
           "tests.targets.test_targets", 43),
    script("calls in WebAssembly, through JavaScript", "tests.web.test_calls", 52),
    script("books in the web page's modules, against the package", "tests.web.test_books", 95),
    script("numbers and texts in the web page's modules", "tests.web.test_texts", 8),
    script("pages and comparisons of the web page", "tests.web.test_pages", 32),
    script("what the web page's pages are made of", "tests.web.test_page_parts", 14),
    script("the web page as a file", "tests.web.test_page_file", 360),
    script("the web page in Chromium", "tests.web.test_browser", 66),
    script("the web page in use: keyboard, width, print, speed", "tests.web.test_page_use", 64),
    script("formatters and linters", "tests.repository.test_style", 11),
    script("documents", "tests.repository.test_documents", 60),
]
PARTS = [PROOFS, *SOURCES, BUILDS, *PROGRAMS, CALLERS, *CALLS]
# The module that reads what the prover said of each edit; those whose inputs are drawn; and those
# that take longest: started first, none of them runs on alone at the end.
OF_EDITS = "tests.repository.test_must_fail_reasons"
DRAWN = ("tests.fuzz.", "tests.api.")
LONG = ("tests.fuzz.test_listing", "tests.bindings.test_callers", "tests.cli.", "tests.web.",
        "tests.packaging.", "tests.targets.", "tests.api.test_funds", "tests.api.test_base_calls")
# A command behind these words has a processor only where nothing else wants it. Linux may share the
# processors among groups of processes first: then the group's own priority counts.
WHEN_IDLE = ["sh", "-c",
             '{ echo 19 > /proc/self/autogroup; } 2> /dev/null; exec nice -n 19 "$@"', "sh"]


def module_of(part):
    """The path of a part that is one of our test modules; empty for any other."""
    return "".join(part.command[2:3])


def drawn(parts):
    """Those whose inputs are drawn at random."""
    return [part for part in parts if module_of(part).startswith(DRAWN)]


def long_first(parts):
    """These parts in the order in which they are started."""
    return sorted(parts, key=lambda part: not module_of(part).startswith(LONG))


def try_parts(parts, work, line):
    """Run parts, two at once; how many tests of each passed and failed, by its name."""
    def watch(written):
        work.read(each for lines in written.values() for each in lines)
        line.show(lambda: work.words([parts[number].name for number in written]))

    tallies = {}
    for number, code, text, seconds in run_beside([part.command for part in parts], MOST_SECONDS,
                                                  watch):
        part = parts[number]
        if part == PROOFS:
            CI_LOG.parent.mkdir(parents=True, exist_ok=True)
            CI_LOG.write_text(text, encoding="utf-8")
        tallies[part.name] = show_part(part, work, line, code, text, seconds)
    return tallies


def try_proofs(proofs, work, line):
    """The same for the proofs and, beside them, for what needs nothing of theirs."""
    idle = [part._replace(command=[*WHEN_IDLE, *part.command]) for part in SOURCES]
    state = state_of_all() if proofs == PROOFS else ""
    tallies = try_parts([proofs, *idle], work, line)
    # What was changed meanwhile may not be proved.
    if state and not tallies[proofs.name][1] and state_of_all() == state:
        OF_CI.parent.mkdir(parents=True, exist_ok=True)
        OF_CI.write_text(state, encoding="ascii")
    return tallies


def count_tests(part, code, lines):
    """How many tests of a part passed and failed, by its last line and its exit code."""
    last = lines[-1] if lines else ""
    tally, proved = TALLY.match(last), PROVED.match(last)
    passed, failed = map(int, tally.groups()) if tally else (0, 0)
    if proved:
        passed, failed = int(proved[1]), int(proved[2]) - int(proved[1])
    failed += sum(int(found[1]) for found in map(BAD_EDITS.match, lines) if found)
    # A part that ends badly, or with fewer tests than it has, has failed whatever it counted.
    if failed == 0 and (code != 0 or passed < part.least):
        lines.append(f"ended with {code}; {passed} tests, at least {part.least} are due")
        return passed, 1
    return passed, failed


def show_part(part, work, line, code, text, seconds):
    """Print the line of a part that has ended, and what it wrote where it failed; its tally."""
    lines = text.rstrip().splitlines()
    work.read(lines)
    work.ended[part.name] = seconds
    passed, failed = count_tests(part, code, lines)
    line.clear()
    if failed:
        print("\n".join(lines))
    else:
        print("".join(each + "\n" for each in lines if each.startswith(SHOWN)), end="")
    print(f"{'ok' if not failed else 'FAILED'} {part.name}: {passed} passed, {failed} failed"
          f" ({seconds:.0f} s)", flush=True)
    return passed, failed


def run_gate(proofs, programs, edits):
    """All parts; those that run on what was proved or built are left out where that fails."""
    later = [[BUILDS], [*programs, CALLERS], CALLS]
    names = [part.name for part in (proofs, *SOURCES, *sum(later, []))]
    work, line = Work(crates_listed(), edits, names), Line(sys.stdout)
    try:
        tallies = try_proofs(proofs, work, line)
        for needed, parts in zip((proofs, BUILDS, BUILDS), later):
            if not any(failed for name, (_, failed) in tallies.items()
                       if name in (proofs.name, needed.name)):
                tallies |= try_parts(long_first(parts), work, line)
    finally:
        line.clear()
    print("".join(each + "\n" for each in work.slowest()), end="")
    if not edits:
        print("no must-fail edit was tried, and what checks have kept here was not proved again:"
              " make test trusts only what it keeps itself, and tries every edit")
    passed, failed = (sum(counts) for counts in zip(*tallies.values()))
    print(f"{passed} passed, {failed} failed")
    return 1 if failed else 0


def run_one_by_one(parts):
    """Run parts by themselves up to the first that fails; its exit code."""
    for part in parts:
        code = subprocess.run(part.command, cwd=ROOT, check=False).returncode
        if code:
            return code
    return 0


def read_words():
    """What is to be run."""
    parser = argparse.ArgumentParser(description=__doc__)
    parser.add_argument("what", nargs="?", choices=("all", "quick", "callers", "fuzz"),
                        default="all", help="the gate (all), or what is said above")
    parser.add_argument("--number", default="2000", help="for fuzz: how many inputs are drawn")
    parser.add_argument("--seed", default="1", help="for fuzz: what they are drawn with")
    return parser.parse_args()


def main():
    """Run what is wanted; the exit code."""
    wanted = read_words()
    if wanted.what == "fuzz":
        os.environ |= {NUMBER: wanted.number, SEED: wanted.seed}
        return run_one_by_one(drawn([*PROGRAMS, *CALLS]))
    # Any other run draws as many inputs as each module says: with fewer, kinds could be missed.
    for name in (NUMBER, SEED):
        os.environ.pop(name, None)
    if wanted.what == "callers":
        return run_one_by_one([CALLERS, *drawn(CALLS)])
    print(checker_line(run(["rt", "version"], MOST_SECONDS)[1]), flush=True)
    if wanted.what == "quick":
        programs = [part for part in PROGRAMS if module_of(part) != OF_EDITS]
        return run_gate(QUICK_PROOFS, programs, ())
    return run_gate(PROOFS, PROGRAMS, edits_listed())


if __name__ == "__main__":
    try:
        sys.exit(main())
    except KeyboardInterrupt:
        print("interrupted: nothing is shown", file=sys.stderr)
        sys.exit(INTERRUPTED)
