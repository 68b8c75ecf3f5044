"""Every must-fail edit was tried, and none was refused since a proof file names what is gone."""

import re
import sys

from tests import ROOT
from tests.support.case import Case
from tests.support.progress import CI_LOG, edits_listed
from tests.support.report import run_unit_tests

# What `rt ci` says of an edit: of which, and what it came to.
TRIED = re.compile(r"rt: must-fail (\w+/[\w.-]+)\.edit: (.*)")
REFUSED = "refused, as it must be"
# What the prover says where names or places of a proof file do not exist in the edited code. Where
# nothing else is wrong, `rt` says so itself.
UNFIT = ("only because a proof file names", "that can be named from here", "has no field",
         "has no `", "is not in scope")


class MustFailEdits(Case):
    """What `rt ci` said of each edit, in its last run or in the one that tried it."""

    said = dict(TRIED.findall(CI_LOG.read_text(encoding="utf-8"))) if CI_LOG.is_file() else {}

    def test_every_edit_was_tried(self):
        due = edits_listed()
        self.assertTrue(due)
        self.assertEqual(set(self.said), due)
        here = {path.relative_to(ROOT).as_posix() for path in ROOT.glob("crates/*/must-fail/**/*")}
        self.assertEqual({path for path in here if not path.endswith((".edit", ".md"))}, set())

    def test_none_was_refused_for_its_form_alone(self):
        unfit = [f"{edit}: {words[:120]}" for edit, words in sorted(self.said.items())
                 if not words.startswith(f"{REFUSED}: ") and not words.startswith(f"{REFUSED} (")
                 or any(form in words for form in UNFIT)]
        self.assertEqual(unfit, [])


if __name__ == "__main__":
    sys.exit(run_unit_tests(sys.modules[__name__]))
