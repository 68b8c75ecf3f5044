"""The raw calls of the Python package over the shared library, for the tests of the calls."""

import sys

from tests import ROOT
from tests.support.case import Case


class LibraryCase(Case):
    """Tests of the calls; they fail where `make lib` has not built the shared library."""

    @classmethod
    def setUpClass(cls):
        sys.path.insert(0, str(ROOT / "python"))
        from xaropinto import calls

        calls.check(b"")
        cls.library = calls
        super().setUpClass()
