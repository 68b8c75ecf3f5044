"""The reference valuation of the Swiss solvency test's long-term health liabilities.

The functions here answer with figures, or raise `RefusedError`. `xaropinto.calls` has the proved
calls as they are, with their raw replies. Verdicts, n, totals, differences, liabilities, years, in
force, cost rates, means and deviations, and the bytes of books, come from proved calls; the words
of a refusal, the promised distance of a figure, contracts by class and the means of a product group
are this package's own arithmetic, which is tested and not proved.
"""

from typing import TYPE_CHECKING, Any

from xaropinto.version import VERSION as __version__

if TYPE_CHECKING:
    from xaropinto import answers, calls
    from xaropinto.answers import (
        Cell,
        Deviation,
        FundTotals,
        Group,
        RefusedError,
        Spread,
        Totals,
        cell,
        check,
        convert,
        cost_rates,
        deviation,
        funds,
        group,
        listing,
        practice,
        read,
        record,
        report,
        spread,
        totals,
        write,
    )
    from xaropinto.book_values import BookValues, Chain

__all__ = [
    "BookValues",
    "Cell",
    "Chain",
    "Deviation",
    "FundTotals",
    "Group",
    "RefusedError",
    "Spread",
    "Totals",
    "__version__",
    "answers",
    "calls",
    "cell",
    "check",
    "convert",
    "cost_rates",
    "deviation",
    "funds",
    "group",
    "listing",
    "practice",
    "read",
    "record",
    "report",
    "spread",
    "totals",
    "write",
]


def __getattr__(name: str) -> Any:
    """Loaded when first used, so that the command starts at once and can say what stops the
    rest."""
    import importlib

    if name in ("answers", "calls"):
        return importlib.import_module("xaropinto." + name)
    if name not in __all__:
        raise AttributeError("module 'xaropinto' has no attribute %r" % name)
    home = "book_values" if name in ("BookValues", "Chain") else "answers"
    return getattr(importlib.import_module("xaropinto." + home), name)
