"""The promised distance of a figure from its exact value, in centimes, as the contracts of Group
and Totals have it."""

# For every accepted book; and for those with no curve rate below zero.
EACH_CELL, EACH_GROUP = 500, 2_850
EACH_CELL_ORDINARY, EACH_GROUP_ORDINARY = 250, 1_425
GROUPS = 5


def group_distance(n: int, ordinary: bool) -> int:
    """Of a product group's liability; n is the group's, `ordinary` says that no curve rate is below
    zero."""
    each_cell, rest = (
        (EACH_CELL_ORDINARY, EACH_GROUP_ORDINARY) if ordinary else (EACH_CELL, EACH_GROUP)
    )
    return each_cell * n + rest


def total_distance(n: int, ordinary: bool) -> int:
    """Of the five product groups together."""
    each_cell, rest = (
        (EACH_CELL_ORDINARY, EACH_GROUP_ORDINARY) if ordinary else (EACH_CELL, EACH_GROUP)
    )
    return each_cell * n + GROUPS * rest
