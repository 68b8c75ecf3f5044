"""The verdicts that random books must meet."""

# Acceptance and the refusals of a book: 1 to 13, and 23.
VERDICTS = (*range(14), 23)


def cover_verdicts(case, least_times):
    """A check for each verdict that it was seen so often; 0 is an acceptance."""
    times = case.tally.seen
    for number in VERDICTS:
        words = f"refusal {number}" if number else "accepted"
        case.check(f"{words} seen {times[number]} times", times[number] >= least_times,
                   f"at least {least_times} are due")
