"""Where the command starts. An older Python must be able to read this file, `__init__` and
`__main__`: they ask for nothing that only a later one has."""

import sys

OLDEST = (3, 10)
TROUBLE, INTERRUPTED = 2, 130


def start() -> int:
    """Run the command; what stops it before it runs is one line, and no refusal's exit code."""
    try:
        if sys.version_info[:2] < OLDEST:
            return stopped(
                "Python %d.%d or later is needed; this is %d.%d" % (OLDEST + sys.version_info[:2])
            )
        from xaropinto.cli.main import main

        return main()
    except KeyboardInterrupt:
        stopped("interrupted")
        return INTERRUPTED
    except Exception as error:
        return stopped("%s: %s" % (type(error).__name__, " ".join(str(error).split())))


def stopped(words: str) -> int:
    """One line on standard error."""
    if sys.stderr is not None:
        sys.stderr.write("xaropinto: %s\n" % words)
    return TROUBLE
