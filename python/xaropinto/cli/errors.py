"""How the command ends: its exit codes, and the errors that end it."""

DONE, REFUSED, TROUBLE, INTERRUPTED, TERMINATED = 0, 1, 2, 130, 143


class CommandError(Exception):
    """Wrong use, or a file that cannot be read or written: what is wrong, in words."""


class StoppedError(BaseException):
    """A signal asked the run to end; like an interrupt it passes handlers of ordinary errors."""

    def __init__(self, code: int):
        super().__init__(code)
        self.code = code


def reason_of(error: Exception) -> str:
    """What the system says of a failed read or write."""
    return getattr(error, "strerror", None) or str(error)
