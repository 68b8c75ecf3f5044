"""The files that the command reads and writes. An output appears whole or not at all, and is never
an input."""

import contextlib
import glob
import os
import shutil
import signal
import stat
import sys
import time
from pathlib import Path
from types import FrameType
from typing import Callable, Iterable, Iterator, Mapping, Optional, Sequence

from xaropinto.cli.errors import CommandError, reason_of
from xaropinto.cli.streams import put_bytes

STANDARD = "-"
# No book is a thousandth as long; a file beyond it is not read at all.
MOST_BYTES = 64 * 1024 * 1024
# The signals that a person or a system ends a run with, as far as the system has them: only Windows
# has SIGBREAK (Ctrl-Break, or the console is closed), and it has no SIGHUP.
ENDING = tuple(
    getattr(signal, name)
    for name in ("SIGINT", "SIGTERM", "SIGHUP", "SIGBREAK")
    if hasattr(signal, name)
)
# Windows neither lets a file that is open be replaced nor lists files by pattern before a command
# starts.
ON_WINDOWS = os.name == "nt"
# Seconds between attempts to rename there: a virus scanner has each new file open for a moment.
PAUSES = (0.05, 0.1, 0.2, 0.4)

# Of one run: which files it reads, by device and inode, and the paths that it has written.
_inputs: set[tuple[int, int]] = set()
_written: list[str] = []


def note_inputs(paths: Iterable[str]) -> None:
    """Begin a run that reads these: no output may be one of them, by whatever name, nor a file in
    such a folder."""
    _inputs.clear()
    _written.clear()
    for path in paths:
        try:
            folder = [entry.path for entry in os.scandir(path)] if os.path.isdir(path) else []
        except OSError:
            folder = []
        for each in (path, *folder):
            if identity := identity_of(each):
                _inputs.add(identity)


def identity_of(path: str) -> tuple[int, int] | None:
    """Which plain file or folder a path leads to; `-` is what standard input is read from."""
    try:
        found = os.fstat(0) if path == STANDARD else os.stat(path)
    except (OSError, ValueError):
        return None
    plain = stat.S_ISREG(found.st_mode) or stat.S_ISDIR(found.st_mode)
    return (found.st_dev, found.st_ino) if plain else None


def need_no_input(path: str) -> None:
    """Stop where an output is what is read."""
    if path != STANDARD and identity_of(path) in _inputs:
        raise CommandError(f"{path}: this is an input; it is left as it was")


def listed_files(words: Sequence[str]) -> list[str]:
    """The files that words name. On Windows, where no name has * or ?, a pattern names all that it
    fits, in order; one that fits none is left, so that it is reported as a name."""
    if not ON_WINDOWS:
        return list(words)
    paths: list[str] = []
    for word in words:
        found = sorted(glob.glob(word)) if "*" in word or "?" in word else []
        paths += found or [word]
    return paths


def take_written() -> list[str]:
    """The paths written since this was last asked."""
    taken = list(_written)
    _written.clear()
    return taken


def read_file(path: str) -> bytes:
    """The bytes of a file; `-` is standard input."""
    try:
        if path != STANDARD:
            with open(path, "rb") as file:
                held = file.read(MOST_BYTES + 1)
        elif sys.stdin is None:
            raise CommandError("standard input is closed")
        else:
            held = sys.stdin.buffer.read(MOST_BYTES + 1)
    except OSError as error:
        raise CommandError(f"{path}: {reason_of(error)}") from error
    except ValueError as error:
        # A name with a zero byte.
        raise CommandError(f"{path!r}: {error}") from error
    if len(held) > MOST_BYTES:
        raise CommandError(f"{path}: longer than {MOST_BYTES:,} bytes; no book is")
    return held


def write_file(path: str, held: bytes) -> None:
    """Write a new file beside and rename it: no half of a file is ever seen under the name."""
    if path == STANDARD:
        put_bytes(held)
        return
    need_no_input(path)
    target = Path(path)
    try:
        if target.exists() and not target.is_file():
            # A device cannot be renamed over.
            target.write_bytes(held)
        else:
            replace_file(target, held)
    except (OSError, ValueError) as error:
        raise not_written(path, error) from error
    _written.append(path)


def not_written(path: str, error: Exception) -> CommandError:
    """What is said of a file or folder that cannot be written. The reason that Windows gives does
    not name the usual one: a spreadsheet program that has the old one open."""
    words = f"{path}: {reason_of(error)}"
    if ON_WINDOWS and isinstance(error, PermissionError) and os.path.exists(path):
        words += "; it is left as it was: is it open in another program?"
    return CommandError(words)


def beside(target: Path, kind: str) -> Path:
    """A name in the same folder that nobody else has: known before anything stands under it."""
    return target.parent / f".{target.name[:100]}.{os.urandom(8).hex()}.{kind}"


def replace_file(target: Path, held: bytes) -> None:
    """Whatever ends this, no file but the target is left."""
    part = beside(target, "part")
    try:
        put_new(part, held)
        patiently(os.replace, part, target)
    finally:
        part.unlink(missing_ok=True)


def patiently(rename: Callable[[Path, Path], None], old: Path, new: Path) -> None:
    """Rename; on Windows again after each pause, while the system does not allow it."""
    for pause in PAUSES if ON_WINDOWS else ():
        try:
            return rename(old, new)
        except PermissionError:
            time.sleep(pause)
    return rename(old, new)


def put_new(path: Path, held: bytes) -> None:
    """A new file that is on the disk when this returns."""
    with open(path, "xb") as file:
        file.write(held)
        file.flush()
        os.fsync(file.fileno())


def write_folder(path: str, files: Mapping[str, bytes], replace: bool = False) -> None:
    """Write a folder of files beside and rename it: all of them or none.

    A folder that holds anything is left as it was; with `replace` one that holds nothing but files
    of these names gives way to the new one as a whole.
    """
    target = Path(os.path.realpath(path))
    part = beside(target, "part")
    try:
        need_free(path, target, files, replace)
        os.mkdir(part)
        for name, held in files.items():
            put_new(part / name, held)
        swap_in(part, target)
    except (OSError, ValueError) as error:
        raise not_written(path, error) from error
    finally:
        shutil.rmtree(part, ignore_errors=True)
    _written.append(path)


def need_free(path: str, target: Path, files: Mapping[str, bytes], replace: bool) -> None:
    """Stop where the folder holds what would be lost."""
    if path == STANDARD:
        raise CommandError("a folder cannot be written to standard output")
    held = sorted(os.listdir(target)) if target.exists() else []
    for name in held:
        need_no_input(str(target / name))
        if name not in files:
            raise CommandError(f"{path}: the folder holds {name}; it is left as it was")
    if held and not replace:
        raise CommandError(
            f"{path}: the folder holds {held[0]}; --replace writes all its files anew"
        )


def swap_in(part: Path, target: Path) -> None:
    """Put a folder in another's place; an interrupt waits until both renames are done."""
    old = beside(target, "old")
    with signals_held():
        if target.exists():
            patiently(os.rename, target, old)
        try:
            patiently(os.rename, part, target)
        except OSError:
            if old.exists():
                patiently(os.rename, old, target)
            raise
        shutil.rmtree(old, ignore_errors=True)


@contextlib.contextmanager
def signals_held() -> Iterator[None]:
    """The first signal that comes meanwhile takes effect when this is over. Windows cannot block
    signals, so a handler keeps them here."""
    came: list[int] = []

    def keep(number: int, _: Optional[FrameType]) -> None:
        came.append(number)

    before = {each: signal.signal(each, keep) for each in ENDING}
    try:
        yield
    finally:
        for each, handler in before.items():
            signal.signal(each, handler or signal.SIG_DFL)
        for number in came[:1]:
            signal.raise_signal(number)
