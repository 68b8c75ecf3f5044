"""Commands run to their end within a time, one or two at once."""

import os
import signal
import subprocess
import tempfile
import time

from tests import ROOT

NOT_STARTED, NOT_ENDED = 127, 124
# Between asking a command to end and ending it.
GRACE_SECONDS = 2
# As many as the smallest machine that we run on has processors.
AT_ONCE = 2
# Between two polls of those that run.
POLL_SECONDS = 0.05
# What is read at a poll of what one has written.
MOST_BYTES_A_POLL = 1 << 20


def run(command, most_seconds, folder=ROOT):
    """The exit code of a command and what it wrote, errors included.

    One that cannot be started, or takes longer, has an exit code too. Nothing that it started goes
    on after it took too long, or after whoever waits for it was interrupted.
    """
    try:
        started = subprocess.Popen(command, cwd=folder, stdin=subprocess.DEVNULL,
                                   stdout=subprocess.PIPE, stderr=subprocess.STDOUT,
                                   start_new_session=True)
    except OSError as trouble:
        return NOT_STARTED, str(trouble)
    try:
        written, _ = started.communicate(timeout=most_seconds)
    except subprocess.TimeoutExpired as trouble:
        end_group(started)
        written = text_of(trouble.output or b"")
        return NOT_ENDED, f"{written}\n{command[0]} did not end in {most_seconds} seconds"
    except BaseException:
        end_group(started)
        raise
    return started.returncode, text_of(written)


class Beside:
    """A command that runs beside others: what it writes goes to a temporary file."""

    def __init__(self, command, most_seconds):
        self.began = time.monotonic()
        self.most_seconds = most_seconds
        self.written = tempfile.TemporaryFile()
        self.lines_end = 0
        try:
            self.started = subprocess.Popen(
                command, cwd=ROOT, stdin=subprocess.DEVNULL, stdout=self.written,
                stderr=subprocess.STDOUT, start_new_session=True)
        except OSError as trouble:
            self.started = None
            self.written.write(str(trouble).encode())

    def ended(self):
        """Whether it has ended: by itself, because it took too long, or before it was started."""
        if self.started is None:
            return True
        if self.started.poll() is None and self.seconds() > self.most_seconds:
            end_group(self.started)
            self.written.write(f"\nit did not end in {self.most_seconds} seconds".encode())
        return self.started.returncode is not None

    def seconds(self):
        """How long it has run."""
        return time.monotonic() - self.began

    def new_lines(self):
        """The whole lines that it has written since this was last asked.

        The command and we share one place in the file: it is read without moving that.
        """
        fresh = os.pread(self.written.fileno(), MOST_BYTES_A_POLL, self.lines_end)
        whole = fresh.rfind(b"\n") + 1
        if not whole and len(fresh) == MOST_BYTES_A_POLL:
            whole = len(fresh)
        self.lines_end += whole
        return text_of(fresh[:whole]).splitlines()

    def result(self):
        """Its exit code, what it wrote and how long it took, once it has ended."""
        seconds = self.seconds()
        self.written.seek(0)
        code = self.started.returncode if self.started else NOT_STARTED
        with self.written:
            return code, text_of(self.written.read()), seconds

    def end(self):
        """End it and all that it started."""
        if self.started:
            end_group(self.started)


def run_beside(commands, most_seconds, watch=lambda lines: None):
    """Run commands, two at once: number, exit code, output and seconds of each, as each ends.

    `watch` is given, many times a second, the new lines of those that run, by their numbers.
    Nothing that was started goes on where whoever waits is interrupted.
    """
    waiting, running = list(enumerate(commands)), {}
    try:
        while waiting or running:
            while waiting and len(running) < AT_ONCE:
                number, command = waiting.pop(0)
                running[number] = Beside(command, most_seconds)
            watch({number: each.new_lines() for number, each in running.items()})
            for number in [number for number, each in running.items() if each.ended()]:
                yield number, *running.pop(number).result()
            time.sleep(POLL_SECONDS)
    finally:
        for each in running.values():
            each.end()


def end_group(started):
    """End a command and all that it started: first asked, then made to."""
    for each in (signal.SIGTERM, signal.SIGKILL):
        try:
            os.killpg(started.pid, each)
            started.wait(GRACE_SECONDS)
        except (ProcessLookupError, subprocess.TimeoutExpired):
            pass


def text_of(written):
    """What a command wrote, as text."""
    return written.decode("utf-8", "replace")
