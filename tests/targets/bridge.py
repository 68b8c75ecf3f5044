"""The test suites of the calls, with their calls answered by another process.

That process has the library of another target: node with the WebAssembly module, an emulator with
a program that is linked with it. Each call goes to it with copies of all that is passed, and what
it wrote comes back into the buffers that were passed.

A request is its length, then: the length of the call's name, the bytes of its reply, how many
arguments there are, the name, and the arguments. An argument is a letter and what it has: a word
(W) or a double (D); a struct (S), or a buffer of bytes (B), of numbers (Q) or of signed numbers
(q), with its length in bytes first. The answer is the reply, then the buffers in their order.
"""

import contextlib
import ctypes
import importlib
import io
import os
import struct
import subprocess
import sys
import unittest
from typing import NamedTuple
from unittest import mock

from tests import ROOT
from tests.support.differential import Differential
from tests.support.report import NUMBER, Counted

sys.path.insert(0, str(ROOT / "python"))
from xaropinto import calls  # noqa: E402

SUITES = sorted(f"tests.api.{path.stem}" for path in (ROOT / "tests" / "api").glob("test_*.py"))
ELEMENTS = {ctypes.c_uint8: b"B", ctypes.c_uint64: b"Q", ctypes.c_int64: b"q"}
MOST_SECONDS = 60


class Outcome(NamedTuple):
    """What a suite counted, what it printed, and how many calls it made."""

    passed: int
    failed: int
    text: str
    calls: int


class OtherSide:
    """A process that answers calls; its standard streams carry them."""

    def __init__(self, command, env=None):
        self.count = 0
        self.process = subprocess.Popen(command, stdin=subprocess.PIPE, stdout=subprocess.PIPE,
                                        stderr=subprocess.PIPE, cwd=ROOT, env=env)

    def __enter__(self):
        return self

    def __exit__(self, *_):
        # What was not taken is still in the pipe where the process has ended.
        with contextlib.suppress(BrokenPipeError):
            self.process.stdin.close()
        try:
            self.process.wait(MOST_SECONDS)
        except subprocess.TimeoutExpired:
            self.process.kill()
            self.process.wait()
        self.process.stdout.close()
        self.process.stderr.close()

    def call(self, declared, *arguments):
        """One call, as `calls._Call.__call__` makes it."""
        self.count += 1
        size = ctypes.sizeof(declared.reply)
        name = declared.name.encode("ascii")
        request = b"".join((struct.pack("<BIB", len(name), size, len(arguments)), name,
                            *map(packed, arguments)))
        try:
            self.process.stdin.write(struct.pack("<I", len(request)) + request)
            self.process.stdin.flush()
        except BrokenPipeError as error:
            raise self.ended() from error
        reply = declared.reply.from_buffer_copy(self.take(size))
        for buffer in arguments:
            self.take_back(buffer)
        return reply if isinstance(reply, ctypes.Structure) else reply.value

    def take_back(self, buffer):
        """What a buffer holds after the call; bytes that cannot change must not have changed."""
        if isinstance(buffer, ctypes.Array):
            size = ctypes.sizeof(buffer)
            ctypes.memmove(buffer, self.take(size), size)
        elif isinstance(buffer, bytes) and self.take(len(buffer)) != buffer:
            raise AssertionError("a call changed a book")

    def take(self, size):
        """So many bytes of the answer."""
        held = self.process.stdout.read(size)
        if len(held) != size:
            raise self.ended()
        return held

    def ended(self):
        """The error of a process that has ended."""
        self.process.kill()
        words = self.process.stderr.read().decode("utf-8", "replace")
        return AssertionError(f"the other side ended with {self.process.wait()}: {words}")


def packed(argument):
    """An argument of a request."""
    if isinstance(argument, bytes):
        return b"B" + struct.pack("<I", len(argument)) + argument
    if isinstance(argument, ctypes.Array):
        return (ELEMENTS[argument._type_] + struct.pack("<I", ctypes.sizeof(argument))
                + bytes(memoryview(argument).cast("B") if len(argument) else b""))
    if isinstance(argument, ctypes.Structure):
        return b"S" + struct.pack("<I", ctypes.sizeof(argument)) + bytes(argument)
    if isinstance(argument, float):
        return b"D" + struct.pack("<d", argument)
    return b"W" + struct.pack("<Q", argument)


@contextlib.contextmanager
def answered_by(side):
    """The calls of the Python package, answered by another side until the end."""
    def bridged(declared, *arguments):
        return side.call(declared, *arguments)

    with mock.patch.object(calls._Call, "__call__", bridged):
        yield


@contextlib.contextmanager
def random_inputs(module, number):
    """Let the classes of a module draw so many inputs, or as many as they do by themselves."""
    classes = [each for each in vars(module).values()
               if isinstance(each, type) and issubclass(each, Differential)]
    # A class keeps the number that it was once told.
    held = {each: each.number for each in classes}
    try:
        with mock.patch.dict(os.environ, {NUMBER: str(number or "")}):
            yield
    finally:
        for each in classes:
            each.number = held[each]


def run_suite(name, side, number=None):
    """Run a suite with so many random inputs, or as many as it has by itself; its outcome."""
    module = importlib.import_module(name)
    suite = unittest.defaultTestLoader.loadTestsFromModule(module)
    text, before = io.StringIO(), side.count
    with (random_inputs(module, number), answered_by(side), contextlib.redirect_stdout(text)):
        runner = unittest.TextTestRunner(stream=text, verbosity=0, resultclass=Counted)
        result = runner.run(suite)
        failed = result.failed()
    return Outcome(result.passed, failed, text.getvalue(), side.count - before)
