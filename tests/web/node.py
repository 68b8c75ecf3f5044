"""Functions of the web page's modules, called in one process of node."""

import base64
import json
import math
import os
import shutil
import subprocess
from collections import deque

from tests import ROOT
from tests.support.debian import install
from tools.targets.build import build

SERVER = ROOT / "tests" / "web" / "node_server.mjs"
# A path of the compiled module that is set here is taken in place of the one that is built.
VARIABLE = "XAROPINTO_WASM"
# Numbers of JavaScript are whole up to here.
EXACT = 2**53
# Requests that are sent before the first reply is read: fewer than fill both pipes.
MOST_WAITING_BYTES = 32_768


class NodeError(Exception):
    """What a function threw: its name, its message and its fields."""

    def __init__(self, held):
        super().__init__(f"{held['name']}: {held['message']}")
        self.name, self.message, self.fields = held["name"], held["message"], held


def request(function, *arguments):
    """A call as a request has it; as an argument of another it is what it gives."""
    return {"function": function, "arguments": sent(arguments)}


def sent(held):
    """A value as a request has it."""
    if isinstance(held, (bytes, bytearray)):
        return {"base64": base64.b64encode(held).decode()}
    if isinstance(held, dict):
        return {name: sent(each) for name, each in held.items()}
    if isinstance(held, (list, tuple)):
        return [sent(each) for each in held]
    if isinstance(held, int) and not isinstance(held, bool) and abs(held) > EXACT:
        return {"bigint": str(held)}
    if isinstance(held, float) and not math.isfinite(held):
        return {"double": "NaN" if math.isnan(held) else f"{'-' * (held < 0)}Infinity"}
    return held


def received(held):
    """A value of a reply; a whole number is one, however it was held."""
    if isinstance(held, list):
        return [received(each) for each in held]
    if not isinstance(held, dict):
        return held
    if set(held) == {"base64"}:
        return base64.b64decode(held["base64"])
    if set(held) == {"bigint"}:
        return int(held["bigint"])
    if set(held) == {"double"}:
        return float(held["double"])
    return {name: received(each) for name, each in held.items()}


def node_path():
    """The program; Debian's package has it."""
    if not shutil.which("node"):
        install(["nodejs"])
    found = shutil.which("node")
    if not found:
        raise FileNotFoundError("node is not installed: Debian's package nodejs has it")
    return found


def module_path():
    """The proved calls in WebAssembly, built where the environment names no others."""
    return os.environ.get(VARIABLE) or next(path for path in build() if path.suffix == ".wasm")


class Node:
    """The process, until it is closed."""

    def __init__(self):
        self.process = subprocess.Popen([node_path(), str(SERVER), str(module_path())],
                                        stdin=subprocess.PIPE, stdout=subprocess.PIPE)

    def __enter__(self):
        return self

    def __exit__(self, *_):
        self.close()

    def close(self):
        """End the process."""
        self.process.stdin.close()
        self.process.stdout.close()
        self.process.wait()

    def call(self, function, *arguments):
        """The value of `module.function`; `NodeError` for what it throws."""
        return self.calls([(function, *arguments)])[0]

    def calls(self, requests):
        """The values of many requests, each a function and its arguments, in their order."""
        return [self.value_of(reply) for reply in self.replies(requests)]

    def value_of(self, reply):
        """What a reply holds."""
        if "error" in reply:
            raise NodeError(received(reply["error"]))
        return received(reply["value"])

    def outcome(self, reply):
        """What a reply holds, or the error itself."""
        return NodeError(received(reply["error"])) if "error" in reply else received(reply["value"])

    def outcomes(self, requests):
        """The values of many requests, or the errors that they end with."""
        return [self.outcome(reply) for reply in self.replies(requests)]

    def replies(self, requests):
        """The replies as they are, while a few requests are under way."""
        waiting = deque()
        for function, *arguments in requests:
            line = json.dumps(request(function, *arguments)).encode()
            while waiting and sum(waiting) + len(line) > MOST_WAITING_BYTES:
                yield self.read_reply(waiting)
            self.process.stdin.write(line + b"\n")
            self.process.stdin.flush()
            waiting.append(len(line))
        while waiting:
            yield self.read_reply(waiting)

    def read_reply(self, waiting):
        """The next one."""
        waiting.popleft()
        line = self.process.stdout.readline()
        if not line:
            raise EOFError(f"node ended with {self.process.wait()}")
        return json.loads(line)
