"""Programs in C for another target: the caller of the C tests, and the process that answers calls.

They are compiled by the cross compilers of Debian's packages, as a user of the library would.
"""

import re
import shutil
import subprocess
import tempfile
from pathlib import Path

from tests import ROOT
from tests.support.command import run
from tests.support.debian import install
from tests.targets import bridged
from tools.targets.adapters import is_struct
from tools.targets.header import calls

CALLER = ROOT / "bindings" / "c" / "tests" / "caller.c"
SERVER = ROOT / "tests" / "platforms" / "call_server.c"
COMPILED = ["-std=c99", "-Wall", "-Wextra", "-Werror", "-O2", f"-I{ROOT / 'include'}"]
TALLY = re.compile(r"^(\d+) passed, 0 failed\r?$", re.M)
ANSWER = """static size_t answer(const char *name, const argument *passed, void *reply)
{{
{calls}    return 0;
}}
"""
ONE_CALL = """    if (strcmp(name, "{name}") == 0) {{
        {reply} given = {name}({arguments});
        memcpy(reply, &given, sizeof given);
        return sizeof given;
    }}
"""


def passed(kind, at):
    """An argument of the header's type, out of what came with the request."""
    if is_struct(kind):
        return f"*({kind} *)passed[{at}].bytes"
    if kind.endswith("*"):
        return f"({kind})passed[{at}].bytes"
    return f"passed[{at}].{'number' if kind == 'double' else 'word'}"


def answer():
    """The function in C that makes any call of the header."""
    return ANSWER.format(calls="".join(
        ONE_CALL.format(name=call.name, reply=call.reply, arguments=", ".join(
            passed(each.kind, at) for at, each in enumerate(call.arguments)))
        for call in calls()))


class NativeCase(bridged.BridgedCase):
    """A module names its packages, compiler and emulator, and what programs are linked with."""

    # By program that must be there: the packages that have it.
    packages, compiler, end, most_seconds = {}, "", "", 600

    @classmethod
    def setUpClass(cls):
        install(sorted({each for program, names in cls.packages.items()
                        if not shutil.which(program) for each in names}))
        missing = [program for program in cls.packages if not shutil.which(program)]
        if missing:
            raise AssertionError(f"missing: {', '.join(missing)}")
        super().setUpClass()

    def linked(self, library):
        """What a program is linked with: the files of a folder, and options."""
        raise NotImplementedError

    def started(self, program):
        """The command that runs a program for the target."""
        raise NotImplementedError

    def compile(self, source, linked, work):
        """Compile a program into the work folder and link it with these files; its path."""
        (work / "answer.inc").write_text(answer(), encoding="ascii")
        program = work / f"{source.stem}{self.end}"
        code, text = run([self.compiler, *COMPILED, f"-I{work}", "-o", str(program), str(source),
                          *linked], self.most_seconds)
        self.assertEqual((code, text), (0, ""))
        return program

    def command(self, library, work):
        return self.started(self.compile(SERVER, self.linked(library), work))

    def run_caller(self, words, linked):
        """The C tests, linked with these files: they end well, and none fails."""
        with tempfile.TemporaryDirectory() as work:
            program = self.compile(CALLER, linked, Path(work))
            ended = subprocess.run(
                self.started(program), env=self.surroundings(), cwd=work, text=True,
                timeout=self.most_seconds, stdin=subprocess.DEVNULL, capture_output=True,
                check=False)
        tally = TALLY.search(ended.stdout)
        self.check(f"the C tests with the {words} end well", ended.returncode == 0, ended.stderr)
        self.check(f"none of the C tests with the {words} fails", tally, ended.stdout[-2_000:])
        print(f"{self.target.name}: {tally[0] if tally else 'no tally'} in {CALLER.name}, {words}")
