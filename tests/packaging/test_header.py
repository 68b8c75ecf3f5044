"""The header in the dialects of C and C++ that callers compile: on Windows as Microsoft's compiler
does, as far as clang in its place can say that."""

import re
import sys
import tempfile
from pathlib import Path

from tests import ROOT
from tests.support.case import Case
from tests.support.command import run
from tests.support.report import run_unit_tests
from tools.targets.kit import clang

MOST_SECONDS = 60
HEADER = ROOT / "include" / "xaropinto.h"
# Of a system that is not here these alone are needed.
SYSTEM = ROOT / "tools" / "targets" / "c" / "include"
STANDARDS = ("c99", "c11", "c17", "c++11", "c++17", "c++20")
STRICT = ("-pedantic", "-Wall", "-Wextra", "-Wconversion", "-Werror")
TARGETS = {
    "Windows, Microsoft": ("x86_64-pc-windows-msvc", "-fms-extensions", "-fms-compatibility"),
    "Windows, MinGW": ("x86_64-pc-windows-gnu",),
    "Linux on x86-64": ("x86_64-unknown-linux-gnu",),
    "Linux on arm64": ("aarch64-unknown-linux-gnu",),
}
CALL = re.compile(r"^XAROPINTO_API\n\w+ (xaropinto_\w+)\(", re.M)
CALLS = CALL.findall(HEADER.read_text(encoding="utf-8"))
# Takes the address of every call, and calls the one function that the header defines.
CALLER = "#include <xaropinto.h>\ntypedef void (*call)(void);\ncall all({number});\n" \
         "call all({number})\n{{\n    switch (which) {{\n{cases}    default:\n" \
         "        return xaropinto_refusal_text(0)[0] ? 0 : (call)xaropinto_version;\n    }}\n}}\n"
MICROSOFT = ("--driver-mode=cl", "--target=x86_64-pc-windows-msvc", "/nologo", "/X", "/W4", "/WX",
             "/c", f"/I{SYSTEM}", f"/I{HEADER.parent}")


class Header(Case):
    """A caller that uses all of the header is compiled; nothing of this machine's is included."""

    def setUp(self):
        held = tempfile.TemporaryDirectory()
        self.addCleanup(held.cleanup)
        self.folder = Path(held.name)
        cases = "".join(f"    case {at}:\n        return (call){name};\n"
                        for at, name in enumerate(CALLS))
        for ending in ("c", "cpp"):
            (self.folder / f"caller.{ending}").write_text(
                CALLER.format(number="int which", cases=cases), encoding="ascii")

    def compile(self, *words):
        """Compile by the kit's clang in the folder; the exit code and what was said."""
        return run([str(clang()), *map(str, words)], MOST_SECONDS, self.folder)

    def compile_gnu(self, target, standard, *words):
        """Compile by clang's own arguments; the exit code and what was said."""
        source = "caller.cpp" if "+" in standard else "caller.c"
        return self.compile("--no-default-config", f"--target={target[0]}", *target[1:],
                            f"-std={standard}", *STRICT, "-nostdinc", f"-I{SYSTEM}",
                            f"-I{HEADER.parent}", "-c", source, "-o", "caller.o", *words)

    def referred(self, name="caller.o"):
        """The calls that an object refers to: imported, and by their own names."""
        held = (self.folder / name).read_bytes()
        imported = {each.decode() for each in re.findall(rb"__imp_(xaropinto_\w+)", held)}
        own = {each.decode() for each in re.findall(rb"(?<![\w])(xaropinto_\w+)", held)}
        return imported, own & set(CALLS)

    def test_every_call_is_marked(self):
        text = re.sub(r"/\*(?s:.*?)\*/", "", HEADER.read_text(encoding="utf-8"))
        declared = re.findall(r"\b(xaropinto_\w+)\([^;{]*\);", text)
        self.assertEqual(CALLS, declared)
        self.assertEqual(len(CALLS), 17)

    def test_dialects(self):
        for name, target in TARGETS.items():
            for standard in STANDARDS:
                code, text = self.compile_gnu(target, standard)
                self.check(f"{name}, {standard}", code == 0, text)

    def test_microsoft_compiler(self):
        for words in (("/TC",), ("/TC", "/std:c11"), ("/TP", "/std:c++14"), ("/TP", "/std:c++17"),
                      ("/TP", "/std:c++20", "/permissive-"), ("/TC", "/Gd")):
            code, text = self.compile(*MICROSOFT, *words, "/Focaller.obj", "caller.c")
            self.check(f"cl {' '.join(words)}", code == 0, text)
            self.check(f"cl {' '.join(words)} imports",
                       self.referred("caller.obj") == (set(CALLS), set()))

    def test_imported_on_windows_alone(self):
        for name, target in TARGETS.items():
            code, text = self.compile_gnu(target, "c99")
            due = (set(CALLS), set()) if "Windows" in name else (set(), set(CALLS))
            self.check(name, code == 0 and self.referred() == due, text)

    def test_static(self):
        code, text = self.compile_gnu(TARGETS["Windows, Microsoft"], "c99", "-DXAROPINTO_STATIC")
        self.assertEqual((code, self.referred()), (0, (set(), set(CALLS))), text)

    def test_windows_of_32_bits_is_refused(self):
        code, text = self.compile_gnu(("i686-pc-windows-msvc",), "c99")
        self.assertNotEqual(code, 0)
        self.assertIn("xaropinto needs a 64-bit target", text)

    def test_vectorcall_does_not_find_the_calls(self):
        code, text = self.compile(*MICROSOFT, "/TC", "/Gv", "/Focaller.obj", "caller.c")
        self.assertEqual(code, 0, text)
        self.assertIn(b"__imp_xaropinto_check@@16", (self.folder / "caller.obj").read_bytes())


if __name__ == "__main__":
    sys.exit(run_unit_tests(sys.modules[__name__]))
