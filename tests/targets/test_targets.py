"""The proved code for WebAssembly, Windows and arm64: which code it is, and what the files have."""

import re
import sys
import tempfile
from pathlib import Path
from unittest import mock

from tests import ROOT
from tests.support.case import Case
from tests.support.command import run
from tests.support.report import run_unit_tests
from tests.targets import wasm_file, windows_file
from tests.targets.struct_assertions import failing, layouts
from tools.targets import FOLDER, capture
from tools.targets.build import build
from tools.targets.capture import ARCHIVE, MODULE, captured, words_captured
from tools.targets.header import calls
from tools.targets.kit import run_tool
from tools.targets.retarget import (ADDRESS, EXTENDED, PAIR_LINE, PARTS_LINES, TARGETS,
                                    retarget)

NAMES = [call.name for call in calls()]
# The only lines that may change: what names the target, and where a function begins.
MAY_CHANGE = re.compile(r"target (?:datalayout|triple) = |attributes #[01] = |define ")
# A pair whose second part is an address, loaded or stored as one.
LOADED_AS_ONE = re.compile(r" (?:load|store) \{ [^}]*, ptr")
EXTERNAL = re.compile(r"^define (?!internal).*@(\w+)\(", re.M)
# Of a function's first line these may change: the name of a call, what belongs to the convention,
# and whether it is inlined.
OF_CONVENTION = re.compile(r"hidden |x86_64_sysvcc | byval\(\[\d+ x i8\]\)|proved_| alwaysinline")
SHARED_NAME = re.compile(r"^SHARED := (\S+)$", re.M)
LINUX = "x86_64-unknown-linux-gnu"
MOST_SECONDS = 60
WASM, DLL, SHARED, STATIC = (FOLDER / name for name in (
    "wasm32/xaropinto.wasm", "windows-x86_64/xaropinto.dll", "linux-arm64/libxaropinto.so.2",
    "linux-arm64/libxaropinto.a"))


class Targets(Case):
    """All targets are built first."""

    @classmethod
    def setUpClass(cls):
        cls.built = build()
        cls.module = captured()

    def test_captured_module_compiles_to_the_archives_object(self):
        with tempfile.TemporaryDirectory() as folder:
            words = [str(MODULE) if word == "module.bc" else word for word in words_captured()]
            run_tool("clang", *words, folder=folder)
            [member] = run_tool("llvm-ar", "t", ARCHIVE).split()
            run_tool("llvm-ar", "x", ARCHIVE, folder=folder)
            compiled, due = ((Path(folder) / name).read_bytes() for name in ("module.o", member))
        self.check("it is an object", due.startswith(b"\x7fELF"))
        self.check("to the byte", compiled == due, f"{len(compiled)} bytes, due are {len(due)}")

    def test_archive_of_make_lib_is_the_proved_one_but_for_an_alignment(self):
        shown = []
        for path in (ARCHIVE, ROOT / "target" / "lib" / "libxaropinto.a"):
            code, text = run(["objdump", "-s", "-r", "-t", str(path)], MOST_SECONDS)
            self.assertEqual(code, 0, text)
            shown.append(text.replace(str(path), ""))
        self.check("bytes, symbols and relocations of every section", shown[0] == shown[1])
        self.check("they are shown", all(name in shown[1] for name in NAMES))

    def test_module_is_captured_once_from_an_archive(self):
        with tempfile.TemporaryDirectory() as folder, mock.patch.object(capture, "capture") as made:
            captured()
            self.check("not from the same again", not made.called)
            other, stamp = Path(folder) / "other.a", Path(folder) / "stamp"
            other.write_bytes(ARCHIVE.read_bytes() + b"\n")
            stamp.write_bytes(capture.STAMP.read_bytes())
            with mock.patch.multiple(capture, ARCHIVE=other, STAMP=stamp):
                captured()
                captured()
            self.check("from another once", made.call_count == 1, made.call_args_list)

    def test_module_exports_the_headers_calls(self):
        self.assertEqual(sorted(EXTERNAL.findall(self.module)), sorted(NAMES))

    def test_no_instruction_is_changed(self):
        before = self.module.splitlines()
        for target in TARGETS:
            text = retarget(self.module, target, NAMES)
            if target.narrow:
                self.check(f"{target.name}: addresses", ADDRESS not in text)
                self.check(f"{target.name}: pairs", not LOADED_AS_ONE.search(text))
                for pair in PAIR_LINE.finditer(self.module):
                    text = text.replace(pair.expand(PARTS_LINES), pair[0])
            after = text.splitlines()
            if target.narrow:
                after = [line.replace(EXTENDED, ADDRESS) if ADDRESS in other else line
                         for line, other in zip(after, before)]
            changed = [line for line, other in zip(before, after) if line != other]
            others = [line for line in changed if not MAY_CHANGE.match(line)]
            self.check(f"{target.name}: {len(changed)} of {len(before)} lines change",
                       len(after) == len(before) and changed and not others, others[:5])

    def test_functions_begin_alike_but_for_the_convention(self):
        first = [line for line in self.module.splitlines() if line.startswith("define ")]
        due = [OF_CONVENTION.sub("", line) for line in first]
        for target in TARGETS:
            after = retarget(self.module, target, NAMES).splitlines()
            given = [OF_CONVENTION.sub("", line) for line in after if line.startswith("define ")]
            self.check(f"{target.name}: {len(given)} functions", given == due)

    def test_files_of_each_target(self):
        due = {WASM, DLL, DLL.with_suffix(".lib"), SHARED, STATIC}
        self.assertEqual(set(self.built), due)
        self.assertTrue(all(path.stat().st_size for path in due))

    def test_two_builds_have_the_same_bytes(self):
        with tempfile.TemporaryDirectory() as folder:
            paths = build(folder)
            for path in paths:
                due = FOLDER / path.relative_to(folder)
                self.check(due.name, path.read_bytes() == due.read_bytes())
            paths[-1].unlink()
            build(folder)
            self.check("a file that is missing is built again", paths[-1].is_file())

    def test_shared_library_has_the_name_of_make_lib(self):
        [due] = SHARED_NAME.findall((ROOT / "Makefile").read_text(encoding="utf-8"))
        printed = run_tool("llvm-readobj", "--dynamic-table", SHARED)
        self.assertIn(f"SONAME   Library soname: [{due}]", printed)

    def test_exported_are_the_headers_calls(self):
        module = WASM.read_bytes()
        for words, given, due in (
                ("WebAssembly, with memory and where it is free", wasm_file.exports(module),
                 {"memory": "memory", "__heap_base": "global", **dict.fromkeys(NAMES, "function")}),
                ("Windows", windows_file.exports(DLL), set(NAMES)),
                ("arm64", symbols(SHARED, "--dynamic", "--defined-only"), set(NAMES)),
                ("arm64, the archive", {name for name in symbols(STATIC, "--defined-only")
                                        if not name.startswith("proved_")}, set(NAMES))):
            self.check(words, given == due, given)

    def test_imported_is_nothing(self):
        self.check("WebAssembly", not wasm_file.has_imports(WASM.read_bytes()))
        self.check("Windows", not windows_file.has_imports(DLL))
        needed = run_tool("llvm-readobj", "--needed-libs", SHARED)
        self.check("arm64", re.search(r"NeededLibraries \[\n\]", needed), needed)
        missing = symbols(SHARED, "--dynamic", "--undefined-only")
        self.check("arm64: every function is there", not missing, missing)
        missing = symbols(STATIC, "--undefined-only") - symbols(STATIC, "--defined-only")
        self.check("arm64, the archive, but the C library's functions of memory",
                   missing <= {"memcpy", "memmove", "memset"}, missing)

    def test_nothing_below_the_stack_pointer_on_windows(self):
        found = windows_file.instructions(DLL)
        used = windows_file.below_stack(found)
        self.check(f"{len(found)} instructions", found and not used, used[:5])
        noticed = windows_file.below_stack(windows_file.instructions(ARCHIVE))
        self.check("where it is used, as on Linux, it is noticed", noticed)

    def test_unwind_tables_on_windows(self):
        found, tables = windows_file.instructions(DLL), windows_file.unwind_tables(DLL)
        missing = windows_file.without_table(found, tables)
        self.check(f"{len(tables)} tables", tables and not missing, missing[:5])
        unnoticed = [table for table in tables if not windows_file.without_table(
            found, [each for each in tables if each != table])]
        self.check("a table that is missing is noticed", not unnoticed, unnoticed)

    def test_structs_have_the_same_layout(self):
        places = layouts()
        others = {field: place + 1 for field, place in places.items()}
        with tempfile.TemporaryDirectory() as folder:
            for triple in (LINUX, *(target.triple for target in TARGETS)):
                wrong = failing(places, triple, Path(folder))
                self.check(f"{len(places)} sizes and places for {triple}", not wrong, wrong)
                noticed = failing(others, triple, Path(folder))
                self.check(f"any other for {triple} is noticed", noticed == set(others))


def symbols(path, *options):
    """The names of external symbols of an ELF file or archive."""
    printed = run_tool("llvm-nm", "--extern-only", "--just-symbol-name", *options, path)
    return {line for line in printed.splitlines() if line and not line.endswith(":")}


if __name__ == "__main__":
    sys.exit(run_unit_tests(sys.modules[__name__]))
