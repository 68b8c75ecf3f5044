"""Compiles and links the captured module for each target, with the kit's clang and lld alone."""

import contextlib
import fcntl
import hashlib
import os
import tempfile
from pathlib import Path

from tools.targets import FOLDER, HEADER, BuildError
from tools.targets.adapters import adapters
from tools.targets.capture import captured, words_captured
from tools.targets.header import calls
from tools.targets.kit import home, run_tool
from tools.targets.retarget import ARM64, TARGETS, WASM32, WINDOWS, retarget, two_word_calls

C_FOLDER = Path(__file__).resolve().parent / "c"
SOURCES = (".py", ".c", ".h", ".s")
# Of clang's arguments these belong to the captured target.
OF_TARGET = ("--target=", "-march=", "--sysroot=", "-O", "-fPIC")
ASSEMBLED = ("--no-default-config", "-Werror", "-c")
COMPILED = (*ASSEMBLED, "-nostdinc", "-std=c11", "-Wall", "-Wextra", "-O2", "-ffreestanding",
            "-fno-builtin", "-DXAROPINTO_STATIC", f"-I{C_FOLDER / 'include'}",
            f"-I{HEADER.parent}")
# How each target is optimised, and what else is asked of code for it. Above -O1 the upper half of a
# product becomes one of 128 bits, which WebAssembly does not have. On Windows the tables of a
# function in a section of its own are in one of their own too, and the linker leaves them out. On
# arm64 `rattle` itself asks for the same, against a fault of clang.
OPTIMISED = {
    WASM32: ("-O1",),
    WINDOWS: ("-O3", "-march=x86-64", "-fno-function-sections", "-fasynchronous-unwind-tables"),
    ARM64: ("-O3", "-fPIC", "-march=armv8-a", "-mllvm", "-aarch64-load-store-renaming=false"),
}
STACK_BYTES = 256 * 1024
SONAME = "libxaropinto.so.2"
FILES = {
    WASM32: ("xaropinto.wasm",),
    WINDOWS: ("xaropinto.dll", "xaropinto.lib"),
    ARM64: (SONAME, "libxaropinto.a"),
}


def build(folder=FOLDER):
    """Build every target into its folder, unless it stands there; the paths of all files.

    Two builds at once wait for each other, and a file is replaced only by a whole one.
    """
    folder = Path(folder)
    FOLDER.mkdir(parents=True, exist_ok=True)
    paths = [folder / target.name / name for target in TARGETS for name in FILES[target]]
    with locked(FOLDER / "lock"):
        module = captured()
        stamp, state = folder / "built", state_of(module)
        if not (stamp.is_file() and stamp.read_text(encoding="ascii") == state
                and all(path.is_file() for path in paths)):
            stamp.unlink(missing_ok=True)
            for target in TARGETS:
                build_target(module, target, folder)
            stamp.write_text(state, encoding="ascii")
    return paths


def state_of(module):
    """What the files are made of, in one sum: module, kit, header, and what is in this folder."""
    paths = [home() / "KIT-ID", HEADER,
             *sorted(path for path in C_FOLDER.parent.rglob("*") if path.suffix in SOURCES)]
    parts = [module.encode("utf-8"), *(path.read_bytes() for path in paths)]
    return hashlib.sha256(b"".join(hashlib.sha256(part).digest() for part in parts)).hexdigest()


@contextlib.contextmanager
def locked(path):
    """Hold a lock until the end."""
    with open(path, "w", encoding="ascii") as held:
        fcntl.flock(held, fcntl.LOCK_EX)
        yield


def build_target(module, target, folder):
    """Build one target of a module into its folder; the paths of what is built."""
    names = [call.name for call in calls()]
    place = Path(folder) / target.name
    place.mkdir(parents=True, exist_ok=True)
    with tempfile.TemporaryDirectory(dir=place) as work:
        work = Path(work)
        (work / "module.ll").write_text(retarget(module, target, names), encoding="utf-8")
        run_tool("clang", *module_words(target), "module.ll", "-o", "proved.o", folder=work)
        if target.adapters:
            text = adapters(calls(), two_word_calls(module, names))
            (work / "adapters.c").write_text(text, encoding="utf-8")
            compile_c(target, "adapters.c", work)
        LINKED[target](work, names)
        for name in FILES[target]:
            os.replace(work / name, place / name)
    return [place / name for name in FILES[target]]


def module_words(target):
    """Clang's arguments as they were captured, for another target."""
    words = words_captured()
    source = words.index("module.bc")
    if words[source + 1:source + 3] != ["-o", "module.o"]:
        raise BuildError(f"clang was run in another way: {' '.join(words)}")
    kept = [word for word in words[:source] + words[source + 3:]
            if not word.startswith(OF_TARGET)]
    return [*kept, f"--target={target.triple}", *OPTIMISED[target]]


def compile_c(target, source, work):
    """Compile a file of C or assembler; the object has its name."""
    path = work / source
    words = (*COMPILED, *OPTIMISED[target][1:]) if path.suffix == ".c" else ASSEMBLED
    run_tool("clang", *words, f"--target={target.triple}", path, "-o", f"{path.stem}.o",
             folder=work)


def link_wasm(work, names):
    """The module for WebAssembly: a stack that runs out meets the end of the memory, and traps."""
    run_tool("wasm-ld", "-m", "wasm32", "--no-entry", "--stack-first", "-z",
             f"stack-size={STACK_BYTES}", "--export=__heap_base", "--strip-all",
             *(f"--export={name}" for name in names), "proved.o", "-o", "xaropinto.wasm",
             folder=work)


def link_windows(work, names):
    """The DLL and its import library; the time in both is a sum of what they hold."""
    for source in ("memory.c", "stack_probe.s"):
        compile_c(WINDOWS, C_FOLDER / source, work)
    run_tool("lld-link", "/dll", "/noentry", "/nodefaultlib", "/machine:x64", "/Brepro",
             "/out:xaropinto.dll", "/implib:xaropinto.lib", *(f"/export:{name}" for name in names),
             "adapters.o", "proved.o", "memory.o", "stack_probe.o", folder=work)


def link_arm64(work, names):
    """The archive, which takes the functions of memory from the caller's C library; and the shared
    library, which has its own, so that it needs no other."""
    compile_c(ARM64, C_FOLDER / "memory.c", work)
    run_tool("llvm-ar", "rcsD", "libxaropinto.a", "proved.o", "adapters.o", folder=work)
    exported = "".join(f"{name}; " for name in names)
    (work / "exported.ld").write_text(f"{{ global: {exported}local: *; }};\n", encoding="ascii")
    run_tool("ld.lld", "-m", "aarch64linux", "-shared", "-soname", SONAME, "--version-script",
             "exported.ld", "--no-undefined", "--build-id=none", "--strip-all", "-z", "noexecstack",
             "-z", "relro", "-z", "now", "proved.o", "adapters.o", "memory.o", "-o", SONAME,
             folder=work)


LINKED = {WASM32: link_wasm, WINDOWS: link_windows, ARM64: link_arm64}
