"""The one list of what goes where, for each platform; archives, wheels and `make install` are made
from it."""

import hashlib
import sys
from typing import Callable, NamedTuple, Optional

from tools.dist import identity
from tools.dist.identity import ROOT, VERSION
from tools.targets.capture import STAMP

sys.path.insert(0, str(ROOT / "python"))

from xaropinto.library import BUILDS  # noqa: E402


class MissingError(Exception):
    """Something that is packed was not built, or of another archive; the words say what makes
    it."""


class Platform(NamedTuple):
    """A system and a processor: its name in files, in words and for Python; the platform that a
    wheel's name gives."""

    name: str
    words: str
    python: str
    wheel: str

    @property
    def library(self):
        """The shared library, below target/."""
        return f"target/{BUILDS[self.python].built}"

    @property
    def archive(self):
        """The folder that an archive holds; its name without the ending."""
        return f"xaropinto-{VERSION}-{self.name}"


# The wheels promise the oldest glibc for which pip takes a wheel on arm64, on both processors; the
# libraries ask for no more, which is tested whenever they are packed.
X86_64 = Platform("linux-x86_64", "Linux on x86-64", "linux-x86_64", "manylinux_2_17_x86_64")
ARM64 = Platform("linux-arm64", "Linux on arm64", "linux-aarch64", "manylinux_2_17_aarch64")
WINDOWS = Platform("windows-x86_64", "Windows on x86-64", "win-amd64", "win_amd64")
PLATFORMS = (X86_64, ARM64, WINDOWS)
LINUX = (X86_64, ARM64)
# What makes a file below a folder, for whoever lacks it.
MAKERS = {"target/lib/": "make lib", "target/bin/": "make dist", "target/web/": "make web",
          "target/targets/": "python3 -m tools.targets build"}


class File(NamedTuple):
    """A file of an archive; a link has the name that it leads to, beside it."""

    held: bytes
    runs: bool = False
    link: Optional[str] = None


class Row(NamedTuple):
    """A place in the archive, or with / at its end a folder; what is put there, by a pattern from
    the root; how it is changed."""

    to: str
    source: str
    on: tuple = PLATFORMS
    runs: bool = False
    change: Callable = lambda held, platform: held


def filled(held, platform):
    """A text with the facts of the build in it."""
    facts = {"VERSION": VERSION, "PLATFORM": platform.words, "COMMIT": identity.commit(),
             "CHECKER": identity.checker()}
    text = held.decode("utf-8")
    for name, words in facts.items():
        text = text.replace(f"@{name}@", words)
    return text.encode("utf-8")


def with_carriage_returns(held, _):
    """Lines as the command processor of Windows has them."""
    return held.replace(b"\n", b"\r\n")


def crate_alone(held, _):
    """The crate's own settings: what only tests and times it stays in the repository."""
    kept, lines = False, []
    for line in held.decode("utf-8").splitlines(keepends=True):
        if line.startswith("["):
            kept = not line.startswith(("[workspace]", "[dev-dependencies]", "[profile.test]"))
        if kept:
            lines.append(line)
    return "".join(lines).encode("utf-8")


SHARE = "share/xaropinto/python"
CMAKE = "lib/cmake/xaropinto"
PROGRAMS = [
    Row("bin/xaropinto-listing", "target/bin/listing_main", (X86_64,), runs=True),
    Row("bin/xaropinto-report", "target/bin/year_report_main", (X86_64,), runs=True),
    Row("bin/xaropinto-convert", "target/bin/age_basis_main", (X86_64,), runs=True),
]
# What `make install` installs too.
INSTALLED = [
    *PROGRAMS,
    Row("bin/xaropinto", "packaging/xaropinto", runs=True),
    Row("bin/xaropinto.cmd", "packaging/xaropinto.cmd", (WINDOWS,), change=with_carriage_returns),
    Row("include/xaropinto.h", "include/xaropinto.h"),
    Row("lib/libxaropinto.a", "target/lib/libxaropinto.a", (X86_64,)),
    Row("lib/libxaropinto.so.2", "target/lib/libxaropinto.so.2", (X86_64,), runs=True),
    Row("lib/libxaropinto.a", "target/targets/linux-arm64/libxaropinto.a", (ARM64,)),
    Row("lib/libxaropinto.so.2", "target/targets/linux-arm64/libxaropinto.so.2", (ARM64,),
        runs=True),
    Row("bin/xaropinto.dll", "target/targets/windows-x86_64/xaropinto.dll", (WINDOWS,)),
    Row("lib/xaropinto.lib", "target/targets/windows-x86_64/xaropinto.lib", (WINDOWS,)),
    Row("lib/pkgconfig/xaropinto.pc", "packaging/xaropinto.pc.in", LINUX, change=filled),
    Row(f"{CMAKE}/xaropinto-config.cmake", "packaging/xaropinto-config.cmake"),
    Row(f"{CMAKE}/xaropinto-config-version.cmake", "packaging/xaropinto-config-version.cmake.in",
        change=filled),
    Row("share/man/man1/xaropinto.1", "packaging/xaropinto.1", LINUX),
]
READ = [
    Row("README.md", "packaging/README.md", change=filled),
    Row("INSTALL.md", "packaging/INSTALL.md"),
    Row("CHANGELOG.md", "CHANGELOG.md"),
    Row("docs/", "docs/*.md"),
    Row("samples/", "samples/*"),
    Row("web/xaropinto.html", "target/web/xaropinto.html"),
    Row("bindings/c/examples/", "bindings/c/examples/*.c"),
    Row("bindings/rust/Cargo.toml", "bindings/rust/Cargo.toml", change=crate_alone),
    Row("bindings/rust/build.rs", "bindings/rust/build.rs"),
    Row("bindings/rust/src/", "bindings/rust/src/*.rs"),
]
PACKAGE = "python/xaropinto/"
LINK = "libxaropinto.so"
# What a run or a build puts beside the modules.
NOT_SOURCES = (".so", ".dll", ".pyc", "/build.json")


def sources(pattern):
    """The files of the repository that fit a pattern, from the root: those of git, and new ones."""
    listed = identity.printed(*identity.GIT, "ls-files", "-z", "--cached", "--others",
                              "--exclude-standard", "--", f":(glob){pattern}")
    names = (listed.split("\0") if listed
             else [path.relative_to(ROOT).as_posix() for path in ROOT.glob(pattern)])
    found = sorted({name for name in names if (ROOT / name).is_file()
                    and not name.endswith(NOT_SOURCES)})
    if not found:
        raise MissingError(f"no file {pattern}")
    return found


def read(name):
    """The bytes of a file from the root."""
    try:
        return (ROOT / name).read_bytes()
    except FileNotFoundError:
        maker = next((words for top, words in MAKERS.items() if name.startswith(top)), "")
        how = f": {maker} makes it" if maker else ""
        raise MissingError(f"{name} is missing{how}") from None


def need_one_build():
    """Stop where the libraries of the other platforms are not of the archive that is packed, which
    `make lib` makes of the proved one."""
    archive = hashlib.sha256(read("target/staticlib/libc_api.a")).hexdigest()
    if read(STAMP.relative_to(ROOT).as_posix()).decode("ascii") != archive:
        raise MissingError("target/targets is of another archive than target/lib has:"
                           f" {MAKERS['target/targets/']} makes it anew")


def files_of_rows(rows, platform):
    """The files that rows give on a platform, by their places."""
    files = {}
    for row in rows:
        if platform not in row.on:
            continue
        names = [row.source] if not row.to.endswith("/") else sources(row.source)
        for name in names:
            to = row.to + name.rpartition("/")[2] if row.to.endswith("/") else row.to
            files[to] = File(row.change(read(name), platform), row.runs)
    return files


def package_files(platform):
    """The Python package, by places in it: its modules and data, the library, and what was
    built."""
    files = {f"xaropinto/{name.removeprefix(PACKAGE)}": File(read(name))
             for name in sources(f"{PACKAGE}**/*")}
    library = f"xaropinto/{BUILDS[platform.python].name}"
    files[library] = File(read(platform.library), runs=platform in LINUX)
    files["xaropinto/build.json"] = File(identity.build_json())
    return files


def installed_files(platform):
    """What is installed, by places below the folder that is installed to."""
    files = files_of_rows(INSTALLED, platform)
    if platform in LINUX:
        files[f"lib/{LINK}"] = files["lib/libxaropinto.so.2"]._replace(link="libxaropinto.so.2")
    package = package_files(platform)
    return files | {f"{SHARE}/{name}": file for name, file in package.items()}


def archive_files(platform):
    """All that an archive holds but its list of sums, by places in its folder."""
    return installed_files(platform) | files_of_rows(READ, platform)
