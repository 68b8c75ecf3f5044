"""The archives of `make dist`: what each holds by name, their sums, and that two builds are
equal."""

import calendar
import hashlib
import io
import os
import shutil
import stat
import subprocess
import sys
import tarfile
import tempfile
import zipfile
from pathlib import Path
from typing import NamedTuple
from unittest.mock import patch

from tests import ROOT
from tests.support.case import Case
from tests.support.command import run
from tests.support.debian import install
from tests.support.report import run_unit_tests
from tools.dist import archives, contents
from tools.dist.elf import glibc_needed

VERSION = (ROOT / "VERSION").read_text(encoding="ascii").strip()
MOST_SECONDS = 300
PACKAGE = "share/xaropinto/python/xaropinto/"
# The names of every archive, and those of some.
EVERYWHERE = """
    CHANGELOG.md INSTALL.md MANIFEST README.md bin/xaropinto bindings/c/examples/example.c
    bindings/rust/Cargo.toml bindings/rust/build.rs bindings/rust/src/c_api.rs
    bindings/rust/src/lib.rs bindings/rust/src/refusals.rs include/xaropinto.h
    lib/cmake/xaropinto/xaropinto-config-version.cmake lib/cmake/xaropinto/xaropinto-config.cmake
    web/xaropinto.html
""".split()
LINUX = """
    lib/libxaropinto.a lib/libxaropinto.so lib/libxaropinto.so.2 lib/pkgconfig/xaropinto.pc
    share/man/man1/xaropinto.1
""".split()
PROGRAMS = ["bin/xaropinto-convert", "bin/xaropinto-listing", "bin/xaropinto-report"]
WINDOWS = ["bin/xaropinto.cmd", "bin/xaropinto.dll", "lib/xaropinto.lib"]
# Folders that hold what the repository's hold, by a pattern below these.
FOLDERS = {"docs/": ("docs/", "*.md"), "samples/": ("samples/", "*"),
           PACKAGE: ("python/xaropinto/", "**/*")}
ADDED = {"linux-x86_64": ["libxaropinto.so", "build.json"],
         "linux-arm64": ["libxaropinto.so", "build.json"],
         "windows-x86_64": ["xaropinto.dll", "build.json"]}
NAMED = {"linux-x86_64": [*LINUX, *PROGRAMS], "linux-arm64": LINUX, "windows-x86_64": WINDOWS}
# Where each archive's library was built, and its place in the archive and beside the package.
LIBRARIES = {
    "linux-x86_64": ("target/lib/libxaropinto.so.2", "lib/libxaropinto.so.2", "libxaropinto.so"),
    "linux-arm64": ("target/targets/linux-arm64/libxaropinto.so.2", "lib/libxaropinto.so.2",
                    "libxaropinto.so"),
    "windows-x86_64": ("target/targets/windows-x86_64/xaropinto.dll", "bin/xaropinto.dll",
                       "xaropinto.dll"),
}
# Where the files for CMake lead, in each archive: printed by a project that asks for no compiler.
PROJECT = """cmake_minimum_required(VERSION 3.15)
project(it NONE)
find_package(xaropinto CONFIG REQUIRED)
foreach(target xaropinto static)
  foreach(name LOCATION IMPLIB SONAME)
    if(TARGET xaropinto::${target})
      get_target_property(value xaropinto::${target} IMPORTED_${name})
      message(NOTICE "${target} ${name} ${value}")
    endif()
  endforeach()
endforeach()
"""
LINUX_PLACES = {"xaropinto LOCATION": "TOP/lib/libxaropinto.so.2", "xaropinto IMPLIB": "none",
                "xaropinto SONAME": "libxaropinto.so.2", "static IMPLIB": "none",
                "static LOCATION": "TOP/lib/libxaropinto.a", "static SONAME": "none"}
PLACES = {"linux-x86_64": LINUX_PLACES, "linux-arm64": LINUX_PLACES, "windows-x86_64": {
    "xaropinto LOCATION": "TOP/bin/xaropinto.dll", "xaropinto IMPLIB": "TOP/lib/xaropinto.lib",
    "xaropinto SONAME": "none"}}
# What was proved and built before is not built again: another part may use it meanwhile.
BUILT = ["lib", *(f"target/bin/{name}_main" for name in ("listing", "year_report", "age_basis"))]
MAKE_DIST = ["make", *(word for name in BUILT for word in ("-o", name)), "dist"]
# Another zone, encoding, order of sets and access to new files than the first build has.
ELSEWHERE = {"TZ": "Asia/Tokyo", "LC_ALL": "C", "PYTHONHASHSEED": "7"}


class Entry(NamedTuple):
    """A file of an archive, as it is packed."""

    held: bytes
    mode: int
    when: int
    link: str


def entries(name, held):
    """The entries of an archive, by names as they stand in it; owners are root."""
    if name.endswith(".zip"):
        with zipfile.ZipFile(io.BytesIO(held)) as archive:
            return {each.filename: Entry(archive.read(each), stat.S_IMODE(each.external_attr >> 16),
                                         seconds_of(each.date_time), "")
                    for each in archive.infolist()}
    found = {}
    with tarfile.open(fileobj=io.BytesIO(held)) as archive:
        for each in archive.getmembers():
            if (each.uid, each.gid, each.uname, each.gname) != (0, 0, "root", "root"):
                raise ValueError(f"{each.name} is of {each.uname}")
            file = archive.extractfile(each)
            found[each.name] = Entry(file.read(), each.mode, each.mtime, each.linkname)
    return found


def seconds_of(date_time):
    """The seconds since 1970 of a zip archive's time, which it has in steps of two."""
    return calendar.timegm((*date_time, 0, 0, 0)) // 2 * 2


def printed(*words):
    """What a command prints, by lines."""
    ended = subprocess.run(words, cwd=ROOT, capture_output=True, check=True)
    return ended.stdout.decode().splitlines()


def built_elsewhere(folder):
    """A second build, in another folder and other surroundings: names and bytes."""
    ended = subprocess.run([sys.executable, "-m", "tools.dist", "build", folder], cwd=ROOT,
                           env={**os.environ, **ELSEWHERE}, umask=0o077, check=True,
                           capture_output=True, timeout=MOST_SECONDS)
    paths = [Path(line) for line in ended.stdout.decode().splitlines()]
    return {path.name: path.read_bytes() for path in paths}


class Archives(Case):
    """All archives, built once by make and once elsewhere."""

    @classmethod
    def setUpClass(cls):
        code, text = run(MAKE_DIST, MOST_SECONDS)
        if code:
            raise AssertionError(f"make dist ended with {code}: {text}")
        cls.made = {path.name: path.read_bytes() for path in (ROOT / "target/dist").iterdir()}
        cls.held = {}
        for name, held in cls.made.items():
            platform = name.removeprefix(f"xaropinto-{VERSION}-").partition(".")[0]
            if platform in NAMED:
                cls.held[platform] = {each.partition("/")[2]: entry
                                      for each, entry in entries(name, held).items()}

    def test_names_of_archives(self):
        archive = f"xaropinto-{VERSION}"
        wheel = f"{archive}-py3-none"
        self.assertEqual(sorted(self.made), sorted([
            "SHA256SUMS", f"{archive}-linux-x86_64.tar.gz", f"{archive}-linux-arm64.tar.gz",
            f"{archive}-windows-x86_64.zip", f"{wheel}-manylinux_2_17_x86_64.whl",
            f"{wheel}-manylinux_2_17_aarch64.whl", f"{wheel}-win_amd64.whl"]))
        sums = [f"{hashlib.sha256(self.made[name]).hexdigest()}  {name}"
                for name in sorted(self.made) if name != "SHA256SUMS"]
        self.assertEqual(self.made["SHA256SUMS"].decode().splitlines(), sums)

    def test_names_in_each_archive(self):
        for platform, held in self.held.items():
            due = {*EVERYWHERE, *NAMED[platform], *(PACKAGE + name for name in ADDED[platform])}
            for folder, (root, pattern) in FOLDERS.items():
                found = printed(*"git ls-files --cached --others --exclude-standard".split(),
                                f":(glob){root}{pattern}")
                due |= {folder + name.removeprefix(root) for name in found}
            self.check(f"{platform}: nothing is missing", not due - set(held), due - set(held))
            self.check(f"{platform}: nothing is added", not set(held) - due, set(held) - due)

    def test_all_entries_are_below_one_folder(self):
        for name, held in self.made.items():
            if not name.endswith(".whl") and name != "SHA256SUMS":
                top = name.removesuffix(".zip").removesuffix(".tar.gz")
                names = list(entries(name, held))
                self.assertEqual({each.partition("/")[0] for each in names}, {top})
                self.assertEqual(names, sorted(names))

    def test_manifest(self):
        for platform, held in self.held.items():
            lines = held["MANIFEST"].held.decode("ascii").splitlines()
            sums = {name: sum_ for sum_, _, name in (line.partition("  ") for line in lines)}
            self.check(f"{platform}: every file", sorted(sums) == sorted({*held} - {"MANIFEST"}))
            wrong = [name for name in sums
                     if hashlib.sha256(held[name].held).hexdigest() != sums[name]]
            self.check(f"{platform}: every sum", not wrong, wrong)

    def test_manifest_as_sha256sum_reads_it(self):
        with tempfile.TemporaryDirectory() as name:
            folder = Path(name)
            with tarfile.open(
                    ROOT / f"target/dist/xaropinto-{VERSION}-linux-x86_64.tar.gz") as archive:
                archive.extractall(folder)
            [top] = folder.iterdir()
            command = ["sha256sum", "--quiet", "--check", "MANIFEST"]
            self.assertEqual(run(command, MOST_SECONDS, top), (0, ""))
            sample = top / "samples" / "full.book"
            sample.write_bytes(sample.read_bytes()[:-1] + b"x")
            self.assertNotEqual(run(command, MOST_SECONDS, top)[0], 0)

    def test_two_builds_are_equal(self):
        with tempfile.TemporaryDirectory() as folder:
            again = built_elsewhere(Path(folder) / "again")
        self.assertEqual(sorted(again), sorted(self.made))
        for name, held in again.items():
            self.check(f"{name} is the same", held == self.made[name])

    def test_time_and_access(self):
        when = int(printed("git", "log", "-1", "--format=%ct")[0])
        for platform, held in self.held.items():
            due = when // 2 * 2 if platform == "windows-x86_64" else when
            self.assertEqual({entry.when for entry in held.values()}, {due})
            runs = {name for name, entry in held.items() if entry.mode == 0o755 and not entry.link}
            self.assertEqual({entry.mode for entry in held.values()}, {0o755, 0o644})
            due = {"bin/xaropinto", *(name for name in NAMED[platform] if name in PROGRAMS),
                   *(name for name in held if name.endswith((".so", ".so.2")) and platform
                     != "windows-x86_64" and not held[name].link)}
            self.check(f"{platform}: what runs", runs == due, runs ^ due)

    def test_libraries_are_those_built(self):
        for platform, (built, place, beside) in LIBRARIES.items():
            due, held = (ROOT / built).read_bytes(), self.held[platform]
            self.check(platform, due == held[place].held == held[PACKAGE + beside].held)
        links = [self.held[name]["lib/libxaropinto.so"].link for name in NAMED if "linux" in name]
        self.assertEqual(links, 2 * ["libxaropinto.so.2"])

    def test_samples_and_lines(self):
        for platform, held in self.held.items():
            samples = {name: entry for name, entry in held.items() if name.startswith("samples/")}
            wrong = [name for name, entry in samples.items()
                     if entry.held != (ROOT / name).read_bytes()]
            self.check(f"{platform}: samples to the byte", samples and not wrong, wrong)
        batch = self.held["windows-x86_64"]["bin/xaropinto.cmd"].held
        self.assertEqual(batch.count(b"\r\n"), batch.count(b"\n"))

    def test_facts_are_filled_in(self):
        commit = contents.identity.commit()
        for platform, held in self.held.items():
            for name, entry in held.items():
                if name.endswith((".md", ".cmake", ".pc")) and not name.startswith("docs/"):
                    self.assertNotRegex(entry.held.decode("utf-8"), "@[A-Z]+@", name)
            readme = held["README.md"].held.decode("utf-8")
            self.check(f"{platform}: README", commit in readme and VERSION in readme)
        for platform, words in (("linux-arm64", "Linux on arm64"),
                                ("windows-x86_64", "Windows on x86-64")):
            self.assertIn(words, self.held[platform]["README.md"].held.decode().splitlines()[0])

    def test_glibc_of_the_programs_is_the_one_named(self):
        held = self.held["linux-x86_64"]
        needed = max(glibc_needed(held[name].held) for name in PROGRAMS)
        self.assertIn(f"glibc {needed[0]}.{needed[1]} or later", held["README.md"].held.decode())

    def test_places_for_cmake(self):
        install([] if shutil.which("cmake") else ["cmake"])
        for platform, held in self.held.items():
            with tempfile.TemporaryDirectory() as name:
                top = Path(name) / "top"
                for place, entry in held.items():
                    (top / place).parent.mkdir(parents=True, exist_ok=True)
                    (top / place).write_bytes(entry.held)
                (Path(name) / "CMakeLists.txt").write_text(PROJECT, encoding="ascii")
                code, text = run(["cmake", "-B", f"{name}/build", "-S", name,
                                  f"-DCMAKE_PREFIX_PATH={top}"], MOST_SECONDS)
                said = [line.replace(str(top), "TOP").replace("value-NOTFOUND", "none")
                        for line in text.splitlines()]
                due = [f"{target} {place}" for target, place in PLACES[platform].items()]
                self.check(platform, code == 0 and set(due) <= set(said)
                           and len([line for line in said if "LOCATION" in line])
                           == len([line for line in due if "LOCATION" in line]), text)


class Missing(Case):
    """What is not built is named, with what makes it."""

    def test_words(self):
        for name, words in (("target/targets/windows-x86_64/none.dll", "tools.targets build"),
                            ("target/web/none.html", "make web"), ("target/lib/none", "make lib")):
            with self.assertRaisesRegex(contents.MissingError, f"{name} is missing: .*{words}"):
                contents.read(name)

    def test_one_line_and_no_folder(self):
        with tempfile.TemporaryDirectory() as name:
            folder = Path(name) / "dist"
            text = ("import sys; from tools.dist import contents, __main__ as main\n"
                    "contents.BUILDS['win-amd64'] = contents.BUILDS['win-amd64']._replace("
                    "built='targets/none.dll')\nsys.exit(main.main())")
            code, said = run([sys.executable, "-c", text, "build", str(folder)], MOST_SECONDS)
            self.assertEqual((code, said.count("\n"), folder.exists()), (1, 1, False), said)
            self.assertIn("target/targets/none.dll is missing", said)

    def test_libraries_of_another_archive(self):
        contents.need_one_build()
        with tempfile.TemporaryDirectory() as name:
            stamp = Path(name) / "module.archive"
            stamp.write_text("0" * 64, encoding="ascii")
            named = patch.object(contents, "STAMP", ROOT / os.path.relpath(stamp, ROOT))
            with named, self.assertRaisesRegex(contents.MissingError, "of another archive"):
                contents.need_one_build()

    def test_a_pattern_that_fits_nothing(self):
        with self.assertRaises(contents.MissingError):
            contents.sources("samples/*.nothing")


class Tree(Case):
    """The list of files without git, as in an unpacked source archive."""

    def test_sources_without_git(self):
        for root, pattern in FOLDERS.values():
            pattern = root + pattern
            by_git = contents.sources(pattern)
            with patch.object(contents.identity, "GIT", ("/nowhere/git",)):
                self.check(pattern, contents.sources(pattern) == by_git)

    def test_installed_again(self):
        with tempfile.TemporaryDirectory() as name:
            folder = Path(name)
            for held in (b"old", b"new"):
                archives.install_files(folder, {
                    "lib/one.2": contents.File(held, runs=True),
                    "lib/one": contents.File(held, link="one.2")})
            self.assertEqual(sorted(os.listdir(folder / "lib")), ["one", "one.2"])
            self.assertEqual((folder / "lib" / "one").read_bytes(), b"new")
            self.assertEqual(stat.S_IMODE(os.stat(folder / "lib" / "one.2").st_mode), 0o755)


if __name__ == "__main__":
    sys.exit(run_unit_tests(sys.modules[__name__]))
