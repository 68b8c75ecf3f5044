"""The wheels of the three platforms: names and lists, what a name promises about the C library, and
that pip takes them."""

import base64
import csv
import hashlib
import io
import re
import subprocess
import sys
import tempfile
import zipfile
from pathlib import Path

from tests import ROOT
from tests.support.case import Case
from tests.support.command import run
from tests.support.packages import build_parts
from tests.support.report import run_unit_tests
from tools.dist import identity
from tools.dist.contents import PLATFORMS, X86_64
from tools.dist.elf import NotElfError, glibc_needed, machine_of, needed_versions
from tools.dist.wheel import TagError, name_of, need_tag, wheel_bytes

VERSION = (ROOT / "VERSION").read_text(encoding="ascii").strip()
MOST_SECONDS = 120
INFO = f"xaropinto-{VERSION}.dist-info"
LIBRARIES = {"manylinux_2_17_x86_64": "libxaropinto.so", "manylinux_2_17_aarch64":
             "libxaropinto.so", "win_amd64": "xaropinto.dll"}
PIP = [sys.executable, "-m", "pip", "--disable-pip-version-check", "--quiet", "install",
       "--no-deps", "--no-index"]
# Files whose versions are read by readelf too.
ELF_FILES = ["target/lib/libxaropinto.so.2", "target/bin/listing_main", "target/bin/test_check",
             "target/targets/linux-arm64/libxaropinto.so.2"]
# Since glibc 2.34 this function is in the C library itself.
NEW_GLIBC = "#include <pthread.h>\nvoid *f(void) { return (void *)pthread_create; }\n"


class Wheels(Case):
    """Each wheel as an archive, and installed."""

    @classmethod
    def setUpClass(cls):
        build_parts()
        cls.wheels = {each.wheel: wheel_bytes(each, identity.seconds()) for each in PLATFORMS}
        held = tempfile.TemporaryDirectory()
        cls.addClassCleanup(held.cleanup)
        cls.folder = Path(held.name)
        for each in PLATFORMS:
            (cls.folder / name_of(each)).write_bytes(cls.wheels[each.wheel])

    def opened(self, tag):
        """The files of a wheel, by name."""
        with zipfile.ZipFile(io.BytesIO(self.wheels[tag])) as archive:
            return {name: archive.read(name) for name in archive.namelist()}

    def test_names(self):
        self.assertEqual({name_of(each) for each in PLATFORMS},
                         {f"xaropinto-{VERSION}-py3-none-{tag}.whl" for tag in LIBRARIES})
        for tag, library in LIBRARIES.items():
            held = self.opened(tag)
            self.assertIn(f"Tag: py3-none-{tag}\n", held[f"{INFO}/WHEEL"].decode())
            self.assertIn("Root-Is-Purelib: false\n", held[f"{INFO}/WHEEL"].decode())
            found = [name for name in held if name.endswith((".so", ".dll"))]
            self.check(f"{tag}: one library", found == [f"xaropinto/{library}"], found)

    def test_modules_are_the_same_on_all_platforms(self):
        modules = [{name: held for name, held in self.opened(tag).items()
                    if not name.startswith(INFO) and not name.endswith((".so", ".dll"))}
                   for tag in LIBRARIES]
        self.assertEqual(modules[0], modules[1])
        self.assertEqual(modules[0], modules[2])
        self.assertEqual(modules[0]["xaropinto/calls.py"],
                         (ROOT / "python/xaropinto/calls.py").read_bytes())
        self.assertLessEqual({"xaropinto/py.typed", "xaropinto/schema.json",
                              "xaropinto/refusals.tsv", "xaropinto/build.json"}, set(modules[0]))

    def test_record(self):
        for tag in LIBRARIES:
            held = self.opened(tag)
            rows = list(csv.reader(io.StringIO(held[f"{INFO}/RECORD"].decode())))
            self.assertEqual(sorted(row[0] for row in rows), sorted(held))
            wrong = [name for name, sum_, size in rows if name != f"{INFO}/RECORD" and (
                size != str(len(held[name])) or sum_ != "sha256=" + base64.urlsafe_b64encode(
                    hashlib.sha256(held[name]).digest()).decode().rstrip("="))]
            self.check(f"{tag}: every sum", not wrong, wrong)

    def test_description(self):
        text = self.opened("win_amd64")[f"{INFO}/METADATA"].decode()
        for line in ("Name: xaropinto", f"Version: {VERSION}", "Requires-Python: >=3.10",
                     "Provides-Extra: xlsx", 'Requires-Dist: openpyxl; extra == "xlsx"'):
            self.assertIn(line, text.splitlines())

    def test_pip_takes_each(self):
        for tag in LIBRARIES:
            folder = self.folder / tag
            wheel = self.folder / f"xaropinto-{VERSION}-py3-none-{tag}.whl"
            code, text = run([*PIP, "--platform", tag, "--only-binary=:all:", "--target",
                              str(folder), str(wheel)], MOST_SECONDS)
            self.check(f"{tag} is installed", code == 0 and (folder / "xaropinto").is_dir(), text)
        wheel = str(self.folder / name_of(X86_64))
        code, text = run([*PIP, "--platform", "win_amd64", "--only-binary=:all:", "--target",
                          str(self.folder / "no"), wheel], MOST_SECONDS)
        self.check("no wheel of another platform", code != 0 and "not a supported wheel" in text)

    def test_command_and_its_version(self):
        folder = self.folder / "here"
        wheel = self.folder / name_of(X86_64)
        code, text = run([*PIP, "--target", str(folder), str(wheel)], MOST_SECONDS)
        self.assertEqual(code, 0, text)
        # Nothing on the path: neither git nor the checker is asked.
        for words, due in ((["list", ROOT / "samples/small_insurer.book"],
                            (ROOT / "samples/small_insurer.listing").read_text("ascii")),
                           (["--version"], f"xaropinto {VERSION}\ncommit {identity.commit()}\n"
                                           f"checker {identity.checker()}\n")):
            ended = subprocess.run([sys.executable, "-m", "xaropinto", *words], cwd=self.folder,
                                   env={"PYTHONPATH": str(folder), "PATH": "/nowhere"},
                                   capture_output=True, check=False, timeout=MOST_SECONDS)
            self.assertEqual((ended.returncode, ended.stdout.decode()), (0, due))


class Promises(Case):
    """The versions of glibc that the libraries ask for are those that a name promises."""

    def compiled(self, source, *words):
        """A shared library of some C."""
        with tempfile.TemporaryDirectory() as folder:
            path = Path(folder) / "it.so"
            subprocess.run(["cc", "-shared", "-fPIC", "-x", "c", "-", "-x", "none", *words, "-o",
                            path], input=source.encode(), check=True)
            return path.read_bytes()

    def test_versions_are_those_of_readelf(self):
        for name in ELF_FILES:
            code, text = run(["readelf", "--version-info", "--wide", name], MOST_SECONDS)
            text = text.partition("Version needs section")[2]
            due = set(re.findall(r"Name: (\S+)", text))
            found = {version for _, version in needed_versions((ROOT / name).read_bytes())}
            self.check(name, code == 0 and found == due, (found, due))

    def test_each_library_keeps_its_promise(self):
        for name, tag in (("target/lib/libxaropinto.so.2", "manylinux_2_17_x86_64"),
                          ("target/targets/linux-arm64/libxaropinto.so.2",
                           "manylinux_2_17_aarch64")):
            need_tag(tag, (ROOT / name).read_bytes())

    def test_newer_glibc_is_noticed(self):
        held = self.compiled(NEW_GLIBC)
        self.assertEqual(glibc_needed(held), (2, 34))
        with self.assertRaisesRegex(TagError, "asks for glibc 2.34"):
            need_tag("manylinux_2_17_x86_64", held)
        need_tag("manylinux_2_34_x86_64", held)

    def test_another_library_is_noticed(self):
        script = "OTHER_1.0 { global: *; };\n"
        with tempfile.TemporaryDirectory() as folder:
            (Path(folder) / "map").write_text(script, encoding="ascii")
            other = Path(folder) / "libother.so"
            other.write_bytes(self.compiled("int other(void) { return 1; }",
                                            f"-Wl,--version-script={folder}/map"))
            held = self.compiled("int other(void); int f(void) { return other(); }", str(other))
        with self.assertRaisesRegex(ValueError, "OTHER_1.0"):
            glibc_needed(held)

    def test_another_processor_is_noticed(self):
        held = (ROOT / "target/lib/libxaropinto.so.2").read_bytes()
        self.assertEqual(machine_of(held), "x86_64")
        with self.assertRaisesRegex(TagError, "is for x86_64"):
            need_tag("manylinux_2_17_aarch64", held)

    def test_what_is_no_elf_file(self):
        for held in (b"", b"MZ" + bytes(100), b"\x7fELF\x01\x01" + bytes(100)):
            self.rejects(held[:6], NotElfError, glibc_needed, held)

    def test_the_library_for_arm64_asks_for_no_glibc(self):
        self.assertEqual(glibc_needed((ROOT / ELF_FILES[-1]).read_bytes()), (0, 0))


if __name__ == "__main__":
    sys.exit(run_unit_tests(sys.modules[__name__]))
