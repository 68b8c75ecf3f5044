"""Writes wheels: the Python package with the library of one platform.

They are made of the same files as the archives and need no tool for packages, so their bytes depend
on the commit alone. `pip install ./python` goes by python/setup.py instead.
"""

import base64
import hashlib
import re

from tools.dist.archives import zip_bytes
from tools.dist.contents import LINUX, ROOT, VERSION, File, package_files
from tools.dist.elf import glibc_needed, machine_of

try:
    import tomllib
except ImportError:  # Python 3.10
    from pip._vendor import tomli as tomllib

MANYLINUX = re.compile(r"manylinux_(\d+)_(\d+)_(\w+)")


class TagError(Exception):
    """The library asks for more than the wheel's name promises."""


def name_of(platform):
    """The name of a platform's wheel."""
    return f"xaropinto-{VERSION}-py3-none-{platform.wheel}.whl"


def need_tag(tag, library):
    """Stop where a library is for another processor than the tag names, or asks for a newer
    glibc."""
    found = MANYLINUX.fullmatch(tag)
    promised, needed = (int(found[1]), int(found[2])), glibc_needed(library)
    if machine_of(library) != found[3]:
        raise TagError(f"{tag}: the library is for {machine_of(library)}")
    if needed > promised:
        raise TagError(f"{tag}: the library asks for glibc {needed[0]}.{needed[1]}")


def metadata(project):
    """The description of the package, from pyproject.toml."""
    lines = ["Metadata-Version: 2.1", f"Name: {project['name']}", f"Version: {VERSION}",
             f"Summary: {project['description']}",
             f"Requires-Python: {project['requires-python']}"]
    for extra, wanted in sorted(project["optional-dependencies"].items()):
        lines += [f"Provides-Extra: {extra}"]
        lines += [f'Requires-Dist: {each}; extra == "{extra}"' for each in wanted]
    return "\n".join(lines) + "\n"


def sum_of(held):
    """SHA-256 as a wheel's list has it."""
    return base64.urlsafe_b64encode(hashlib.sha256(held).digest()).rstrip(b"=").decode()


def wheel_bytes(platform, seconds):
    """The wheel of a platform."""
    project = tomllib.loads((ROOT / "python/pyproject.toml").read_text("utf-8"))["project"]
    info = f"xaropinto-{VERSION}.dist-info"
    files = package_files(platform)
    if platform in LINUX:
        need_tag(platform.wheel, files["xaropinto/libxaropinto.so"].held)
    commands = "".join(f"{name} = {start}\n" for name, start in project["scripts"].items())
    texts = {
        "METADATA": metadata(project),
        "WHEEL": "Wheel-Version: 1.0\nGenerator: xaropinto\nRoot-Is-Purelib: false\n"
                 f"Tag: py3-none-{platform.wheel}\n",
        "entry_points.txt": f"[console_scripts]\n{commands}",
        "top_level.txt": "xaropinto\n",
    }
    files |= {f"{info}/{name}": File(text.encode()) for name, text in texts.items()}
    rows = [f"{name},sha256={sum_of(files[name].held)},{len(files[name].held)}\n"
            for name in sorted(files)]
    files[f"{info}/RECORD"] = File("".join([*rows, f"{info}/RECORD,,\n"]).encode())
    return zip_bytes("", files, seconds)
