"""Makes the archives and wheels of all platforms, or installs the files of one.

Each path that is written is printed. Two builds of one commit give the same bytes.
"""

import argparse
import shutil
import sys
from pathlib import Path

from tools.dist import identity
from tools.dist.archives import (LIST, install_files, list_of_sums, sum_of, tar_bytes, zip_bytes)
from tools.dist.contents import (PLATFORMS, WINDOWS, X86_64, File, MissingError, archive_files,
                                 installed_files, need_one_build)
from tools.dist.wheel import TagError, name_of, wheel_bytes

SUMS = "SHA256SUMS"


def built(platform, seconds):
    """The archive and the wheel of a platform, by their names."""
    files = archive_files(platform)
    files[LIST] = File(list_of_sums(files))
    pack, ending = (zip_bytes, "zip") if platform == WINDOWS else (tar_bytes, "tar.gz")
    return {f"{platform.archive}.{ending}": pack(platform.archive, files, seconds),
            name_of(platform): wheel_bytes(platform, seconds)}


def build(folder, platforms):
    """Write all archives and wheels into a folder that holds nothing else then."""
    need_one_build()
    seconds, made = identity.seconds(), {}
    for platform in platforms:
        made |= built(platform, seconds)
    made[SUMS] = "".join(f"{sum_of(made[name])}  {name}\n" for name in sorted(made)).encode()
    shutil.rmtree(folder, ignore_errors=True)
    folder.mkdir(parents=True)
    for name in sorted(made):
        (folder / name).write_bytes(made[name])
        print(folder / name)


def read_words():
    """What is to be done."""
    parser = argparse.ArgumentParser(prog="python3 -m tools.dist", description=__doc__)
    verbs = parser.add_subparsers(dest="verb", required=True)
    made = verbs.add_parser("build", help="archives and wheels, into a folder")
    made.add_argument("folder", type=Path)
    made.add_argument("--only", action="append", choices=[each.name for each in PLATFORMS],
                      help="a platform, in place of all")
    put = verbs.add_parser("install", help="header, libraries, programs and package of this Linux")
    put.add_argument("folder", type=Path)
    return parser.parse_args()


def main():
    """Build or install; the exit code."""
    wanted = read_words()
    try:
        if wanted.verb == "install":
            install_files(wanted.folder, installed_files(X86_64))
        else:
            build(wanted.folder, [each for each in PLATFORMS
                                  if not wanted.only or each.name in wanted.only])
    except (MissingError, TagError) as error:
        print(f"tools.dist: {error}", file=sys.stderr)
        return 1
    return 0


if __name__ == "__main__":
    sys.exit(main())
