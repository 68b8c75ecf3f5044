"""Writes archives whose bytes depend on nothing but the files in them and one time."""

import gzip
import hashlib
import io
import os
import tarfile
import time
import zipfile

LIST = "MANIFEST"
RUNS, IS_READ = 0o755, 0o644
PLAIN_FILE = 0o100000
UNIX = 3


def mode_of(file):
    """Who may do what with a file."""
    return RUNS if file.runs else IS_READ


def sum_of(held):
    """SHA-256, as sha256sum prints it."""
    return hashlib.sha256(held).hexdigest()


def list_of_sums(files):
    """The list of all files with their sums, as `sha256sum --check` reads it; a link is read as
    what it leads to."""
    return "".join(f"{sum_of(files[name].held)}  {name}\n" for name in sorted(files)).encode()


def tar_bytes(top, files, seconds):
    """A .tar.gz with all files below a folder."""
    held = io.BytesIO()
    with tarfile.open(fileobj=held, mode="w", format=tarfile.USTAR_FORMAT) as tar:
        for name in sorted(files):
            entry = tarfile.TarInfo(f"{top}/{name}")
            entry.mtime, entry.mode = seconds, mode_of(files[name])
            entry.uname = entry.gname = "root"
            if files[name].link:
                entry.type, entry.linkname = tarfile.SYMTYPE, files[name].link
                tar.addfile(entry)
            else:
                entry.size = len(files[name].held)
                tar.addfile(entry, io.BytesIO(files[name].held))
    return gzip.compress(held.getvalue(), mtime=seconds)


def zip_bytes(top, files, seconds):
    """A zip archive with all files below a folder, or at its top where that is empty."""
    held = io.BytesIO()
    with zipfile.ZipFile(held, "w", zipfile.ZIP_DEFLATED) as archive:
        for name in sorted(files):
            place = f"{top}/{name}" if top else name
            entry = zipfile.ZipInfo(place, time.gmtime(seconds)[:6])
            entry.compress_type, entry.create_system = zipfile.ZIP_DEFLATED, UNIX
            entry.external_attr = (PLAIN_FILE | mode_of(files[name])) << 16
            archive.writestr(entry, files[name].held)
    return held.getvalue()


def install_files(folder, files):
    """Put files below a folder; each replaces an older one as a whole."""
    for name in sorted(files):
        target = folder / name
        target.parent.mkdir(parents=True, exist_ok=True)
        part = target.with_name(f".{target.name}.part")
        part.unlink(missing_ok=True)
        if files[name].link:
            part.symlink_to(files[name].link)
        else:
            part.write_bytes(files[name].held)
            part.chmod(mode_of(files[name]))
        os.replace(part, target)
