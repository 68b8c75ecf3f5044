"""Debian's packages that tests need: installed where they are missing and that is allowed."""

import os
import shutil

from tests.support.command import run

MOST_SECONDS = 600
APT_GET = ["apt-get", "-o", "DPkg::Lock::Timeout=300"]


def install(packages):
    """Install packages, where any are named and this process may; a line says so.

    The lists of packages are fetched only where they don't have these.
    """
    if packages and os.geteuid() == 0 and shutil.which("apt-get"):
        print(f"installing {' '.join(packages)}", flush=True)
        wanted = [*APT_GET, "install", "-y", "--no-install-recommends", *packages]
        if run(wanted, MOST_SECONDS)[0] != 0:
            run([*APT_GET, "update"], MOST_SECONDS)
            run(wanted, MOST_SECONDS)
