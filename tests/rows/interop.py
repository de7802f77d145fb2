"""What libmseed packs, `mseed repack` packs anew, and libmseed reads: all encodings, lengths and byte orders."""

from __future__ import annotations

import shutil
import subprocess
import tempfile

from driver.helpers import built
from driver.program import PROGRAM
from driver.rows import Cases, Fact, Skipped, holds

LIBMSEED = "libmseed-dev"


def is_installed() -> bool:
    """Whether libmseed can be compiled against."""
    if shutil.which("cc") is None:
        return False
    return subprocess.run(["cc", "-E", "-"], input=b"#include <libmseed.h>\n", stdout=subprocess.DEVNULL,
                          stderr=subprocess.DEVNULL, check=False).returncode == 0


def rows() -> Cases:
    """Each archive packed into each form."""
    program = built("interop.c", "interop", ["-Wall", "-Wextra", "-lmseed"]) if is_installed() else None
    if program is None:
        yield Skipped("archives that libmseed packs and reads", LIBMSEED)
        return
    with tempfile.TemporaryDirectory() as folder:
        run = subprocess.run([str(program), str(PROGRAM), folder], stdout=subprocess.PIPE, stderr=subprocess.STDOUT,
                             text=True, timeout=600, check=False)
    tries = [line.partition(": ") for line in run.stdout.splitlines()]
    for name, _, differs in tries:
        yield Fact(name, "the same", differs)
    yield holds("archives were packed", tries and run.returncode == 0, run.returncode)
