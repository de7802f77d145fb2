"""What libmseed packs is read by the library, and what the library packs is read by libmseed."""

from __future__ import annotations

import subprocess
import tempfile
from pathlib import Path

from driver.library import WANTS, compiled, library
from driver.program import SOURCES
from driver.rows import Cases, Fact, Skipped, holds
from rows.interop import LIBMSEED, is_installed


def rows() -> Cases:
    """Each encoding, length and byte order."""
    built = library() if is_installed() else None
    if built is None:
        yield Skipped("the library beside libmseed", WANTS if is_installed() else LIBMSEED)
        return
    with tempfile.TemporaryDirectory() as folder:
        program = Path(folder) / "interop"
        yield Fact("the tries compile", "",
                   compiled(built, SOURCES / "library_interop.c", program, after=["-lmseed"]).stdout)
        run = subprocess.run([str(program)], stdout=subprocess.PIPE, stderr=subprocess.STDOUT, text=True, timeout=600,
                             check=False)
    tries = [line.rpartition(": ") for line in run.stdout.splitlines()]
    for name, _, differs in tries:
        yield Fact(name, "the same", differs)
    yield holds("there were tries", len(tries) == 60 and run.returncode == 0, run.stdout[-500:])
