"""The library for C and Python, as `make lib` builds it, and what is compiled against it."""

from __future__ import annotations

import fcntl
import os
import shutil
import signal
import subprocess
import time
from pathlib import Path
from typing import Optional, Sequence

from driver.program import CRATES, ROOT

# Where it is, or where the one that is tested is, where $MSEED_LIB names a folder.
BUILT = CRATES / "mseed_c" / "out" / "lib"
LIBRARY = Path(os.path.abspath(os.environ.get("MSEED_LIB") or BUILT))
SHARED = "libmseed_c.so"
STATIC = "libmseed_c.a"
HEADERS = ROOT / "include"
PACKAGE = ROOT / "python"

WANTS = "the library: make lib"
# The seconds that a build may take here, all proofs included. Where one wasn't there in time, or failed, none is tried
# for an hour.
MOST = 2400
LATE = ROOT / "tests" / "out" / "library.late"

# Debian's own Python, for which Debian packs NumPy.
PYTHON = "/usr/bin/python3"


def library() -> Optional[Path]:
    """The folder of the library, which is built where it isn't there; nothing where that can't be done in time."""
    if (LIBRARY / SHARED).exists() or LIBRARY != BUILT:
        return LIBRARY if (LIBRARY / SHARED).exists() else None
    if not can_be_built():
        return None
    made = ROOT / "tests" / "out"
    made.mkdir(exist_ok=True)
    with (made / "library.lock").open("w") as lock:
        fcntl.flock(lock, fcntl.LOCK_EX)
        if not (LIBRARY / SHARED).exists() and not is_late():
            status, said = build()
            if not (LIBRARY / SHARED).exists():
                print(f"{said}FAILED make lib: status {status}")
                LATE.touch()
    return LIBRARY if (LIBRARY / SHARED).exists() else None


def can_be_built() -> bool:
    """Whether the toolchain and a C compiler are there."""
    return shutil.which("rt") is not None and shutil.which("cc") is not None


def build() -> tuple[int, str]:
    """Builds it, unless that takes too long: whatever was started is over then. How it ended, and what it said."""
    with subprocess.Popen(["make", "--silent", "lib"], cwd=ROOT, start_new_session=True, stdin=subprocess.DEVNULL,
                          stdout=subprocess.PIPE, stderr=subprocess.STDOUT, text=True, errors="replace") as run:
        try:
            said = run.communicate(timeout=MOST)[0]
        except subprocess.TimeoutExpired:
            os.killpg(run.pid, signal.SIGKILL)
            said = f"{run.communicate()[0]}It took longer than {MOST} s.\n"
    return run.returncode, said


def is_late() -> bool:
    """Whether a build was tried in vain within the last hour."""
    return LATE.exists() and time.time() - LATE.stat().st_mtime < 3600


def compiled(folder: Path, code: Path, to: Path, options: Sequence[str] = (),
             after: Sequence[str] = ()) -> subprocess.CompletedProcess:
    """Compiles a program against the header, and links it with the archive of the library, every warning an error."""
    words = ["cc", "-O1", "-Wall", "-Wextra", "-Werror", f"-I{HEADERS}", "-o", str(to), str(code), *options]
    return subprocess.run([*words, str(folder / STATIC), *after], stdout=subprocess.PIPE, stderr=subprocess.STDOUT,
                          text=True, check=False)


def python(folder: Path, words: Sequence[str], input: bytes = b"", numpy: bool = True,
           **settings: str) -> subprocess.CompletedProcess:
    """Runs Debian's Python with the package in its path; without NumPy, where that isn't wanted."""
    hidden = [] if numpy else [str(ROOT / "tests" / "sources" / "no_numpy")]
    env = {**os.environ, "PYTHONPATH": os.pathsep.join([*hidden, str(PACKAGE)]), "PYTHONDONTWRITEBYTECODE": "1",
           "MSEED_LIBRARY": str(folder / SHARED), **settings}
    return subprocess.run([PYTHON, *words], input=input, stdout=subprocess.PIPE, stderr=subprocess.PIPE, env=env,
                          timeout=600, cwd=ROOT, check=False)


def has_numpy() -> bool:
    """Whether Debian's NumPy is there."""
    if not os.path.exists(PYTHON):
        return False
    return subprocess.run([PYTHON, "-c", "import numpy"], stderr=subprocess.DEVNULL, check=False).returncode == 0
