"""A package that this Python may not have, where another one has it."""

from __future__ import annotations

import contextlib
import importlib
import os
import re
import subprocess
import sys
from pathlib import Path
from typing import Iterator

from mseed_tools.program import ToolError

NAME = re.compile(r"python3?|python3\.\d+")
DEBIAN = "/usr/bin/python3"
# Set for a Python that was found, so that none is looked for in turn.
FOUND = "MSEED_TOOLS_PYTHON"
# The folder of the program that is run counts for nothing: what lies there is no package.
PROBE = "import sys; sys.path.pop(0); assert sys.version_info >= (3, 9); import "
LIMIT = 60


def others() -> Iterator[str]:
    """The other Pythons on the path, and Debian's: first those by the name that most are called by."""
    paths = [path for folder in os.get_exec_path() for path in sorted(Path(folder).glob("python*"))]
    seen = {sys.executable}
    for path in sorted([*paths, Path(DEBIAN)], key=lambda path: path.name != "python3"):
        if NAME.fullmatch(path.name) and str(path) not in seen and os.access(path, os.X_OK):
            seen.add(str(path))
            yield str(path)


def has(python: str, package: str) -> bool:
    """Whether a Python has a package."""
    try:
        return subprocess.run([python, "-c", PROBE + package], stdin=subprocess.DEVNULL, stdout=subprocess.DEVNULL,
                              stderr=subprocess.DEVNULL, timeout=LIMIT, check=False).returncode == 0
    except (OSError, subprocess.TimeoutExpired):
        return False


@contextlib.contextmanager
def aside(path: str) -> Iterator[None]:
    """Lets what a package writes on standard error, here and in the processes that it starts, go into a file, from here
    on up to the end of this process; after the block, what this program writes there goes where it did."""
    own = os.dup(sys.stderr.fileno())
    file = os.open(path, os.O_WRONLY | os.O_CREAT | os.O_TRUNC | os.O_APPEND, 0o666)
    os.dup2(file, 2)
    os.close(file)
    sys.stderr = sys.__stderr__
    try:
        yield
    finally:
        sys.stderr.flush()
        sys.stderr = os.fdopen(own, "w", buffering=1, errors="backslashreplace")


def go_on_with(package: str, wanted: str) -> None:
    """Goes on where this Python has a package; else runs the same command by one that has it. Raises ToolError where
    there is none, and names those that were asked."""
    with contextlib.suppress(ImportError), aside(os.devnull):
        importlib.import_module(package)
        return
    os.dup2(sys.stderr.fileno(), 2)
    asked = [sys.executable]
    for python in others() if FOUND not in os.environ else ():
        asked.append(python)
        if has(python, package):
            os.execve(python, [python, *sys.argv], {**os.environ, FOUND: python})
    raise ToolError(f"needs {wanted}, which none of these has: {', '.join(asked)}")
