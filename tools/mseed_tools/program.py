"""The program `mseed`: where it is, which one it is, and its runs."""

from __future__ import annotations

import os
import threading
from typing import IO, NamedTuple, Optional, Sequence, Union

HERE = os.path.realpath(__file__)
ABOVE = os.path.dirname(os.path.dirname(os.path.dirname(HERE)))
BUILT = os.path.join(ABOVE, "crates", "mseed", "out", "mseed")
# Where these tools are installed, below the folder in whose `bin` the program is.
INSTALLED = "/lib/mseed/tools/mseed_tools/program.py"
# So many bytes of what a run wrote are kept as room for the next one.
MOST_KEPT = 2**24
# What a run reports last whose memory or output failed.
FAILED = ("mseed: no memory\n", "mseed: write failed\n")


class ToolError(Exception):
    """What a tool can't go on after; its text is reported."""


class Done(NamedTuple):
    """How a run ended, and what it wrote."""

    status: int
    out: str
    err: str


def scratch() -> IO[bytes]:
    """A file without a name; in memory where the system has such files."""
    if hasattr(os, "memfd_create"):
        return os.fdopen(os.memfd_create("mseed"), "w+b", buffering=0)
    # Loading it takes as long as a run of the program.
    import tempfile
    return tempfile.TemporaryFile(buffering=0)


def filled(file: IO[bytes], content: bytes) -> None:
    """Makes this the whole content of a file, which is read from its beginning next. What it held is written over, so
    that no memory is asked for anew."""
    file.seek(0)
    view = memoryview(content)
    try:
        while view:
            view = view[file.write(view):]
    except OSError as error:
        raise OSError(error.errno, error.strerror, "a file without a name") from error
    file.truncate(len(content))
    file.seek(0)


def written(file: IO[bytes]) -> bytes:
    """What a run has written into a file, from its beginning on: it has left the file's place behind that. More than
    some megabytes aren't kept for the next run."""
    file.truncate(file.tell())
    file.seek(0)
    content = file.read()
    file.seek(0)
    if len(content) > MOST_KEPT:
        file.truncate()
    return content


def has_failed(status: int, told: str) -> bool:
    """Whether a run that ended so, and reported this, was killed, or its memory or output failed."""
    return status not in (0, 1, 2) or told.endswith(FAILED)


class Program:
    """A program, which threads may run side by side."""

    def __init__(self, path: str):
        self.path = path
        self.own = threading.local()

    def run(self, arguments: Sequence[str], source: Union[int, bytes] = b"") -> Done:
        """One run over these bytes, or from where a descriptor stands. Raises ToolError where it was killed or its
        memory or output failed."""
        if not hasattr(self.own, "files"):
            self.own.files = [scratch() for _ in range(3)]
        given, out, err = self.own.files
        filled(given, source if isinstance(source, bytes) else b"")
        descriptors = [source if isinstance(source, int) else given.fileno(), out.fileno(), err.fileno()]
        actions = [(os.POSIX_SPAWN_DUP2, descriptor, number) for number, descriptor in enumerate(descriptors)]
        try:
            process = os.posix_spawn(self.path, [self.path, *arguments], os.environ, file_actions=actions)
        except OSError as error:
            raise ToolError(f"{self.path}: {error.strerror}") from error
        status = os.waitstatus_to_exitcode(os.waitpid(process, 0)[1])
        done = Done(status, *(written(file).decode("utf-8", "replace") for file in (out, err)))
        if has_failed(status, done.err):
            first, _, _ = done.err.strip().partition("\n")
            raise ToolError(f"{self.path} {' '.join(arguments)}: status {status}, {first}")
        return done

    def identity(self) -> str:
        """Which program it is: its path's content, as a number that no other has."""
        import hashlib
        with open(self.path, "rb") as file:
            return hashlib.sha256(file.read()).hexdigest()


def found(name: str) -> Optional[str]:
    """The program of a name, on the path, or by the path that it is."""
    folders = [""] if os.path.dirname(name) else os.get_exec_path()
    paths = (os.path.join(folder, name) for folder in folders)
    return next((path for path in paths if os.path.isfile(path) and os.access(path, os.X_OK)), None)


def installed() -> Optional[str]:
    """The program that was installed with these tools."""
    return found(f"{HERE[: -len(INSTALLED)]}/bin/mseed") if HERE.endswith(INSTALLED) else None


def find() -> Program:
    """The program that $MSEED names, else the one on the path, else the one that these tools were installed with, else
    that of the repository."""
    path = os.environ.get("MSEED") or found("mseed") or installed() or BUILT
    whole = found(path)
    if whole is None:
        raise ToolError(f"{path}: no program; $MSEED may name one")
    return Program(os.path.abspath(whole))
