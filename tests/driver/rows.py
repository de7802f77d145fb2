"""Rows: what is run, what must come of it, and what came where that is something else.

A row file yields rows of three kinds. A `Row` is a run of the program, with what is expected beside its input. A
`Fact` is something that the file ran by itself, a dialogue or a race, and judges. A `Skipped` names what isn't
installed.
"""

from __future__ import annotations

import contextlib
import os
import select
import subprocess
from dataclasses import dataclass, field, replace
from pathlib import Path
from typing import IO, Callable, Iterator, Mapping, NamedTuple, Optional, Sequence, Union

from driver.program import LIMIT, PROGRAM
from driver.texts import Expected, matches, shown

Word = Union[str, bytes]

# In the place of the status of a process that didn't end.
NO_END = -1000

# An input of more bytes goes through no pipe, byte by byte.
MOST_PIPED = 70000


class Fault(NamedTuple):
    """Why a row failed."""

    expected: str
    came: str


class Result(NamedTuple):
    """How a run ended, what it wrote, and how many bytes of its input nobody has read."""

    status: int
    out: bytes
    err: bytes
    left: Optional[int] = None


@dataclass(frozen=True)
class Row:
    """A run of the program with these arguments, and how it must end. The input is bytes, as a file or through a pipe
    byte by byte, or the path of a file or folder. Where `left` is a number, so many bytes of it stay unread. `out_to`
    and `err_to` are written to in the place of files; the descriptors `closed` are closed from the first moment on.
    `wait` waits for the end, where that isn't waited for as long as for any run."""

    name: str
    input: Union[bytes, Path]
    words: Sequence[Word]
    status: int
    out: Expected = b""
    err: Expected = b""
    piped: bool = False
    left: Optional[int] = None
    env: Mapping[str, str] = field(default_factory=dict)
    out_to: Optional[str] = None
    err_to: Optional[str] = None
    closed: Sequence[int] = ()
    wait: Optional[Callable[[subprocess.Popen], int]] = None

    def run(self) -> Result:
        """Runs the program once."""
        with contextlib.ExitStack() as files:
            out, err = (files.enter_context(in_memory()) for _ in range(2))
            out_to = files.enter_context(open(self.out_to, "wb")) if self.out_to else out
            err_to = files.enter_context(open(self.err_to, "wb")) if self.err_to else err
            source = None if self.piped else files.enter_context(opened(self.input))
            process = started(self.words, self.env, self.closed, bufsize=0, stdout=out_to, stderr=err_to,
                              stdin=subprocess.PIPE if source is None else source)
            if source is None:
                pour(self.input, process.stdin)
            status, left = (self.wait or status_of)(process), None
            if source is not None and self.left is not None:
                left = os.fstat(source).st_size - os.lseek(source, 0, os.SEEK_CUR)
            return Result(status, contents_of(out), contents_of(err), left)

    def fault(self) -> Optional[Fault]:
        """Runs it, and says what is wrong, if anything."""
        came = self.run()
        is_right = came.status == self.status and matches(self.out, came.out) and matches(self.err, came.err)
        if is_right and came.left == self.left:
            return None
        return Fault(described(self.status, self.out, self.err, self.left), described(*came))


def described(status: int, out: Expected, err: Expected, left: Optional[int]) -> str:
    """The end of a run, as a failure shows it."""
    unread = "" if left is None else f", {left} bytes unread"
    return f"status {status}, output {shown(out)}, errors {shown(err)}{unread}"


@dataclass(frozen=True)
class Fact:
    """What was seen of something, and what must be seen."""

    name: str
    expected: object
    came: object

    def fault(self) -> Optional[Fault]:
        """What is wrong, if anything."""
        return None if self.came == self.expected else Fault(shown(self.expected), shown(self.came))


@dataclass(frozen=True)
class Skipped:
    """What can't be run here, for want of something."""

    name: str
    wants: str

    def fault(self) -> Optional[Fault]:
        """Nothing was run."""
        return None


Case = Union[Row, Fact, Skipped]
Cases = Iterator[Case]


def holds(name: str, is_so: object, came: object = "") -> Fact:
    """A fact of which more is seen than whether it holds."""
    return Fact(name, True, True) if is_so else Fact(name, "that this holds", came)


def both(row: Row) -> Iterator[Row]:
    """The row with its input as a file and, where that is short, through a pipe byte by byte."""
    yield row
    if len(row.input) <= MOST_PIPED:
        yield replace(row, name=f"{row.name}, piped", piped=True)


def started(words: Sequence[Word], env: Optional[Mapping[str, str]] = None, closed: Sequence[int] = (),
            **streams) -> subprocess.Popen:
    """The program as a process, with more in its environment, and some descriptors closed from its first moment on."""
    command: list[Word] = [str(PROGRAM), *words]
    if closed:
        script = 'exec "$@"' + "".join(f" {number}>&-" for number in closed)
        command = ["bash", "-c", script, "bash", *command]
    return subprocess.Popen(command, env={**os.environ, **env} if env else None, **streams)


def in_memory() -> IO[bytes]:
    """A file without a name or a place on a disk."""
    return os.fdopen(os.memfd_create("row"), "w+b", buffering=0)


@contextlib.contextmanager
def opened(input: Union[bytes, Path]) -> Iterator[int]:
    """The descriptor of an input that is read from its beginning. A folder has one too, which can't be read."""
    if isinstance(input, Path):
        descriptor = os.open(input, os.O_RDONLY)
        try:
            yield descriptor
        finally:
            os.close(descriptor)
        return
    with in_memory() as file:
        file.write(input)
        file.seek(0)
        yield file.fileno()


def pour(input: bytes, pipe: IO[bytes]) -> None:
    """Writes an input byte by byte, as far as it is read."""
    with contextlib.suppress(BrokenPipeError):
        for at in range(len(input)):
            pipe.write(input[at : at + 1])
    pipe.close()


def status_of(process: subprocess.Popen, seconds: float = LIMIT) -> int:
    """The status of a process once it has ended by itself, within the time that it has."""
    if process.poll() is None:
        # Waiting with a limit would look now and then, and sleep in between.
        watched = os.pidfd_open(process.pid)
        poller = select.poll()
        poller.register(watched, select.POLLIN)
        has_ended = poller.poll(seconds * 1000)
        os.close(watched)
        if not has_ended:
            process.kill()
            process.wait()
            return NO_END
    return process.wait()


def contents_of(file: IO[bytes]) -> bytes:
    """All that was written to a file."""
    file.seek(0)
    return file.read()
