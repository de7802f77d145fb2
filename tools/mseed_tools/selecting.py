"""Runs of the program whose output is taken as it comes, over a file, and on after what is no record."""

from __future__ import annotations

import contextlib
import fcntl
import os
import re
import select
import signal
from typing import IO, Callable, Iterator, Optional, Sequence

from mseed_tools.files import opened
from mseed_tools.program import Program, ToolError, has_failed, scratch
from mseed_tools.seeking import ENDS, Fault, next_candidate
from mseed_tools.texts import shown_by

# So many bytes are taken at once, where a pipe holds as many, and of a pipe as it comes.
AT_ONCE, PIPE = 2**20, 2**16
# Linux's number for a pipe's size, which Python names from 3.10 on.
F_SETPIPE_SZ = 1031
# Milliseconds between two looks at whether anybody still waits for the output.
PAUSE = 250
FAULT = re.compile(r"^(?:mseed: )?fault at (\d+) (.+)$", re.MULTILINE)
PLACE = shown_by("offset", "length")
# What each run is begun with, as it is handed over.
ENVIRONMENT = dict(os.environb)
WITHOUT_TIME = re.compile(r"^mseed: (\d+) records without a time$", re.MULTILINE)


class Gone(Exception):
    """Nobody waits for the output any more."""


class Run:
    """A run of the program, from where a descriptor stands on. It is ended with `stop`, wherever it is. Raises
    ToolError where the program can't be run, and OSError where no more files can be open."""

    def __init__(self, program: Program, words: Sequence[str], source: Optional[int], size: int = PIPE):
        self.name, self.is_done, self.status, self.told, self.last = f"{program.path} {words[0]}", False, 0, "", ""
        self.err: IO[bytes] = scratch()
        try:
            self.out, far = os.pipe()
        except OSError:
            self.err.close()
            raise
        if size > PIPE:
            with contextlib.suppress(OSError):
                fcntl.fcntl(self.out, F_SETPIPE_SZ, size)
        actions = [(os.POSIX_SPAWN_DUP2, far, 1), (os.POSIX_SPAWN_DUP2, self.err.fileno(), 2)]
        actions += [(os.POSIX_SPAWN_DUP2, source, 0)] if source is not None else []
        try:
            self.process = os.posix_spawn(program.path, [program.path, *words], ENVIRONMENT, file_actions=actions)
        except OSError as error:
            os.close(self.out)
            self.err.close()
            raise ToolError(f"{program.path}: {error.strerror}") from error
        finally:
            os.close(far)

    def chunks(self, size: int, is_gone: Optional[Callable[[], bool]] = None) -> Iterator[bytes]:
        """What it writes, to its end. Raises Gone where nobody waits for that any more, and ToolError where it was
        killed, or its memory or output failed."""
        waits = select.poll()
        waits.register(self.out, select.POLLIN)
        while True:
            while is_gone is not None and not waits.poll(PAUSE):
                if is_gone():
                    raise Gone
            chunk = os.read(self.out, size)
            if not chunk:
                break
            yield chunk
        self.end()
        if has_failed(self.status, self.told):
            first, _, _ = self.told.partition("\n")
            raise ToolError(f"{self.name}: status {self.status}, {first}")

    def lines(self, is_gone: Optional[Callable[[], bool]] = None) -> Iterator[str]:
        """The lines that it writes. Raises what `chunks` does."""
        rest = b""
        for chunk in self.chunks(PIPE, is_gone):
            *lines, rest = (rest + chunk).split(b"\n")
            for line in lines:
                self.last = line.decode("ascii", "replace")
                yield self.last

    def fault(self) -> Optional[re.Match[str]]:
        """Where its input ended by a fault, and why, as it told, or as its last line says."""
        return FAULT.search(self.told) or FAULT.search(self.last)

    def end(self) -> None:
        """Waits for its end."""
        if not self.is_done:
            self.is_done = True
            os.close(self.out)
            self.status = os.waitstatus_to_exitcode(os.waitpid(self.process, 0)[1])
            self.err.seek(0)
            self.told = self.err.read().decode("utf-8", "replace")
            self.err.close()

    def stop(self) -> None:
        """Ends it, if it still runs."""
        if not self.is_done:
            os.kill(self.process, signal.SIGKILL)
            self.end()


class Selection:
    """A file of which the program reads what is asked for: by `select`, or by `show`. The first run begins at once, so
    that it may go on while others are taken."""

    def __init__(self, program: Program, words: Sequence[str], path: str, size: int = AT_ONCE):
        self.program, self.words, self.path, self.size = program, words, path, size
        self.faults: list[Fault] = []
        self.without_time = 0
        self.run: Optional[Run] = None
        self.problem: Optional[OSError] = None
        self.files = contextlib.ExitStack()
        try:
            self.file = self.files.enter_context(opened(path))
            self.status = os.fstat(self.file)
            self.begin(0)
        except OSError as error:
            self.problem = error

    def begin(self, at: int) -> None:
        """Begins a run at an offset."""
        os.lseek(self.file, at, os.SEEK_SET)
        self.run = Run(self.program, self.words, self.file, self.size)

    def runs(self) -> Iterator[tuple[int, Run]]:
        """Each run, with the offset at which it began; whoever takes one reads it to its end. After a fault reading
        goes on where the program frames a record next, and the fault is kept."""
        at, length = 0, self.status.st_size
        ended: Optional[tuple[int, str]] = None
        while self.run is not None:
            yield at, self.run
            found, self.run = self.run.fault(), None
            after, why = (at + int(found[1]), found[2]) if found else (length, "")
            if ended is None or after > at:
                # A record was framed here: what was skipped before it is known.
                self.faults += [] if ended is None else [Fault(*ended, at - ended[0])]
                ended = (after, why) if found else None
            if ended is None or why in ENDS:
                break
            at = next_candidate(self.file, after, length)
            if at < length:
                self.begin(at)
        if ended is not None:
            self.faults.append(Fault(*ended, 0 if ended[1] in ENDS else max(0, length - ended[0])))

    def chunks(self, is_gone: Optional[Callable[[], bool]] = None) -> Iterator[bytes]:
        """What is selected. Raises what `chunks` of a run does."""
        for _, run in self.runs():
            yield from run.chunks(self.size, is_gone)
            self.without_time += sum(int(count) for count in WITHOUT_TIME.findall(run.told))

    def places(self, is_gone: Optional[Callable[[], bool]] = None) -> Iterator[tuple[int, int]]:
        """From where to where in the file each record stands that is shown. Raises what `chunks` of a run does."""
        for at, run in self.runs():
            for line in run.lines(is_gone):
                found = PLACE.fullmatch(line)
                if found:
                    begin = at + int(found["offset"])
                    yield begin, begin + int(found["length"])

    def close(self) -> None:
        """Ends what still runs."""
        if self.run is not None:
            self.run.stop()
        self.files.close()
