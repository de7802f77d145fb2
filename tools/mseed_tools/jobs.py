"""Jobs of Slurm, which a run submits and waits for, and which it takes back where it is stopped."""

from __future__ import annotations

import os
import re
import shlex
import signal
import subprocess
import sys
from typing import IO, NamedTuple, Optional, Sequence

from mseed_tools.part_folder import Part
from mseed_tools.program import Program, ToolError, scratch
from mseed_tools.running import Bar

STOPS = (signal.SIGHUP, signal.SIGINT, signal.SIGTERM)
NUMBER = re.compile(r"(\d+)(?:;(\S+))?")
# What `scancel` says of a job that is over.
OVER = re.compile("invalid job id|already", re.IGNORECASE)
# Seconds between two looks at what was made, and for `scancel`.
PAUSE, LIMIT = 1.0, 60


class Job(NamedTuple):
    """A job: its number, its cluster where one is named, the `sbatch` that submitted it, and what that writes to."""

    number: str
    cluster: str
    process: subprocess.Popen[bytes]
    out: int
    err: IO[bytes]


class Jobs:
    """The jobs of a run, in a `with` block: where that ends by an error, and a signal is one, they are cancelled."""

    def __init__(self, program: Program, tool: str, options: Sequence[str]):
        self.program, self.tool, self.options = program, os.path.abspath(tool), options
        self.jobs: list[Job] = []
        self.processes: list[subprocess.Popen[bytes]] = []
        self.is_submitting = False
        self.signal: Optional[int] = None
        # What is ignored, as `nohup` has it, stays so.
        self.stops = [number for number in STOPS if signal.getsignal(number) != signal.SIG_IGN]

    def __enter__(self) -> Jobs:
        for number in self.stops:
            signal.signal(number, self.stop)
        return self

    def __exit__(self, _: object, error: Optional[BaseException], trace: object) -> None:
        for number in self.stops:
            signal.signal(number, signal.SIG_DFL)
        if error is not None:
            for process in self.processes:
                process.kill()
            if self.jobs:
                raise ToolError(f"{error}; {self.cancelled()}") from error

    def stop(self, number: int, _: object) -> None:
        """Ends the run; while a job is submitted, after that, so that its number is known. Who asks twice waits for
        nothing."""
        is_first, self.signal = self.signal is None, number
        if not self.is_submitting or not is_first:
            self.go_on()

    def go_on(self) -> None:
        """Raises ToolError where the run was stopped."""
        if self.signal is not None:
            raise ToolError(f"stopped by {signal.Signals(self.signal).name}")

    def submit(self, more: Sequence[str], arguments: Sequence[str]) -> Job:
        """Submits a job that runs the tool with some arguments. Raises ToolError where `sbatch` refuses."""
        command = " ".join(shlex.quote(word) for word in [sys.executable, self.tool, *arguments])
        call = ["sbatch", "--parsable", *self.options, *more, "--wrap", f"exec {command}"]
        self.is_submitting = True
        # What is written to a terminal is written at once: after the number `sbatch --wait` waits.
        out, far = os.openpty()
        err = scratch()
        try:
            process = subprocess.Popen(call, stdin=subprocess.DEVNULL, stdout=far, stderr=err, start_new_session=True,
                                       env={**os.environ, "MSEED": self.program.path})
        except OSError as error:
            raise ToolError(f"sbatch: {error.strerror}") from error
        finally:
            os.close(far)
        self.processes.append(process)
        found = number_in(out)
        if found is None:
            process.wait()
            err.seek(0)
            raise ToolError(err.read().decode("utf-8", "replace").strip() or f"sbatch: status {process.returncode}")
        self.jobs.append(Job(found[1], found[2] or "", process, out, err))
        self.is_submitting = False
        self.go_on()
        return self.jobs[-1]

    def cancelled(self) -> str:
        """Cancels all jobs that were submitted, and says so. Who stops the run once more doesn't stop that."""
        numbers = f"job{'s' * (len(self.jobs) > 1)} {', '.join(job.number for job in self.jobs)}"
        failed = ""
        for cluster in sorted({job.cluster for job in self.jobs}):
            call = ["scancel", *([f"--clusters={cluster}"] if cluster else []),
                    *(job.number for job in self.jobs if job.cluster == cluster)]
            try:
                done = subprocess.run(call, stdin=subprocess.DEVNULL, stdout=subprocess.DEVNULL, stderr=subprocess.PIPE,
                                      text=True, timeout=LIMIT, start_new_session=True, check=False)
                if done.returncode != 0 and not OVER.search(done.stderr):
                    failed = done.stderr.strip() or f"status {done.returncode}"
            except (OSError, subprocess.TimeoutExpired) as error:
                failed = str(error)
        return f"{numbers} cancelled" if not failed else f"{numbers} may still run: scancel: {failed}"


def number_in(terminal: int) -> Optional[re.Match[str]]:
    """The number of a job, and its cluster if that is named, which come from a terminal as a line."""
    text = b""
    while True:
        try:
            text += os.read(terminal, 1024)
        except OSError:
            # Nobody holds its other end any more.
            return None
        for line in text.decode("utf-8", "replace").splitlines(keepends=True):
            found = NUMBER.fullmatch(line.strip())
            if found and line.endswith("\n"):
                return found


def watch(job: Job, parts: Sequence[Part], missing: Sequence[Part]) -> None:
    """Waits for a job, and shows how far the parts are, on a terminal."""
    sizes = {os.path.basename(part.path): part.size() for part in missing}
    bar = Bar(sum(part.size() for part in parts))
    bar.add(bar.total - sum(sizes.values()), is_new=False)
    try:
        while True:
            try:
                job.process.wait(PAUSE if bar.is_drawn else None)
                return
            except subprocess.TimeoutExpired:
                names = os.listdir(os.path.dirname(parts[0].path)) if parts else []
                bar.add(sum(sizes.pop(name, 0) for name in names), is_new=True)
    finally:
        bar.end()
