#!/usr/bin/env python3
"""A stand-in for Slurm's `sbatch`, and under that name for its `scancel`.

The tasks of an array run here, one after another, while `sbatch` has ended; the job that waits for them runs after
them, and not at all where one failed. Of an array the task that $KILLED names is killed when it has made a part. As
Slurm's does, `sbatch --wait` hands out the number of its job when it ends, unless it writes to a terminal.
"""

import contextlib
import os
import re
import signal
import subprocess
import sys
import time
from pathlib import Path

STATE = Path(os.environ["SBATCH_STATE"])
ARRAY, LAST = "17", "18"


def noted(name: str, text: str) -> None:
    """Adds a line to a file of what was asked for."""
    with (STATE / name).open("a", encoding="utf-8") as file:
        file.write(f"{text}\n")


def group_of(number: str) -> Path:
    """Where the group of a job's processes is kept while it runs."""
    return STATE / f"{number}.group"


def run_tasks(count: int, command: str) -> bool:
    """Runs the tasks of an array: whether all went well."""
    folder, is_well = re.search(r"--parts (\S+)", command)[1], True
    for number in range(1, count + 1):
        env = {**os.environ, "SLURM_ARRAY_TASK_ID": str(number), "SLURM_ARRAY_TASK_MAX": str(count)}
        before = len(list(Path(folder).glob("*.part")))
        task = subprocess.Popen(["sh", "-c", command], env=env)
        while os.environ.get("KILLED") == str(number) and task.poll() is None:
            if len(list(Path(folder).glob("*.part"))) > before:
                task.send_signal(signal.SIGKILL)
            time.sleep(0.001)
        is_well = task.wait() == 0 and is_well
    return is_well


def array(count: int, command: str) -> int:
    """Submits an array."""
    for name in ("done", "failed"):
        (STATE / name).unlink(missing_ok=True)
    if os.fork():
        while not any(path.exists() for path in (group_of(ARRAY), STATE / "done", STATE / "failed")):
            time.sleep(0.001)
        print(ARRAY)
        return 0
    os.setsid()
    group_of(ARRAY).write_text(str(os.getpid()), encoding="ascii")
    nothing = os.open(os.devnull, os.O_RDWR)
    for descriptor in (1, 2):
        os.dup2(nothing, descriptor)
    is_well = run_tasks(count, command)
    group_of(ARRAY).unlink()
    (STATE / ("done" if is_well else "failed")).touch()
    os._exit(0)


def last(command: str, is_after: bool) -> int:
    """Submits a job that runs after the array, if it does, and waits for it."""
    print(LAST)
    while is_after and not (STATE / "done").exists():
        if (STATE / "failed").exists():
            return 1
        time.sleep(0.01)
    process = subprocess.Popen(["sh", "-c", command], start_new_session=True, stdout=subprocess.DEVNULL)
    group_of(LAST).write_text(str(process.pid), encoding="ascii")
    status = process.wait()
    group_of(LAST).unlink(missing_ok=True)
    return status


def cancelled(number: str) -> int:
    """Cancels a job."""
    noted("cancelled", number)
    (STATE / "failed").touch()
    with contextlib.suppress(OSError):
        os.killpg(int(group_of(number).read_text(encoding="ascii")), signal.SIGKILL)
        group_of(number).unlink()
    return 0


def main() -> int:
    """Is `sbatch`, or `scancel`."""
    words = sys.argv[1:]
    if Path(sys.argv[0]).name == "scancel":
        return max(cancelled(number) for number in words)
    at = words.index("--wrap")
    command, named = words[at + 1], dict(word.split("=", 1) for word in words[:at] if "=" in word)
    noted("jobs", " ".join(words[:at]))
    if "--array" in named:
        return array(int(re.fullmatch(r"1-(\d+)", named["--array"])[1]), command)
    return last(command, "--dependency" in named)


if __name__ == "__main__":
    sys.exit(main())
