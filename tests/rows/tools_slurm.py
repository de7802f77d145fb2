"""`tools/slurm` on a Slurm of one node that is brought up here (driver/slurm.py): over a sound tree the text and status
of the program's audit of its files, one after another; over the tree with whatever goes wrong (driver/tools.py), those
of a join of all parts; a task that is killed in the middle, after which a run started anew makes what lacks; and a run
that is stopped, which takes its jobs back."""

from __future__ import annotations

import os
import re
import signal
import tempfile
import time
from collections import Counter
from concurrent.futures import ThreadPoolExecutor
from pathlib import Path
from typing import Optional, Sequence

from driver.program import LIMIT, PROGRAM
from driver.rows import Case, Cases, Fact, Result, Skipped, holds
from driver.slurm import PACKAGES, NotUp, Slurm, is_installed, slurm
from driver.tools import make_tree
from rows.tools_cluster import Cluster, made_in, parts_of, program, sound_tree, sources_of

NAME = "tools/slurm on Slurm itself"
# The audits that a task has begun when it is killed: it has made a part less.
BEGUN = 3


def of_sound(cluster: Cluster, sound: Path, wanted: Result) -> Cases:
    """A sound tree, and what is made when it is audited again."""
    parts = cluster.folder / "parts-sound"
    words = ["--parts", str(parts), "--tasks", "3", "--sbatch=--partition=all", str(sound)]
    yield Fact("Slurm: a sound tree", wanted, cluster.run(*words))
    made = made_in(parts)
    yield Fact("Slurm: parts of a sound tree", 10, len(made))
    yield Fact("Slurm: the sound tree again", wanted, cluster.run(*words))
    yield Fact("Slurm: parts that are there aren't made again", made, made_in(parts))


def of_damaged(cluster: Cluster, damaged: Path) -> Cases:
    """The damaged tree."""
    wanted = program(["join", "--past-faults"], parts_of(sources_of(damaged)))
    yield Fact("Slurm: the damaged tree", wanted, cluster.run("--parts", str(cluster.folder / "parts-damaged"),
                                                              str(damaged)))


class Slow:
    """A program that does what the one that is tested does, and names of each audit the process that wanted it. As long
    as it is held, each audit takes some seconds."""

    def __init__(self, folder: Path, seconds: float = 0.5):
        self.path, self.log, self.held = folder / "slow", folder / "requested", folder / "held"
        self.path.write_text(f'#!/bin/sh\n[ "$1" = audit ] && echo $PPID >> {self.log}\n'
                             f'[ "$1" = audit ] && [ -e {self.held} ] && sleep {seconds}\nexec {PROGRAM} "$@"\n',
                             encoding="utf-8")
        self.path.chmod(0o755)
        self.held.touch()

    def requested(self) -> list[int]:
        """The processes that called for audits, one after another."""
        return [int(word) for word in self.log.read_text(encoding="ascii").split()] if self.log.exists() else []

    def killed(self) -> Optional[int]:
        """Kills the first task that has begun some audits, and says which one."""
        end = time.monotonic() + LIMIT
        while time.monotonic() < end:
            task = next((task for task, count in Counter(self.requested()).items() if count == BEGUN), None)
            if task is not None:
                os.kill(task, signal.SIGKILL)
                return task
            time.sleep(0.01)
        return None


def of_killed(cluster: Cluster, sound: Path, wanted: Result) -> Cases:
    """A task of two that is killed: the join doesn't run. The run started anew makes the parts that lack."""
    folder, parts = cluster.folder, cluster.folder / "parts-killed"
    slow = Slow(folder)
    words, env = ["--parts", str(parts), "--tasks", "2", str(sound)], {"MSEED": str(slow.path)}
    with ThreadPoolExecutor(1) as pool:
        running = pool.submit(cluster.run, *words, env=env)
        yield holds("Slurm: a task is killed", slow.killed())
        came = running.result()
    made = made_in(parts)
    # The other task has made its five parts, or has been stopped too: not all are there.
    yield holds("Slurm: a task that was killed is reported",
                came.status == 2 and not came.out and b"parts are missing" in came.err, came)
    yield holds("Slurm: some parts were made", BEGUN - 1 <= len(made) < 10, len(made))
    slow.held.unlink()
    before = len(slow.requested())
    yield Fact("Slurm: the run started anew", wanted, cluster.run(*words, env=env))
    again = made_in(parts)
    yield holds("Slurm: parts that were made stay", made.items() <= again.items())
    yield Fact("Slurm: only the parts that lacked are made", (10, 10 - len(made)),
               (len(again), len(slow.requested()) - before))


def of_stopped(cluster: Cluster, sound: Path, run: Slurm) -> Cases:
    """Ctrl-C: no job is left. The last one waits for the first, whose tasks would take a minute."""
    folder = cluster.folder / "stopped"
    folder.mkdir()
    slow = Slow(folder, 6)
    tool = cluster.started("--parts", str(cluster.folder / "parts-stopped"), "--tasks", "2", str(sound),
                           env={"MSEED": str(slow.path)})
    end = time.monotonic() + LIMIT

    def jobs() -> set[str]:
        return set(run.outcome("squeue", "--noheader", "--format=%F").split())

    while time.monotonic() < end and not slow.requested():
        time.sleep(0.1)
    # Meanwhile the last job is submitted.
    time.sleep(2)
    tool.send_signal(signal.SIGINT)
    out, err = tool.communicate(timeout=LIMIT)
    found = re.fullmatch(rb"slurm: stopped by SIGINT; jobs (\d+), (\d+) cancelled\n", err)
    yield holds("Slurm: Ctrl-C", tool.returncode == 2 and not out and found, (tool.returncode, out, err))
    ours = {number.decode() for number in found.groups()} if found else set()
    while time.monotonic() < end and ours & jobs():
        time.sleep(0.2)
    yield holds("Slurm: no job is left", ours and not ours & jobs(), (ours, jobs()))
    made = len(made_in(cluster.folder / "parts-stopped"))
    yield holds("Slurm: most parts weren't made any more", made < 10, made)


def all_of(folder: Path) -> Sequence[Case]:
    """The rows, some of which run side by side. Raises NotUp where Slurm doesn't come up."""
    sound, damaged = folder / "sound", folder / "damaged"
    files = sound_tree(sound)
    make_tree(damaged)
    wanted = program(["audit"], b"".join(path.read_bytes() for path in files))
    with slurm(folder / "slurm") as run, ThreadPoolExecutor(4) as pool:
        cluster = Cluster("slurm", folder, **run.env)
        began = [pool.submit(list, some) for some in (of_sound(cluster, sound, wanted), of_damaged(cluster, damaged),
                                                      of_killed(cluster, sound, wanted),
                                                      of_stopped(cluster, sound, run))]
        return [case for some in began for case in some.result()]


def rows() -> Cases:
    """All of them."""
    if not is_installed():
        yield Skipped(NAME, PACKAGES)
        return
    with tempfile.TemporaryDirectory() as name:
        try:
            yield from all_of(Path(name))
        except NotUp as error:
            yield Skipped(NAME, f"a Slurm that comes up here: {error}")
