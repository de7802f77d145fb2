"""Tools that are killed between two of their calls, and machines that die, by tests/sources/crashing.c: what the calls
have left on the disk is replayed, with what wasn't synced lost, kept, or torn."""

from __future__ import annotations

import copy
import os
import shutil
import signal
import struct
from concurrent.futures import ThreadPoolExecutor
from pathlib import Path
from random import Random
from typing import Callable, Mapping, NamedTuple, Optional, Sequence

from driver.helpers import library, preloaded
from driver.rows import Cases, Fact, holds

NUMBERS = struct.Struct("<4q")
LOST, KEPT, TORN = "lost", "kept", "torn"


class Call(NamedTuple):
    """A call that was made: `c` makes a file and `m` a folder, `w` writes and `t` cuts, `s` syncs, `u` removes."""

    letter: str
    path: str
    at: int
    content: bytes


def watched(root: Path, **settings: object) -> Optional[dict[str, str]]:
    """The environment of a run whose calls below a root are watched; nothing where it can't be built."""
    made = library("crashing")
    return made and preloaded(made, CRASH_ROOT=root, **{f"CRASH_{name.upper()}": value
                                                        for name, value in settings.items()})


def calls_in(log: Path) -> list[Call]:
    """The calls that were noted."""
    content, at, calls = log.read_bytes(), 0, []
    while at < len(content):
        first, _, path_size, size = NUMBERS.unpack_from(content, at + 1)
        begin = at + 1 + NUMBERS.size
        end = begin + path_size
        calls.append(Call(chr(content[at]), content[begin:end].decode(), first, content[end : end + size]))
        at = end + size
    return calls


def put(content: bytearray, at: int, part: bytes) -> None:
    """Writes into a file, with zeros before where it is shorter."""
    content.extend(bytes(max(0, at - len(content))))
    content[at : at + len(part)] = part


class File:
    """What a file is, what it is if the machine dies now, and what was done since it was synced."""

    def __init__(self, content: bytes = b""):
        self.synced, self.now = content, bytearray(content)
        self.calls: list[Call] = []

    def do(self, call: Call) -> None:
        """Writes, cuts or syncs it."""
        if call.letter == "s":
            self.synced, self.calls = bytes(self.now), []
            return
        apply(self.now, call)
        self.calls.append(call)

    def left(self, how: str, source: Random) -> bytes:
        """What the machine leaves of it."""
        if how != TORN:
            return self.synced if how == LOST else bytes(self.now)
        content = bytearray(self.synced)
        for call in self.calls:
            fate = source.randrange(4)
            part = call.content[: source.randrange(len(call.content) + 1)] if fate == 1 else call.content
            if fate:
                apply(content, call._replace(content=bytes(len(part)) if fate == 2 else part))
        return bytes(content)


def apply(content: bytearray, call: Call) -> None:
    """Does to some content what a call does."""
    if call.letter == "w":
        put(content, call.at, call.content)
    elif call.at <= len(content):
        del content[call.at:]
    else:
        put(content, call.at, b"")


class Disk:
    """The files and folders below a root, as they are, and as they may be once the machine has died."""

    def __init__(self, root: Path):
        self.root = str(root)
        self.files: dict[str, File] = {}
        self.folders: set[str] = {self.root}
        for path in sorted(root.rglob("*")) if root.exists() else []:
            if path.is_dir():
                self.folders.add(str(path))
            else:
                self.files[str(path)] = File(path.read_bytes())
        self.names = {*self.files, *self.folders}
        self.fresh: list[tuple[str, bool]] = []

    def do(self, call: Call) -> None:
        """Does what a process has done."""
        if call.letter == "m":
            self.folders.add(call.path)
            self.fresh.append((call.path, True))
        elif call.letter == "c":
            self.files[call.path] = File()
            self.fresh.append((call.path, True))
        elif call.letter == "u":
            self.fresh.append((call.path, False))
        elif call.letter == "s" and call.path in self.folders:
            for path, is_there in self.fresh:
                if os.path.dirname(path) == call.path:
                    (self.names.add if is_there else self.names.discard)(path)
            self.fresh = [one for one in self.fresh if os.path.dirname(one[0]) != call.path]
        elif call.letter in "wts":
            self.files[call.path].do(call)
        else:
            raise ValueError(call.letter)

    def leave(self, to: Path, how: str, source: Random) -> None:
        """Makes below another root what the machine leaves."""
        names = set(self.names)
        for path, is_there in self.fresh:
            if how == KEPT or how == TORN and source.random() < 0.5:
                (names.add if is_there else names.discard)(path)

        def is_left(path: str) -> bool:
            return path == self.root or path in names and is_left(os.path.dirname(path))

        to.mkdir(parents=True)
        for folder in sorted(self.folders - {self.root}):
            if is_left(folder):
                (to / os.path.relpath(folder, self.root)).mkdir(exist_ok=True)
        for path, file in self.files.items():
            if is_left(path):
                (to / os.path.relpath(path, self.root)).write_bytes(file.left(how, source))


# What is run over a tree, in an environment: its status.
Run = Callable[[Path, Optional[Mapping[str, str]]], int]
# What is amiss with a tree, in words; nothing where it is as it has to be.
Judge = Callable[[Path], str]
KILLED = -signal.SIGKILL
# So many trials at once.
AT_ONCE = 4


class Trials:
    """A tool over a tree that begins empty: killed, or with its machine, at each of its calls, and gone on with. `held`
    judges a tree once a run has ended, with one of some statuses, `kept` one that a crash has left."""

    def __init__(self, folder: Path, run: Run, statuses: Sequence[int], held: Judge, kept: Judge):
        self.folder, self.run, self.statuses, self.held, self.kept = folder, run, statuses, held, kept

    def gone_on(self, root: Path, what: object) -> list[tuple[object, str]]:
        """What is amiss after a crash, and once the tool has run again; the tree is removed."""
        wrong = [(what, "left", self.kept(root))] if self.kept(root) else []
        status = self.run(root, None)
        if status not in self.statuses or self.held(root):
            wrong.append((what, status, self.held(root)))
        shutil.rmtree(root, ignore_errors=True)
        return wrong

    def calls(self, root: Path) -> list[Call]:
        """What a run over a tree calls."""
        log = self.folder / f"{root.name}.log"
        self.run(root, watched(root, log=log))
        return calls_in(log)

    def kills(self, name: str, most: int, seed: int) -> Cases:
        """Kills before each call, and within each write, or so many of them; every other one is followed by a second
        kill, in the next run."""
        calls = [call for call in self.calls(self.folder / "whole") if call.letter != "c"]
        ends = []

        def trial(number: int, is_half: bool) -> list[tuple[object, str]]:
            root = self.folder / f"kill{number}{is_half}"
            more = {"half": 1} if is_half else {}
            ends.append(self.run(root, watched(root, at=number, **more)))
            if number % 2:
                self.run(root, watched(root, at=1 + number // 2 % 40, **more))
            return self.gone_on(root, (number, is_half))

        with ThreadPoolExecutor(AT_ONCE) as pool:
            plans = [(number, is_half) for number in range(1, len(calls) + 2) for is_half in (False, True)
                     if not is_half or number <= len(calls) and calls[number - 1].letter == "w"]
            chosen = plans if len(plans) <= most else Random(seed).sample(plans, most)
            wrong = [one for some in pool.map(lambda plan: trial(*plan), chosen) for one in some]
        yield Fact(f"{name}: killed between two of {len(calls)} calls, {len(chosen)} times", [], wrong)
        yield holds(f"{name}: they were killed", ends.count(KILLED) >= len(chosen) * 8 // 10, (len(chosen), ends))

    def errors(self, name: str, most: int, seed: int) -> Cases:
        """Calls that fail, each in a run of its own, or so many of them."""
        numbers = list(range(1, 1 + sum(call.letter != "c" for call in self.calls(self.folder / "unfailing"))))
        chosen = numbers if len(numbers) <= most else Random(seed).sample(numbers, most)

        def trial(number: int) -> list[tuple[object, str]]:
            root = self.folder / f"error{number}"
            self.run(root, watched(root, fail=number))
            return self.gone_on(root, number)

        with ThreadPoolExecutor(AT_ONCE) as pool:
            wrong = [one for some in pool.map(trial, chosen) for one in some]
        yield Fact(f"{name}: a call of {len(numbers)} fails, {len(chosen)} times", [], wrong)

    def deaths(self, name: str, most: int, seed: int) -> Cases:
        """Machines that die after each call, of a run over nothing and of one that goes on after a death. What wasn't
        synced is lost, or kept, or torn."""
        source, root, plans = Random(seed), self.folder / "first", []
        for turn in range(2):
            begun = Disk(root)
            calls = self.calls(root)
            plans += [(turn, begun, calls, at, how) for at in range(len(calls) + 1)
                      for how in (LOST, KEPT, TORN, TORN)]
            root = self.folder / "second"
            if turn == 0:
                replayed(copy.deepcopy(begun), calls[: len(calls) * 2 // 3]).leave(root, TORN, source)
        chosen = plans if len(plans) <= most else source.sample(plans, most)

        def trial(number: int) -> list[tuple[object, str]]:
            turn, begun, calls, at, how = chosen[number]
            root = self.folder / f"death{number}"
            replayed(copy.deepcopy(begun), calls[:at]).leave(root, how, Random(seed + number))
            return self.gone_on(root, (turn, at, how))

        with ThreadPoolExecutor(AT_ONCE) as pool:
            wrong = [one for some in pool.map(trial, range(len(chosen))) for one in some]
        yield Fact(f"{name}: the machine dies, {len(chosen)} times of {len(plans)}", [], wrong)
        yield holds(f"{name}: there was much that can die", len(plans) > 200, len(plans))


def replayed(disk: Disk, calls: Sequence[Call]) -> Disk:
    """A disk after some calls."""
    for call in calls:
        disk.do(call)
    return disk
