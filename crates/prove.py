#!/usr/bin/env python3
"""Proves and builds a crate, and before it the libraries that it stands on, side by side.

    prove.py [--keep] CRATE [lib | run -- ARGUMENT ..]
    prove.py --gate
    prove.py --measure

Each library is proved once those below it are, as `rt ci` proves it: it reads what those promise, and not how that was
proved. Those on the longest way to the crate come first, by the minutes of minutes.txt. Then the crate itself is built,
and run, where that is asked for. What is proved already is left as it is. How far it is stands in a line that is
written over on a terminal, and elsewhere in a line for each crate. When what was interrupted is called again, the
crates that were proved by then stay proved.

What was proved is known by checksums, and never by the times of files: of all that a crate was made of, which is its
own and the lower crates' sources, their lines of crates.txt, HANDLES and the toolchain's version, and of what it was
built to. So each crate is proved in a room of its own, over a copy of its sources, of which the checksums are taken
before the proof begins. What doesn't fit them when all is done isn't called proved: the call fails, and says which
crate has changed.

With --keep, or where `rt check` has kept something of one of the crates and something has to be proved, each is proved
by `rt lib`, which keeps what the next check goes on from, and reads the proofs below. Its room has copies of the lower
crates too, and links to what they were built to. What comes of it is moved to its folder `out`, where `rt` finds it.

With --gate it runs the toolchain's gate, `rt ci`, which proves every crate from nothing, and what that has built is
found again as what was proved without --keep. An edit of crates/NAME/must-fail that shows nothing of a contract, which
`rt ci` lets pass, is counted as failed.

With --measure nothing is proved: what the last proof of each crate without --keep took is written to minutes.txt.
"""

from __future__ import annotations

import argparse
import contextlib
import enum
import fcntl
import functools
import hashlib
import math
import os
import re
import shutil
import signal
import subprocess
import sys
import time
from pathlib import Path
from typing import Iterable, NamedTuple, Optional, Sequence

CRATES = Path(__file__).resolve().parent
ROOT = CRATES.parent
MINUTES = CRATES / "minutes.txt"
SOURCES = ["src", "specs", "proofs"]
# In a crate's folder `out`: what those above need of a library, what checks keep for the next one, where it is proved
# with --keep, what was printed there, and what its last proof without took.
BUILT, KEPT, ROOM, LOG, TAKEN = "rlib", "incremental", "room", "log", "taken"
# What `rt` says of a crate on its way: how many functions it has checked of how many.
SO_FAR = r"^so far: (\d+) of (\d+) functions checked"
# Where the checksums of a crate's last proof stand.
PROVED = "proved"
# What `rt` reads of a program besides its sources.
GIVEN = ["args", "status"]
# So many crates at the same time, and so many processes for one: more gain nothing.
MOST, PROCESSES = 4, 8
# The machine for which a program is made.
TARGET = "x86_64-unknown-linux-gnu"
# Of a crate that isn't in minutes.txt: bytes of sources that take a minute, and memory.
BYTES_A_MINUTE, MEMORY = 150_000, 2.5
# With --keep each process of a crate reads for itself what was proved below it. Where that took more than so many
# minutes, several are hardly faster than one; elsewhere they take such a share of the time of one.
READ, SHORTER = 26, 0.7
# How much more memory several processes take than one.
SHARED = 1.3
# A crate that isn't on the longest way leaves that one the larger part of the processors, but isn't kept waiting by it.
LATER = ["nice", "-n", "5"]
# Where the system says what this process and those beside it in its group may use.
GROUP = Path("/sys/fs/cgroup")
# The status of `rt` where the system killed a proof, most likely for memory.
KILLED = 256 - signal.SIGKILL
# What a proof prints of all that is well.
IS_WELL = re.compile(r": proved$|modules loaded=")
# What `rt` says of an edit of must-fail: by its name or, where it isn't at its place, by its path. It shows nothing of
# a contract where it can't be applied or read, and where only its shape was refused or no reason is given.
TRIED = re.compile(r"rt: (?:must-fail )?(\S+): (.*)")
BAD, SHAPE = re.compile("BAD EDIT: "), re.compile(r"refused, as it must be(?: \(only because |$)")
COUNTED = re.compile(r"(\d+) passed, (\d+) failed(.*)\n?")
# Seconds from one look at what runs to the next.
TURN = 0.1


class Cost(NamedTuple):
    """What the first proof of a crate takes: minutes of processors, and GB of memory."""

    minutes: float
    memory: float


class Proof(NamedTuple):
    """A crate's proof, by checksums: of all that it was made of, of what the crates below it were built to then, and of
    what it was built to itself."""

    made_of: str
    over: str
    built: str


class Work(NamedTuple):
    """A crate that is being proved: since when, by which process, by which commands after that one, where, and what is
    known of the proof, if it isn't run alone; and what seconds of processors and GB the commands before took."""

    began: float
    process: subprocess.Popen
    steps: list[list[str]]
    folder: Path
    proof: Optional[Proof]
    seconds: float = 0
    peak: float = 0


class Standing(enum.Enum):
    """How a crate stands among those that run: there is no other; its way up is the longest one; or it isn't, and the
    crate runs beside that one. Or, with --keep, high, on so much that it hardly gains by a second process."""

    ALONE, LONGEST, BESIDE, HIGH = range(4)


def lines_of(root: Path) -> dict[str, str]:
    """The line of each crate in a folder's crates.txt."""
    text = (root / "crates.txt").read_text(encoding="utf-8")
    return {line.partition(":")[0].split()[0]: line for line in text.splitlines() if ":" in line and line[0] != "#"}


@functools.lru_cache(maxsize=None)
def lines() -> dict[str, str]:
    """The lines of crates.txt, as they were when this began."""
    return lines_of(ROOT)


def below(crate: str) -> set[str]:
    """The crates of the repository that one stands on."""
    used = [word for word in lines()[crate].partition(":")[2].split() if word in lines()]
    return {at for word in used for at in [word, *below(word)]}


def files_in(*folders: Path) -> list[Path]:
    """The files in these folders and below them, in order."""
    return [Path(at) / name for folder in folders for at, _, names in sorted(os.walk(folder)) for name in sorted(names)]


def cost_of(crate: str) -> Cost:
    """What the first proof of a crate takes, as it was measured, or else by the size of its sources."""
    for line in MINUTES.read_text(encoding="utf-8").splitlines() if MINUTES.exists() else []:
        if line.split()[:1] == [crate]:
            return Cost(*map(float, line.split()[1:]))
    files = files_in(*(CRATES / crate / part for part in SOURCES))
    return Cost(sum(file.stat().st_size for file in files) / BYTES_A_MINUTE, MEMORY)


def ways(on: dict[str, set[str]], costs: dict[str, Cost]) -> dict[str, float]:
    """The minutes of each crate and of those above it, by the longest way up."""
    found: dict[str, float] = {}
    for crate in sorted(on, key=lambda crate: -len(on[crate])):
        found[crate] = costs[crate].minutes + max((way for at, way in found.items() if crate in on[at]), default=0)
    return found


def high(on: dict[str, set[str]], costs: dict[str, Cost]) -> set[str]:
    """The crates that hardly gain by a second process, by the minutes of those below them."""
    return {crate for crate, those in on.items() if sum(costs[at].minutes for at in those) > READ}


def minutes_left(left: dict[str, float], on: dict[str, set[str]], highs: set[str], cores: int) -> float:
    """The minutes by the clock until crates are proved of which so many minutes of processors are left: the one that
    waits for all others has its own, and those of the others are on all cores, unless their longest way is longer."""
    clock = {at: Cost(minutes * (SHORTER if cores > 2 and at not in highs else 1), 0) for at, minutes in left.items()}
    for crate, cost in clock.items():
        others = {at: minutes for at, minutes in left.items() if at != crate}
        if others.keys() <= on[crate]:
            return cost.minutes + (minutes_left(others, on, highs, cores) if others else 0)
    return max(math.fsum(left.values()) / cores, *ways({at: on[at] for at in left}, clock).values())


def processes(cores: int, standing: Standing) -> int:
    """How many processes prove a crate: no more than there are processors for, since each takes processor time of its
    own besides what it shares, and more on the longest way than beside it."""
    most = {Standing.ALONE: cores, Standing.LONGEST: cores // 2, Standing.BESIDE: cores // 4, Standing.HIGH: 1}
    return min(max(most[standing], 1), PROCESSES)


def memory() -> float:
    """The GB that are free, by what the system or the group of processes says."""
    found = re.search(r"MemAvailable: +(\d+) kB", Path("/proc/meminfo").read_text(encoding="ascii"))
    free = int(found[1]) * 1024
    with contextlib.suppress(OSError, TypeError, ValueError):
        used = re.search(r"^anon (\d+)$", (GROUP / "memory.stat").read_text(encoding="ascii"), re.MULTILINE)
        free = min(free, int((GROUP / "memory.max").read_text(encoding="ascii")) - int(used[1]))
    return free / 1e9


def processors() -> int:
    """The processors on which this process may run, or as many as its group has the time of."""
    found = len(os.sched_getaffinity(0))
    with contextlib.suppress(OSError, ValueError):
        quota, period = map(int, (GROUP / "cpu.max").read_text(encoding="ascii").split())
        found = min(found, max(quota // period, 1))
    return found


@functools.lru_cache(maxsize=None)
def version() -> str:
    """What the toolchain says that it is."""
    return subprocess.run(["rt", "version"], check=False, stdout=subprocess.PIPE, text=True).stdout


@functools.lru_cache(maxsize=None)
def kit() -> Path:
    """The folder of the toolchain."""
    return Path(subprocess.run(["rt", "doc"], check=False, stdout=subprocess.PIPE, text=True).stdout.strip()).parent


def library(crate: str) -> Path:
    """What those above a library read of it."""
    return CRATES / crate / "out" / BUILT / f"{crate}.rlib"


def steps_to(crate: str, jobs: int) -> list[list[str]]:
    """The commands that prove and build a crate over what those below it promise, by so many processes."""
    out, used = CRATES / crate / "out", lines()[crate].partition(":")[2].split()
    root = "main" if (CRATES / crate / "src" / "main.rt").exists() else "lib"
    externs = {at: library(at) if at in lines() else kit() / "rlibs" / f"{at}.rlib" for at in ["std", *used]}
    folders = [kit() / "rlibs", *(library(at).parent for at in sorted(below(crate)))]
    logic = ["--antt-project", kit() / "rattle/logic/antt-project.json", "--logic-built", kit() / "logic_built"]
    words = [kit() / "bin/rattle", "build", "--crate-name", crate, f"src/{root}.rt",
             *(word for at, path in externs.items() for word in ("--extern", f"{at}={path}")),
             *(word for folder in folders for word in ("-L", f"dependency={folder}")),
             *logic, "--links", f"{crate}=", "--jobs", jobs]
    toolchain = ["--toolchain", kit() / "toolchain"]
    steps = [[*words, "--statements", "-o", library(crate)]]
    if "staticlib" in lines()[crate].partition(":")[0].split():
        steps = [[*words, "--crate-type", "staticlib", *toolchain, "-o", out / f"lib{crate}.a"]]
    elif root == "main":
        made = out / f"{crate}.o"
        steps = [[*words, *toolchain, "-o", made],
                 [kit() / "bin/rattle-link", "--target", TARGET, *toolchain, "-o", out / crate, made,
                  kit() / "c/libos_c.a", kit() / "c/liblibc_c.a"]]
    return [[str(word) for word in step] for step in steps]


def has_statements() -> bool:
    """Whether this toolchain builds a library to what it promises."""
    said = subprocess.run([kit() / "bin/rattle", "build", "--help"], check=False, capture_output=True, text=True)
    return "--statements" in said.stdout


def has_kept(crate: str) -> bool:
    """Whether a check has kept something of a crate."""
    return any((CRATES / crate / "out" / KEPT).glob("*"))


def stamp(crate: str) -> Path:
    """What `rt` leaves beside a library by which it finds it again: it has none where it built what is promised."""
    return CRATES / crate / "out" / BUILT / "stamp"


def sum_of(*parts: object) -> str:
    """A checksum of these parts."""
    return hashlib.sha256(repr(parts).encode()).hexdigest()


def file_sum(file: Path) -> str:
    """The checksum of a file, or nothing where it isn't there."""
    try:
        return hashlib.sha256(file.read_bytes()).hexdigest()
    except OSError:
        return ""


def size_of(file: Path) -> int:
    """The size of a file, or -1 where it isn't there."""
    try:
        return file.stat().st_size
    except OSError:
        return -1


def own_sum(crate: str, root: Path = ROOT) -> str:
    """The checksum of what a crate itself is made of, in a folder of the same form as the repository's."""
    folder = root / "crates" / crate
    files = [(str(file.relative_to(folder)), file_sum(file)) for file in files_in(*(folder / part for part in SOURCES))]
    return sum_of(version(), file_sum(root / "HANDLES"), lines_of(root).get(crate), files)


def built_sum(crate: str) -> str:
    """The checksum of what a crate was built to, or nothing where that isn't there. In a library's file `format` the
    compiler has the sum of its other files, to which it holds them wherever it reads them."""
    out, made = CRATES / crate / "out", library(crate)
    there = [file for file in (out / crate, out / f"lib{crate}.a", made / "format") if file.is_file()]
    sizes = [(str(file.relative_to(made)), size_of(file)) for file in files_in(made)]
    return sum_of([(file.name, file_sum(file)) for file in there], sizes) if there else ""


def over_sum(crate: str) -> str:
    """The checksum of what the crates below one are built to."""
    return sum_of([(at, built_sum(at)) for at in sorted(below(crate))])


class Sums:
    """The checksums of crates, and of all below them, as they are now."""

    def __init__(self, crates: Iterable[str]):
        every = {at for crate in crates for at in [crate, *below(crate)]}
        self.own = {at: own_sum(at) for at in every}

    def made_of(self, crate: str) -> str:
        """The checksum of all that a crate is made of."""
        return sum_of(crate, self.own[crate], [(at, self.own[at]) for at in sorted(below(crate))])

    def is_proved(self, crate: str) -> bool:
        """Whether a crate was proved as it is made now, and is built to what it was built to then."""
        found = known(crate)
        return found is not None and (found.made_of, found.built) == (self.made_of(crate), built_sum(crate))

    def is_over(self, crate: str) -> bool:
        """Whether it was so over what those below it are built to now, as is wanted by what is built over them all."""
        return self.is_proved(crate) and known(crate).over == over_sum(crate)


def known(crate: str) -> Optional[Proof]:
    """What is known of a crate's last proof, if anything is."""
    with contextlib.suppress(OSError, TypeError, ValueError):
        return Proof(*(CRATES / crate / "out" / PROVED).read_text(encoding="utf-8").split())
    return None


def note(crate: str, proof: Optional[Proof]) -> None:
    """Notes what is known of a crate's proof, or that nothing is."""
    file = CRATES / crate / "out" / PROVED
    if proof is None:
        file.unlink(missing_ok=True)
    else:
        file.write_text("".join(f"{part}\n" for part in proof), encoding="ascii")


def room_of(crate: str, among: Sequence[str], moved: Sequence[str]) -> Path:
    """Makes the room in which a crate is proved, with the sources of these crates and what the others of them were
    built to; these parts of its folder `out` are moved there."""
    out = CRATES / crate / "out"
    leave_room(crate)
    room = out / ROOM
    room.mkdir(parents=True)
    shutil.copyfile(ROOT / "HANDLES", room / "HANDLES")
    (room / "crates.txt").write_text("".join(f"{lines()[at]}\n" for at in among), encoding="utf-8")
    for at in among:
        for part in SOURCES:
            if (CRATES / at / part).is_dir():
                shutil.copytree(CRATES / at / part, room / "crates" / at / part, copy_function=shutil.copyfile)
        if at != crate and library(at).is_dir():
            shutil.copytree(library(at).parent, room / "crates" / at / "out" / BUILT, copy_function=os.link)
    made = room / "crates" / crate
    (made / "out").mkdir(parents=True)
    for name in GIVEN:
        if (CRATES / crate / name).is_file():
            shutil.copyfile(CRATES / crate / name, made / name)
    for part in moved:
        if (out / part).exists():
            (out / part).rename(made / "out" / part)
    return room


def checked(crate: str) -> tuple[int, int]:
    """How many functions of a crate on its way are checked, of how many; (0, 0) where that isn't known."""
    with contextlib.suppress(FileNotFoundError):
        log = (CRATES / crate / "out" / LOG).read_text(encoding="utf-8", errors="replace")
        for done, of in re.findall(SO_FAR, log, re.MULTILINE)[-1:]:
            return int(done), int(of)
    return 0, 0


def leave_room(crate: str) -> None:
    """Moves what was made and kept in a crate's room to its folder `out`, also of a room that was left behind."""
    out = CRATES / crate / "out"
    for part in (out / ROOM / "crates" / crate / "out").glob("*"):
        shutil.rmtree(out / part.name, ignore_errors=True)
        part.rename(out / part.name)
    shutil.rmtree(out / ROOM, ignore_errors=True)


def begun(step: Sequence[str], folder: Path, log: Path) -> subprocess.Popen:
    """A command that has begun, in a group of its own, so that it can be ended with all that it began. Not in a session
    of its own: Linux gives each session the same share of the processors, whatever the priorities."""
    with log.open("ab") as file:
        return subprocess.Popen(step, cwd=folder, stdin=subprocess.DEVNULL, stdout=file, stderr=file,
                                preexec_fn=os.setpgrp)


def is_killed(status: int) -> bool:
    """Whether a command ended so since the system killed it, or what `rt` began."""
    return os.WIFEXITED(status) and os.WEXITSTATUS(status) == KILLED \
        or os.WIFSIGNALED(status) and os.WTERMSIG(status) == signal.SIGKILL


def is_locked(folder: int) -> bool:
    """Keeps others out of a crate's folder, as `rt` does, unless one of them works there."""
    try:
        fcntl.flock(folder, fcntl.LOCK_EX | fcntl.LOCK_NB)
    except BlockingIOError:
        return False
    return True


class Build:
    """The proofs of a crate and of those that it stands on, on their way."""

    def __init__(self, crate: str, command: Sequence[str], keeps: bool = False):
        self.crate, self.command = crate, command
        self.on = {at: below(at) for at in [crate, *below(crate)]}
        now = Sums(self.on)
        # Whoever asks for the crate itself needs nothing else where it is proved.
        has_all = bool(command) and not keeps and now.is_proved(crate)
        self.keeps = keeps or not has_all and (any(map(has_kept, self.on)) or not has_statements())
        self.costs = {at: cost_of(at) for at in self.on}
        self.highs = high(self.on, self.costs) if self.keeps else set()
        self.cores, self.free = processors(), memory()
        self.ways = ways(self.on, self.costs)
        ordered = sorted(self.on, key=self.ways.get, reverse=True)
        lacking = set() if has_all else self.lacking(now)
        self.left = [at for at in ordered if at != crate and at in lacking]
        has_all = has_all or not self.left and crate not in lacking
        # Nothing is said where nothing has changed: the last one is run, or `rt` looks at it, all the same.
        self.left += [crate] if command and (self.keeps or not has_all or command[0] == "run") else []
        self.asked = 0 if has_all else len(self.left)
        # Proved without --keep, so that `rt` doesn't find them.
        self.anew = [] if keeps else [at for at in self.left if self.keeps and at != crate and now.is_proved(at)]
        self.running: dict[str, Work] = {}
        self.failed: list[str] = []
        # Those that have changed since their proof began.
        self.changed: list[str] = []
        # Those that were killed once: each is tried once more with nothing beside it, by one process.
        self.killed: set[str] = set()
        # Minutes of processors that those took that are done, and that they were to take.
        self.used = self.expected = 0.0
        self.is_shown, self.shown, self.is_stopped = sys.stdout.isatty(), "", False

    def lacking(self, now: Sums) -> set[str]:
        """The crates that have to be proved. Where checks keep something, `rt` has to find what was built."""
        found: set[str] = set()
        for at in sorted(self.on, key=lambda at: len(self.on[at])):
            is_last = at == self.crate
            is_found = now.is_proved(at) and (is_last or stamp(at).exists()) if self.keeps else now.is_over(at)
            # What the compiler built fits what stands below it as that was then.
            if not is_found or not self.keeps and found & self.on[at]:
                found.add(at)
        return found

    def pace(self) -> float:
        """How many times the minutes of minutes.txt a crate takes here, by those that are done."""
        return min(max(self.used / self.expected, 0.2), 5) if self.expected > 1 else 1

    def left_of(self, crate: str) -> float:
        """The minutes of processors that a crate that runs still takes: by the functions that it has checked, or else
        by the time that has gone. A single process counts none before it is done."""
        minutes = {crate: self.costs[crate].minutes}
        whole = 60 * self.pace() * minutes_left(minutes, self.on, self.highs, self.cores)
        done, of = checked(crate)
        share = done / of if done else (time.monotonic() - self.running[crate].began) / max(whole, 1)
        return self.costs[crate].minutes * max(1 - share, 0.1)

    def standing(self, crate: str, is_alone: bool) -> Standing:
        """How a crate that is about to begin stands among those that run, of whose ways up only what is left counts."""
        if crate in self.highs:
            return Standing.HIGH
        if is_alone:
            return Standing.ALONE
        ways = [self.ways[at] - self.costs[at].minutes + self.left_of(at) for at in self.running]
        return Standing.LONGEST if self.ways[crate] >= max(ways, default=0) else Standing.BESIDE

    def minutes(self) -> int:
        """About so many minutes are left."""
        left = {at: self.costs[at].minutes for at in self.left} | {at: self.left_of(at) for at in self.running}
        return round(self.pace() * minutes_left(left, self.on, self.highs, self.cores)) if left else 0

    def text(self) -> str:
        """How far it is."""
        done = self.asked - len(self.left) - len(self.running)
        return f"{done} of {self.asked} crates proved, about {self.minutes()} min left"

    def show(self, ended: str = "") -> None:
        """Says how far it is: on a terminal over and over in one line, and elsewhere in one for each crate."""
        if self.is_shown and self.asked:
            running = [f"{at} {done} of {of}" if done else at for at in self.running for done, of in [checked(at)]]
            line = f"{self.text()}{': ' if running else ''}{', '.join(running)}"
            line = line[:shutil.get_terminal_size().columns - 1]
            print(f"\r\033[K{line}" if line != self.shown else "", end="", flush=True)
            self.shown = line
        elif ended and self.asked:
            print(f"{ended}: {self.text()}", flush=True)

    def close(self, last: str = "") -> None:
        """Ends what is said by a last line, or by none."""
        print("\r\033[K" * bool(self.shown) + f"{last}\n" * bool(last), end="", flush=True)

    def ready(self, crates: set[str]) -> list[str]:
        """Those of these crates that can begin: those below them are proved, and there is memory for them."""
        waited, found = {*self.left, *self.running}, []
        taken = sum(self.costs[at].memory for at in self.running)
        for at in self.left:
            is_first = not self.running and not found
            taken += self.costs[at].memory
            has_room = len(self.running) + len(found) < min(MOST, self.cores) and taken <= self.free \
                and not self.killed & {at, *self.running, *found}
            if at in crates and not self.on[at] & waited and (is_first or has_room):
                found.append(at)
            else:
                taken -= self.costs[at].memory
        return found

    def steps_of(self, crate: str, standing: Standing) -> list[list[str]]:
        """The commands that prove a crate, one after another, and run it where that is asked for."""
        verb, *arguments = self.command if crate == self.crate else ["lib"]
        jobs = 1 if crate in self.killed else processes(self.cores, standing)
        if self.keeps:
            steps = [["rt", verb, "--jobs", str(jobs), *arguments]]
        else:
            steps = steps_to(crate, jobs) if self.asked else []
            steps += [[str(CRATES / crate / "out" / crate), *arguments[1:]]] if verb == "run" else []
        return [[*(LATER if standing is Standing.BESIDE else []), *step] for step in steps]

    def start(self, crate: str, is_alone: bool) -> None:
        """Begins a crate, in a room of its own; one that is run alone, in its folder."""
        steps = self.steps_of(crate, self.standing(crate, is_alone))
        out, folder, proof = CRATES / crate / "out", CRATES / crate, None
        self.left.remove(crate)
        if self.keeps or self.asked:
            among = [crate, *(self.on[crate] if self.keeps else [])]
            room = room_of(crate, among, [BUILT, KEPT, crate, f"{crate}.stamp"] if self.keeps else [])
            folder, now = room / "crates" / crate, Sums([crate])
            now.own.update({at: own_sum(at, room) for at in among})
            if not all(map(now.is_proved, self.on[crate])):
                # Something below it has changed.
                leave_room(crate)
                self.left.clear()
                return
            proof = Proof(now.made_of(crate), over_sum(crate), "")
            note(crate, None)
        if proof and not self.keeps:
            # Of what `rt` built there is no mark that it would find any more.
            shutil.rmtree(out / BUILT, ignore_errors=True)
            (out / BUILT).mkdir()
        (out / LOG).write_bytes(b"")
        self.running[crate] = Work(time.monotonic(), begun(steps[0], folder, out / LOG), steps[1:], folder, proof)

    def end(self, crate: str, status: int) -> None:
        """What has ended is moved where it belongs, and counted."""
        work = self.running.pop(crate)
        out = CRATES / crate / "out"
        leave_room(crate)
        if is_killed(status) and crate not in self.killed:
            self.killed.add(crate)
            self.left.insert(0, crate)
            return
        if status:
            self.failed.append(crate)
            self.left = [at for at in self.left if crate not in self.on[at]]
            return
        if work.proof and work.proof.over == over_sum(crate):
            note(crate, work.proof._replace(built=built_sum(crate)))
        if work.proof and not self.keeps:
            (out / TAKEN).write_text(f"{work.seconds / 60:.1f} {work.peak:.1f}\n", encoding="ascii")
            self.used += work.seconds / 60
            self.expected += self.costs[crate].minutes
        (out / LOG).unlink()
        self.show(crate)

    def wait(self) -> None:
        """Waits for a turn, and ends what has ended in it, or goes on to its next command."""
        time.sleep(TURN)
        for crate, work in list(self.running.items()):
            found, status, usage = os.wait4(work.process.pid, os.WNOHANG)
            if found:
                work.process.returncode = status
                work = work._replace(seconds=work.seconds + usage.ru_utime + usage.ru_stime,
                                     peak=max(work.peak, usage.ru_maxrss / 1e6 * SHARED))
                self.running[crate] = work
                if status or not work.steps:
                    self.end(crate, status)
                else:
                    step, *steps = work.steps
                    process = begun(step, work.folder, CRATES / crate / "out" / LOG)
                    self.running[crate] = work._replace(process=process, steps=steps)

    def go_on(self, crates: set[str]) -> None:
        """Proves these crates, until no more can be."""
        while not self.is_stopped and (self.running or self.ready(crates)):
            ready = self.ready(crates)
            is_alone = len(self.running) + len(ready) == 1
            for crate in ready:
                # Nothing more is begun where something has changed.
                if crate in self.left:
                    self.start(crate, is_alone)
            self.show()
            self.wait()

    def prove(self, crates: set[str], held: set[str]) -> None:
        """Proves these crates, once nobody else works in those that are held, and looks whether that still is so."""
        if not crates & set(self.left):
            return
        with contextlib.ExitStack() as locks:
            for crate in sorted(held):
                folder = os.open(CRATES / crate, os.O_RDONLY)
                locks.callback(os.close, folder)
                while not is_locked(folder) and not self.is_stopped:
                    time.sleep(TURN)
            self.go_on(crates)
            now = Sums(self.on)
            if not self.failed and not self.is_stopped and not all(map(now.is_proved, crates)):
                self.changed = self.lowest_changed(now)
                self.left.clear()

    def lowest_changed(self, now: Sums) -> list[str]:
        """The crates that have changed since their proof began, but for those above another one; or, if none has, since
        what they were built to was replaced, the last one."""
        found = {at for at in self.on if not known(at) or known(at).made_of != now.made_of(at)}
        return sorted(at for at in found if not found & self.on[at]) or [self.crate]

    def run(self) -> int:
        """Proves what isn't built, and says why where that can't be. The status is 0 where all is proved."""
        for name in (signal.SIGINT, signal.SIGTERM, signal.SIGHUP):
            signal.signal(name, self.stop)
        try:
            if self.asked:
                print(f"Proving and building: about {self.minutes()} min for {self.asked} crates.", flush=True)
            if self.anew:
                print(f"Of these {len(self.anew)} are proved, but not for checks, which have kept something here: they "
                      "are proved once more, so that checks go on from them.", flush=True)
            libraries = set(self.on) - {self.crate}
            self.prove(libraries, libraries)
            self.prove({self.crate}, set(self.on))
        finally:
            self.leave()
        self.close("Interrupted: the same command goes on with the crates that are left." if self.is_stopped else "")
        for crate in self.changed:
            print(f"{crate} has changed since its proof began: the same command proves it once more.")
        for crate in [] if self.is_stopped else self.failed:
            log = (CRATES / crate / "out" / LOG).read_text(encoding="utf-8", errors="replace")
            print(*(line for line in log.splitlines() if not IS_WELL.search(line)), sep="\n")
        return 130 if self.is_stopped else 1 if self.failed or self.changed else 0

    def stop(self, *_: object) -> None:
        """Ends the run soon, as Ctrl-C asks for."""
        self.is_stopped = True

    def leave(self) -> None:
        """Ends what runs, and leaves what was kept where the next call finds it."""
        for crate, work in self.running.items():
            with contextlib.suppress(ProcessLookupError):
                os.killpg(work.process.pid, signal.SIGTERM)
            work.process.wait()
            leave_room(crate)


def idle_edit(line: str) -> Optional[tuple[str, int]]:
    """The edit of must-fail of which `rt` says in a line that it shows nothing of a contract, and how many times it
    counts that as passed: it was refused for its shape alone, or is bad. Nothing where the line says something else."""
    found = TRIED.match(line)
    if not found or not (SHAPE.match(found[2]) or BAD.match(found[2])):
        return None
    return found[1], 1 if SHAPE.match(found[2]) else 0


def run_gate() -> tuple[int, int]:
    """Runs `rt ci` and shows what it prints: its status, and how many edits show nothing. Those are named, and counted
    as failed in the last line."""
    idle, last = [], None
    with subprocess.Popen(["rt", "ci"], cwd=ROOT, stdout=subprocess.PIPE, stderr=subprocess.STDOUT, text=True,
                          errors="replace") as run:
        for line in run.stdout:
            print(last[0] if last else "", end="")
            last = COUNTED.match(line)
            print("" if last else line, end="", flush=True)
            idle += filter(None, [idle_edit(line)])
    if idle:
        print(f"FAILED, since they show nothing of a contract: {', '.join(edit for edit, _ in idle)}")
    if last:
        passed, failed = int(last[1]) - sum(counted for _, counted in idle), int(last[2]) + len(idle)
        print(f"{passed} passed, {failed} failed{last[3]}", flush=True)
    return run.returncode, len(idle)


def touches(crate: str) -> list[tuple]:
    """What tells whether a file of a crate was touched since, also where it was changed back."""
    files = files_in(*(CRATES / crate / part for part in SOURCES)) + [ROOT / "crates.txt", ROOT / "HANDLES"]
    looks = [(file, file.stat()) for file in files]
    return [(file, look.st_ino, look.st_size, look.st_mtime_ns, look.st_ctime_ns) for file, look in looks]


def gate() -> int:
    """Runs the toolchain's gate. Where it ends well, what it has built counts as proved, unless a source was touched
    since it began: it proves the files themselves, and not a copy."""
    for crate in lines():
        # The gate would put back what it finds in place of its own.
        if not stamp(crate).exists():
            shutil.rmtree(CRATES / crate / "out" / BUILT, ignore_errors=True)
    # Ctrl-C ends the gate, which then puts back what it has laid aside.
    signal.signal(signal.SIGINT, lambda *_: None)
    before, own = {at: touches(at) for at in lines()}, {at: own_sum(at) for at in lines()}
    status, idle = run_gate()
    now = Sums(lines())
    same = {at for at in lines() if (touches(at), now.own[at]) == (before[at], own[at])}
    ours = {at for at in lines() if built_sum(at) and not stamp(at).exists()}
    for crate in [] if status else ours:
        if {crate, *below(crate)} <= same:
            # It built nothing over what it has put back.
            over = over_sum(crate) if below(crate) <= ours else "-"
            note(crate, Proof(now.made_of(crate), over, built_sum(crate)))
    return status or (1 if idle else 0)


def measure() -> None:
    """Writes what the last first proof of each crate took."""
    taken = {at: CRATES / at / "out" / TAKEN for at in lines()}
    found = {at: file.read_text(encoding="ascii").split() for at, file in taken.items() if file.exists()}
    old = [line for line in MINUTES.read_text(encoding="utf-8").splitlines()]
    kept = {line.split()[0]: line.split()[1:] for line in old if line[0] != "#"}
    head = [line for line in old if line[0] == "#"]
    rows = [" ".join([at, *{**kept, **found}[at]]) for at in lines() if at in kept or at in found]
    MINUTES.write_text("\n".join([*head, *rows, ""]), encoding="utf-8")


def main() -> int:
    """Does what the arguments ask for."""
    parser = argparse.ArgumentParser(description="Proves and builds the libraries of a crate, side by side.",
                                     epilog="Example: crates/prove.py mseed run -- --version")
    parser.add_argument("--gate", action="store_true", help="run `rt ci`, and find again what it has built")
    parser.add_argument("--measure", action="store_true", help="write minutes.txt anew, by what the last proofs took")
    parser.add_argument("--keep", action="store_true", help="keep what `rt check` goes on from")
    parser.add_argument("crate", nargs="?", choices=sorted(lines()), metavar="CRATE", help="a crate of crates.txt")
    parser.add_argument("command", nargs=argparse.REMAINDER, help="lib or run: build the crate itself, or run it")
    given = parser.parse_args()
    if given.measure:
        measure()
        return 0
    if not given.crate and not given.gate:
        parser.error("no crate is named")
    if not shutil.which("rt"):
        print("rt: not found. The toolchain's command has to be on the path: see README.md.", file=sys.stderr)
        return 2
    return gate() if given.gate else Build(given.crate, given.command, given.keep).run()


if __name__ == "__main__":
    sys.exit(main())
