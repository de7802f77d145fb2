"""crates/prove.py, over a stand-in for the toolchain, with and without --keep: each crate is begun once those below it
are built, the longest way first; it is said how far it is; what is interrupted leaves nothing behind and goes on; and
what fails is shown. What was proved is found again: first_build_sums.py."""

from __future__ import annotations

import contextlib
import os
import pty
import re
import shutil
import signal
import subprocess
import tempfile
import time
from pathlib import Path
from typing import Iterator, Sequence

from driver.program import CRATES, LIMIT
from driver.proving import prove
from driver.rows import Cases, Fact, Skipped, holds
from driver.stand_in import FIRST, NEXT, Copy

PROGRAM = ["mseed", "run", "--", "audit"]
KEEPING = ["--keep", *PROGRAM]
# Seconds for each crate, so that some are on their way when it is looked.
SLOW = "0.3"


def reckoned() -> Cases:
    """The order and what is left, by hand: c stands on b, b on a, and d on a. Several processes take seven tenths of
    the time of one, but for a crate that stands on more than 26 minutes."""
    on = {"a": set(), "b": {"a"}, "c": {"a", "b"}, "d": {"a"}}
    costs = {"a": 1.0, "b": 2.0, "c": 4.0, "d": 5.0}
    found = prove.ways(on, {crate: prove.Cost(minutes, 1) for crate, minutes in costs.items()})
    yield Fact("the longest ways up", {"a": 7.0, "b": 6.0, "c": 4.0, "d": 5.0}, found)
    for minutes, wanted in [(2.0, set()), (25.0, set()), (25.5, {"c"}), (26.5, {"b", "c", "d"})]:
        yield Fact(f"high are, with {minutes} minutes of a and 1 of b", wanted,
                   prove.high(on, {"a": prove.Cost(minutes, 1), "b": prove.Cost(1.0, 1)}))
    three = {"a": 2.0, "b": 2.0, "c": 2.0}
    for cores, left, highs, wanted in [(1, costs, set(), 12.0), (2, costs, set(), 7.0), (4, costs, set(), 4.9),
                                       (4, costs, {"c", "d"}, 6.1), (1, {"c": 4.0}, set(), 4.0),
                                       (4, {"c": 4.0}, set(), 2.8), (4, {"c": 4.0}, {"c"}, 4.0),
                                       (4, three, set(), 4.2), (4, three, {"c"}, 4.8), (2, three, {"c"}, 6.0),
                                       (8, {"d": 2.0}, set(), 1.4), (8, {"c": 9.0, "d": 8.0}, {"c", "d"}, 9.0)]:
        yield Fact(f"what is left of {left} on {cores} cores, high are {sorted(highs)}", wanted,
                   round(prove.minutes_left(left, on, highs, cores), 3))
    for cores, wanted in [(1, [1, 1, 1]), (2, [2, 1, 1]), (4, [4, 2, 1]), (8, [8, 4, 2]), (64, [8, 8, 8])]:
        yield Fact(f"the processes of a crate alone, on the longest way, beside it and high, on {cores} cores",
                   [*wanted, 1], [prove.processes(cores, standing) for standing in prove.Standing])
    yield from by_standing()
    yield from by_memory()
    yield from by_group()


def by_group() -> Cases:
    """A group of processes that may use less than the machine has, as a container; and one that may use all."""
    free, cores, there = prove.memory(), prove.processors(), prove.GROUP
    with tempfile.TemporaryDirectory() as folder:
        prove.GROUP = Path(folder)
        for name, text in [("memory.max", "300000000\n"), ("memory.stat", "anon 100000000\nfile 5000000000\n"),
                           ("cpu.max", "150000 100000\n")]:
            (prove.GROUP / name).write_text(text, encoding="ascii")
        yield Fact("GB and processors of a group that has 0.2 and one and a half", (0.2, 1),
                   (prove.memory(), prove.processors()))
        (prove.GROUP / "memory.max").write_text("max\n", encoding="ascii")
        (prove.GROUP / "cpu.max").write_text("max 100000\n", encoding="ascii")
        yield holds("of one without limits those of the machine",
                    prove.memory() > 0.2 and prove.processors() == len(os.sched_getaffinity(0)), prove.memory())
    prove.GROUP = there
    yield holds("of this one some", free > 0 and cores > 0, (free, cores))


def by_standing() -> Cases:
    """Of a crate that runs, only what is left of its way counts: the join's is the longer one until half is done."""
    build = prove.Build("mseed", ["run"], keeps=True)
    minutes = {"mseed_join": 6.0, "mseed_repack": 4.0, "mseed_text": 1.0, "mseed": 5.0}
    build.costs = {crate: prove.Cost(minutes.get(crate, 2.0), 1) for crate in build.on}
    build.ways = prove.ways(build.on, build.costs)
    yield Fact("high, alone and beside others", [prove.Standing.HIGH] * 2,
               [build.standing("mseed", True), build.standing("mseed_repack", False)])
    build.highs, build.cores = set(), 4
    beside, longest, high = prove.Standing.BESIDE, prove.Standing.LONGEST, prove.Standing.HIGH
    for crate, standing, wanted in [("mseed_steim", longest, "rt lib --jobs 2"),
                                    ("slink_feed", beside, "nice -n 5 rt lib --jobs 1"),
                                    ("mseed", high, "rt run --jobs 1")]:
        yield Fact(f"the command of {crate}, with --keep", [wanted.split()], build.steps_of(crate, standing))
    yield Fact("alone", prove.Standing.ALONE, build.standing("mseed_text", True))
    for done, repack in [(0, beside), (30, beside), (60, longest)]:
        build.running = {"mseed_join": prove.Work(time.monotonic(), None, [], CRATES, None)}
        with looked_up("mseed_join", done):
            yield Fact(f"repack beside a join of which {done} of 100 functions are checked", repack,
                       build.standing("mseed_repack", False))
            yield Fact(f"the feed beside it, with {done} checked", beside, build.standing("mseed_feed", False))
    build.highs = {"mseed_join"}
    for done, minutes, wanted in [(0, 0, 6.0), (0, 3, 3.0), (0, 9, 0.6), (75, 3, 1.5)]:
        build.running = {"mseed_join": prove.Work(time.monotonic() - 60 * minutes, None, [], CRATES, None)}
        with looked_up("mseed_join", done):
            yield Fact(f"what is left of six minutes after {minutes}, with {done} checked", wanted,
                       round(build.left_of("mseed_join"), 1))


@contextlib.contextmanager
def looked_up(crate: str, done: int) -> Iterator[None]:
    """As if a crate on its way had said that so many of a hundred functions are checked."""
    there = prove.checked
    prove.checked = lambda at: (done, 100) if at == crate else there(at)
    yield
    prove.checked = there


def by_memory() -> Cases:
    """As many as there is memory for are begun side by side, and one in any case."""
    build = prove.Build("mseed", ["run"], keeps=True)
    libraries = set(build.on) - {"mseed"}
    build.left = sorted(build.on, key=build.ways.get, reverse=True)
    build.costs, build.cores = {crate: prove.Cost(1, 2) for crate in build.on}, 4
    low = {crate for crate in libraries if not build.on[crate]}
    for free, wanted in [(0.5, 1), (3.9, 1), (4, 2), (64, len(low))]:
        build.free = free
        found = build.ready(libraries)
        yield Fact(f"with {free} GB so many of 2 GB are begun", (wanted, set()), (len(found), set(found) - low))


def compiled() -> Cases:
    """The commands of a library, of the one for C and of the program, by the compiler: over what stands below."""
    where = {name: prove.CRATES / name / "out" / "rlib" for name in ("mseed_time", "mseed_record", "mseed_steim")}
    kit = prove.kit()
    [words] = prove.steps_to("mseed_steim", 2)
    yield Fact("mseed_steim by two processes",
               [str(kit / "bin/rattle"), "build", "--crate-name", "mseed_steim", "src/lib.rt",
                "--extern", f"std={kit}/rlibs/std.rlib",
                "--extern", f"mseed_record={where['mseed_record']}/mseed_record.rlib",
                "--extern", f"mseed_time={where['mseed_time']}/mseed_time.rlib",
                "--extern", f"arrayvec={kit}/rlibs/arrayvec.rlib", "--extern", f"byteorder={kit}/rlibs/byteorder.rlib",
                "-L", f"dependency={kit}/rlibs", "-L", f"dependency={where['mseed_record']}",
                "-L", f"dependency={where['mseed_time']}",
                "--antt-project", f"{kit}/rattle/logic/antt-project.json", "--logic-built", f"{kit}/logic_built",
                "--links", "mseed_steim=", "--jobs", "2", "--statements",
                "-o", f"{where['mseed_steim']}/mseed_steim.rlib"], words)
    [words] = prove.steps_to("mseed_c", 1)
    out = prove.CRATES / "mseed_c" / "out"
    yield Fact("the library for C", ["--jobs", "1", "--crate-type", "staticlib", "--toolchain", f"{kit}/toolchain",
                                     "-o", f"{out}/libmseed_c.a"], words[words.index("--jobs"):])
    words, link = prove.steps_to("mseed", 4)
    out = prove.CRATES / "mseed" / "out"
    yield Fact("the program", ["src/main.rt", "--jobs", "4", "--toolchain", f"{kit}/toolchain", "-o", f"{out}/mseed.o"],
               [words[4], *words[words.index("--jobs"):]])
    yield Fact("and how it is linked",
               [f"{kit}/bin/rattle-link", "--target", "x86_64-unknown-linux-gnu", "--toolchain", f"{kit}/toolchain",
                "-o", f"{out}/mseed", f"{out}/mseed.o", f"{kit}/c/libos_c.a", f"{kit}/c/liblibc_c.a"], link)


def ordered(copy: Copy, words: Sequence[str]) -> Cases:
    """What is begun and when, and what is said."""
    status, (first, *others) = copy.prove(*words, RT_SLEEP="0.1")
    yield Fact("prove.py mseed ends", 0, status)
    yield holds("it says at first how long it may take", FIRST.fullmatch(first), first)
    said = [NEXT.fullmatch(line) for line in others]
    asked = {"mseed", *prove.below("mseed")}
    yield holds("then it has a line for each crate", all(said) and len(said) == len(asked), others)
    yield Fact("which counts them", [(at, len(asked)) for at in range(1, len(asked) + 1)],
               [(int(found[2]), int(found[3])) for found in said])
    yield Fact("each crate is named once", asked, {found[1] for found in said})
    yield Fact("at the end nothing is left", "0", said[-1][4])
    begun: dict[str, set[str]] = {}
    ended: set[str] = set()
    most = 0
    for word, crate in copy.logged():
        if word == "begin":
            begun[crate] = set(ended)
        else:
            ended.add(crate)
        most = max(most, len(begun) - len(ended))
    yield Fact("each crate is proved once, after those below it", [],
               [crate for crate in asked if not prove.below(crate) <= begun.get(crate, set())])
    yield holds("several side by side", min(2, len(os.sched_getaffinity(0))) <= most <= prove.MOST, most)
    yield Fact("the last is the program", "mseed", list(begun)[-1])
    status, lines = copy.prove(*words)
    looked = [("begin", "mseed"), ("end", "mseed")] if words == KEEPING else []
    yield Fact("and once more: nothing is proved", (0, [], looked), (status, lines, copy.logged()))
    yield Fact("no room is left", [], list(copy.folder.glob("crates/*/out/room")))


def ordered_alone(copy: Copy) -> Cases:
    """Without --keep."""
    yield from ordered(copy, PROGRAM)


def ordered_keeping(copy: Copy) -> Cases:
    """With it."""
    yield from ordered(copy, KEEPING)


def measured(copy: Copy) -> Cases:
    """What first proofs took is written down."""
    minutes = copy.folder / "crates" / "minutes.txt"
    head = minutes.read_text(encoding="utf-8").splitlines()[0]
    yield Fact("prove.py --measure", (0, []), copy.prove("--measure"))
    first, *rows = minutes.read_text(encoding="utf-8").splitlines()
    yield Fact("the first line stays", head, first)
    rows = {row.split()[0]: row.split()[1:] for row in rows}
    yield Fact("what was proved has another row", True,
               all(re.fullmatch(r"0\.0 0\.[0-9]", " ".join(rows[at])) for at in prove.below("mseed")))
    listed = [line.split()[0] for line in (CRATES / "minutes.txt").read_text(encoding="utf-8").splitlines()[1:]]
    yield Fact("the repository's has rows of crates alone, and each once", [],
               [at for at in listed if at not in prove.lines() or listed.count(at) > 1])


def interrupted(copy: Copy) -> Cases:
    """By each signal that ends a command: what was proved stays, and the same command goes on."""
    yield from interrupted_by(copy, PROGRAM)


def interrupted_keeping(copy: Copy) -> Cases:
    """With --keep what was kept of a check stays too."""
    yield from interrupted_by(copy, KEEPING)


def interrupted_by(copy: Copy, words: Sequence[str]) -> Cases:
    """A command that is ended by each signal, and at last killed, and called again."""
    done: set[str] = set()
    for name in (signal.SIGINT, signal.SIGTERM, signal.SIGHUP):
        run = copy.proving(*words, RT_SLEEP=SLOW)
        lines = [run.stdout.readline() for _ in range(3)]
        run.send_signal(name)
        rest = run.communicate(timeout=LIMIT)[0].splitlines()
        yield Fact(f"{name.name}: it ends",
                   (130, "Interrupted: the same command goes on with the crates that are left."),
                   (run.returncode, rest[-1]))
        log = copy.logged()
        ended = {crate for word, crate in log if word == "end"}
        yield Fact(f"{name.name}: nothing is proved twice", set(), done & ended)
        done |= {line.split(":")[0] for line in [*lines[1:], *rest[:-1]]}
        yield Fact(f"{name.name}: no room is left", [], list(copy.folder.glob("crates/*/out/room")))
        marks = {path.parents[1].name for path in copy.folder.glob("crates/*/out/proved")}
        yield Fact(f"{name.name}: of those on their way nothing counts as proved", set(),
                   {crate for word, crate in log if word == "begin" and crate not in ended} & marks)
        begun = {crate for word, crate in log if word == "begin"} if words == KEEPING else set()
        yield Fact(f"{name.name}: what was kept of a check stays", set(),
                   {at for at in begun if not (copy.folder / "crates" / at / "out" / "incremental").is_dir()})
        time.sleep(float(SLOW) * 2)
        yield Fact(f"{name.name}: nothing runs on", [], copy.logged())
    run = copy.proving(*words, RT_SLEEP=SLOW)
    run.stdout.readline()
    run.stdout.close()
    yield Fact("where nobody reads what it says, it ends and leaves no room", (True, []),
               (run.wait(LIMIT) != 0, list(copy.folder.glob("crates/*/out/room"))))
    run = copy.proving(*words, RT_SLEEP=SLOW)
    run.stdout.readline()
    run.kill()
    run.communicate(timeout=LIMIT)
    copy.logged()
    status, lines = copy.prove(*words)
    made = "stamp" if words == KEEPING else "*.rlib/format"
    built = [crate for crate in prove.below("mseed") if [*(copy.folder / "crates" / crate / "out/rlib").glob(made)]]
    yield Fact("after all of these, and one that was killed, it goes on to the end",
               (0, prove.below("mseed"), []), (status, set(built), list(copy.folder.glob("crates/*/out/room"))))


def killed(copy: Copy) -> Fact:
    """A crate whose proof the system kills."""
    status, _ = copy.prove(*PROGRAM, RT_KILLED="mseed_steim")
    log = copy.logged()
    again = log.index(("begin", "mseed_steim"), log.index(("begin", "mseed_steim")) + 1)
    open_then = [crate for word, crate in log[:again] if word == "begin" and ("end", crate) not in log[:again]]
    return Fact("one that the system kills is proved once more, by one process and with nothing beside it",
                (0, {"mseed_steim"}, ("end", "mseed_steim")), (status, set(open_then), log[again + 1]))


def failing(copy: Copy) -> Cases:
    """A crate that isn't proved: what was printed of it is shown, and nothing above it is begun."""
    status, lines = copy.prove(*PROGRAM, RT_FAILS="mseed_steim")
    yield Fact("a crate that isn't proved", (1, "fn mseed_steim::it: not proved"), (status, lines[-1]))
    yield holds("of what is well nothing is said", "fn mseed_steim::other: proved" not in lines, lines)
    begun = {crate for word, crate in copy.logged() if word == "begin"}
    above = {crate for crate in prove.lines() if "mseed_steim" in prove.below(crate)}
    yield Fact("nothing above it is begun", set(), above & begun)
    yield holds("what doesn't stand on it is proved", {"slink_feed", "slink_links"} <= begun, begun)
    # On one core each crate has one process, which the stand-in doesn't kill.
    if prove.processors() > 1:
        yield killed(copy)
    (copy.bin / "rt").unlink()
    run = subprocess.run(["/usr/bin/env", "python3", "crates/prove.py", *PROGRAM], cwd=copy.folder,
                         env=copy.environment(PATH=os.defpath), capture_output=True, text=True, check=False)
    yield Fact("with no toolchain", (2, "", "rt: not found. The toolchain's command has to be on the path: "
                                     "see README.md.\n"), (run.returncode, run.stdout, run.stderr))


def on_a_terminal(copy: Copy) -> Cases:
    """There one line moves."""
    ours, its = pty.openpty()
    run = subprocess.Popen(["python3", "crates/prove.py", *PROGRAM], cwd=copy.folder, stdin=subprocess.DEVNULL,
                           env=copy.environment(RT_SLEEP="0.1"), stdout=its, stderr=its)
    os.close(its)
    said = b""
    while True:
        try:
            more = os.read(ours, 4096)
        except OSError:
            break
        said += more
        if not more:
            break
    os.close(ours)
    first, *moved = said.decode().split("\r\033[K")
    yield Fact("on a terminal it ends", 0, run.wait(LIMIT))
    yield holds("it says at first how long it may take", FIRST.fullmatch(first.strip()), first)
    yield holds("then one line moves", len(moved) > 3 and not any("\n" in line for line in moved), moved)
    yield holds("which says how far it is",
                all(re.fullmatch(r"\d+ of \d+ crates proved, about \d+ min left(: [\w, ]*)?", line)
                    for line in moved[:-1]), moved)
    yield Fact("and is gone at the end", "", moved[-1])


def rows() -> Cases:
    """All of them."""
    yield from reckoned()
    yield from compiled() if shutil.which("rt") else [Skipped("the compiler's commands", "rt")]
    for part in ([ordered_alone, measured], [ordered_keeping], [interrupted], [interrupted_keeping], [failing],
                 [on_a_terminal]):
        with tempfile.TemporaryDirectory() as folder:
            copy = Copy(Path(folder))
            for cases in part:
                yield from cases(copy)
