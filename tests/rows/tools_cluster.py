"""`tools/slurm` and `tools/dask_audit`: over a sound tree the text and status of the program's audit of its files, one
after another; over the tree with whatever goes wrong (driver/tools.py), those of a join of all parts; what is said
where a task was killed, a file can't be read, or a part is lost; and how a run is stopped.

Slurm is a stand-in (sources/local_sbatch.py); tools_slurm has a real one. Dask is a stand-in too (sources/dask), and
runs itself on this machine where it is there."""

from __future__ import annotations

import contextlib
import os
import re
import shutil
import signal
import subprocess
import sys
import tempfile
import time
from pathlib import Path
from typing import Callable, Mapping, Optional, Sequence

from driver.program import LIMIT, PROGRAM, SOURCES
from driver.rows import NO_END, Cases, Fact, Result, Skipped, holds
from driver.tools import DAYS, TOOLS, as_others, losing, make_tree, outcome, packed, place, write_tree

DASK = "python3-distributed"
STATIONS = ["AAA", "CCC"]
# So long a tool may take that isn't to wait for anybody.
SECONDS = 100


def sound_tree(root: Path) -> list[Path]:
    """Two channels of five days without a break, and their files in order."""
    places = {place(station, "BHZ", day): b"".join(packed(f"{station}    BHZXX".encode(), day))
              for station in STATIONS for day in DAYS}
    write_tree(root, places)
    return [root / path for path in places]


def program(words: Sequence[str], input: bytes) -> Result:
    """A run of the program."""
    run = subprocess.run([str(PROGRAM), *words], input=input, capture_output=True, timeout=LIMIT, check=False)
    return Result(run.returncode, run.stdout, run.stderr)


def parts_of(paths: Sequence[Path]) -> bytes:
    """The parts of files; of one that isn't there, that of a folder, which can't be read either."""
    texts = []
    for path in paths:
        file = os.open(path if path.exists() else "/", os.O_RDONLY)
        texts.append(subprocess.run([str(PROGRAM), "audit", "--part"], stdin=file, stdout=subprocess.PIPE,
                                    check=False).stdout)
        os.close(file)
    return b"".join(texts)


class Cluster:
    """A tool, what runs it, and its environment."""

    def __init__(self, name: str, folder: Path, python: str = sys.executable, **env: str):
        self.name, self.folder, self.python = name, folder, python
        self.env = {**os.environ, "MSEED": str(PROGRAM), **env}

    def run(self, *words: str, env: Optional[Mapping[str, str]] = None) -> Result:
        """The tool."""
        run = subprocess.run([self.python, str(TOOLS / self.name), *words], stdin=subprocess.DEVNULL,
                             capture_output=True, env={**self.env, **(env or {})}, timeout=LIMIT, check=False)
        return Result(run.returncode, run.stdout, run.stderr)

    def within_limit(self, *words: str, first: Optional[Callable[[], None]] = None) -> Result:
        """The tool, which ends in a while; with all that it has started it is killed where it doesn't."""
        run = self.started(*words, first=first)
        try:
            out, err = run.communicate(timeout=SECONDS)
            return Result(run.returncode, out, err)
        except subprocess.TimeoutExpired:
            os.killpg(run.pid, signal.SIGKILL)
            return Result(NO_END, *run.communicate())

    def started(self, *words: str, env: Optional[Mapping[str, str]] = None, err: int = subprocess.PIPE,
                first: Optional[Callable[[], None]] = None) -> subprocess.Popen:
        """The tool, as a process with a group of its own."""
        return subprocess.Popen([self.python, str(TOOLS / self.name), *words], stdin=subprocess.DEVNULL,
                                stdout=subprocess.PIPE, stderr=err, env={**self.env, **(env or {})},
                                start_new_session=True, preexec_fn=first)


def both_trees(cluster: Cluster, sound: Path, files: Sequence[Path], damaged: Path) -> Cases:
    """A sound tree and the damaged one."""
    name, parts = cluster.name, cluster.folder / f"parts-{cluster.name}"
    wanted = program(["audit"], b"".join(path.read_bytes() for path in files))
    yield Fact(f"{name}: a sound tree", wanted, cluster.run("--parts", str(parts), str(sound)))
    made = made_in(parts)
    yield Fact(f"{name}: parts of a sound tree", len(files), len(made))
    yield Fact(f"{name}: a sound tree again", wanted, cluster.run("--parts", str(parts), str(sound)))
    yield Fact(f"{name}: parts that are there aren't made again", made, made_in(parts))
    lacking = sorted(made)[3]
    lacking.unlink()
    listed = cluster.folder / "list"
    listed.write_text("".join(f"{path}\n" for path in files), encoding="utf-8")
    yield Fact(f"{name}: a list, and a part that lacks", wanted,
               cluster.run("--parts", str(parts), "--list", str(listed)))
    again = made_in(parts)
    yield Fact(f"{name}: only that part was made", [lacking], [path for path in sorted(again)
                                                               if again[path] != made[path]])
    yield Fact(f"{name}: the damaged tree", program(["join", "--past-faults"], parts_of(sources_of(damaged))),
               cluster.run("--parts", f"{parts}-damaged", str(damaged)))
    yield Fact(f"{name}: no files", program(["join"], b""), cluster.run("--parts", f"{parts}-none"))
    yield Fact(f"{name}: arguments that mean nothing", 3, cluster.run("--no-such-word").status)


def sources_of(root: Path) -> list[Path]:
    """The files of a tree in their places, in the order of channels and days."""
    places = [path for path in root.rglob("XX.*") if path.parts[-3] == path.name.split(".")[1]]
    return sorted(places, key=lambda path: (path.name.rsplit(".", 3)[0], path))


def made_in(parts: Path) -> dict[Path, int]:
    """The parts that are in a folder, and when each was made."""
    return {path: path.stat().st_mtime_ns for path in parts.glob("*.part")}


def killed(cluster: Cluster, sound: Path, files: Sequence[Path], state: Path) -> Cases:
    """A task that is killed: the join doesn't run; then the run started anew makes the parts that lack."""
    parts = cluster.folder / "parts-killed"
    words = ["--parts", str(parts), "--tasks", "2", "--sbatch=--partition=all", str(sound)]
    came = cluster.run(*words, env={"KILLED": "1"})
    made = made_in(parts)
    yield holds("a task that was killed is reported",
                came.status == 2 and not came.out and b"parts are missing" in came.err, came)
    yield holds("some parts were made", 5 < len(made) < len(files), len(made))
    wanted = program(["audit"], b"".join(path.read_bytes() for path in files))
    yield Fact("the run started anew", wanted, cluster.run(*words))
    yield holds("parts that were made stay", made.items() <= made_in(parts).items())
    jobs = (state / "jobs").read_text(encoding="utf-8").splitlines()[-2:]
    array = min(2, len(files) - len(made))
    yield Fact("the jobs", [
        f"--parsable --partition=all --array=1-{array} --output={parts}/task-%a.log",
        f"--parsable --partition=all --wait --output={parts}/join.log --dependency=afterok:17 "
        "--kill-on-invalid-dep=yes"], jobs)


def not_whole(cluster: Cluster, sound: Path, files: Sequence[Path]) -> Cases:
    """Parts that lack their line of counts are none: they are made anew."""
    name, parts = cluster.name, cluster.folder / f"parts-{cluster.name}-cut"
    wanted = program(["audit"], b"".join(path.read_bytes() for path in files))
    cluster.run("--parts", str(parts), str(sound))
    first, second, third, *_ = sorted(made_in(parts))
    whole = [path.read_bytes() for path in (first, second, third)]
    # What a shell leaves where a file can't be read, what a full disk does, and a part that lacks its last line.
    first.write_bytes(b"")
    second.write_bytes(whole[1][:40])
    third.write_bytes(b"".join(whole[2].splitlines(keepends=True)[:-1]))
    yield Fact(f"{name}: parts that aren't whole", wanted, cluster.run("--parts", str(parts), str(sound)))
    yield Fact(f"{name}: they are made anew", whole, [path.read_bytes() for path in (first, second, third)])


def lost(cluster: Cluster, sound: Path, program_of: Path) -> Cases:
    """A part that is lost on its way to the program."""
    parts = cluster.folder / f"parts-{cluster.name}-lost"
    came = cluster.run("--parts", str(parts), str(sound), env={"MSEED": str(program_of)})
    yield holds(f"{cluster.name}: a part that is lost", came.status == 2 and not came.out
                and b"mseed: 9 parts, not 10\n" in came.err, came)


def unread(cluster: Cluster) -> Cases:
    """A FIFO, for which nobody waits; and with it a file and a folder that can't be read. The folder comes last."""
    root, name = cluster.folder / f"unread-{cluster.name}", cluster.name
    codes = b"AAA    BHZXX"
    places = [place("AAA", "BHZ", day) for day in DAYS]
    write_tree(root, {path: b"".join(packed(codes, day)) for path, day in zip(places, DAYS)})
    for path in places[1:3]:
        (root / path).unlink()
    os.mkfifo(root / places[1])
    none = parts_of([Path("/no/such")])
    listed = cluster.folder / f"list-{name}-fifo"
    listed.write_text(f"{root / places[0]}\n{root / places[1]}\n", encoding="utf-8")
    came = cluster.within_limit("--parts", str(cluster.folder / f"parts-{name}-fifo"), "--list", str(listed))
    yield Fact(f"{name}: a FIFO", program(["join", "--past-faults"], parts_of([root / places[0]]) + none), came)
    (root / places[2]).symlink_to("nothing")
    hidden = root / "2017/YY"
    hidden.mkdir()
    hidden.chmod(0)
    try:
        came = cluster.within_limit("--parts", str(cluster.folder / f"parts-{name}-unread"), str(root),
                                    first=as_others)
        there = [program(["audit", "--part"], (root / path).read_bytes()).out for path in places if
                 (root / path).is_file()]
    finally:
        hidden.chmod(0o755)
    wanted = program(["join", "--past-faults"], b"".join([there[0], none, none, *there[1:], none]))
    yield Fact(f"{name}: a FIFO, a file and a folder that can't be read", wanted, came)
    yield holds(f"{name}: each of them is said",
                wanted.status == 2 and [f"part {number} fault at 0 read" in wanted.err.decode()
                                        for number in (2, 3, 6)] == [True] * 3, wanted)


def killed_and_unread(cluster: Cluster, files: Sequence[Path]) -> Cases:
    """A task that is killed, and a file that can't be read: each is said, one after the other."""
    name = cluster.name
    parts, listed, none = (cluster.folder / f"{what}-{name}-both" for what in ("parts", "list", "none"))
    paths = [*files[:3], none, *files[3:]]
    listed.write_text("".join(f"{path}\n" for path in paths), encoding="utf-8")
    words = ["--parts", str(parts), "--list", str(listed), *(["--tasks", "2"] if name == "slurm" else [])]
    came = cluster.run(*words, env={"KILLED": "2"})
    missing = len(paths) - len(made_in(parts))
    line = f"{name}: {missing} parts are missing".encode()
    yield holds(f"{name}: a task that was killed, and a file that can't be read",
                missing and came.status == 2 and not came.out and line in came.err, came)
    wanted = program(["join", "--past-faults"], parts_of(paths))
    yield Fact(f"{name}: the run started anew says of the file", wanted, cluster.run(*words))
    yield holds(f"{name}: it says which part that is",
                (wanted.status, wanted.err) == (2, b"mseed: part 4 fault at 0 read\n"), wanted)


def slow(folder: Path) -> tuple[Path, Path]:
    """A program that does what the one that is tested does, but takes its time for an audit; and what notes each."""
    path, log = folder / "slow", folder / "slow-audits"
    path.write_text(f'#!/bin/sh\n[ "$1" = audit ] && {{ echo >> {log}; sleep 0.3; }}\nexec {PROGRAM} "$@"\n',
                    encoding="utf-8")
    path.chmod(0o755)
    return path, log


def stopped(cluster: Cluster, sound: Path, files: Sequence[Path], state: Path) -> Cases:
    """A run that is stopped, as by Ctrl-C, takes its jobs back."""
    path, log = slow(cluster.folder)
    wanted = program(["audit"], b"".join(one.read_bytes() for one in files))
    for name in ("SIGINT", "SIGTERM"):
        parts = cluster.folder / f"parts-{name}"
        log.unlink(missing_ok=True)
        (state / "cancelled").unlink(missing_ok=True)
        run = cluster.started("--parts", str(parts), "--tasks", "2", str(sound), env={"MSEED": str(path)})
        end = time.monotonic() + SECONDS
        # The last job is submitted while the first audits are made.
        while time.monotonic() < end and not (log.exists() and log.stat().st_size >= 3):
            time.sleep(0.01)
        run.send_signal(signal.Signals[name])
        out, err = run.communicate(timeout=SECONDS)
        yield Fact(f"slurm: {name}", (2, b"", f"slurm: stopped by {name}; jobs 17, 18 cancelled\n".encode()),
                   (run.returncode, out, err))
        yield Fact(f"slurm: {name} cancels the jobs", "17\n18\n", (state / "cancelled").read_text(encoding="ascii")
                   if (state / "cancelled").exists() else "")
        began = log.stat().st_size
        time.sleep(1)
        yield holds(f"slurm: after {name} nothing is made", log.stat().st_size == began and len(made_in(parts)) < 10,
                    (began, log.stat().st_size))
        yield Fact(f"slurm: a run after {name}", wanted, cluster.run("--parts", str(parts), str(sound)))


def kept_on(cluster: Cluster, sound: Path, files: Sequence[Path], state: Path) -> Cases:
    """A run that `nohup` protects goes on where its terminal is gone. A join that fails is said."""
    path, log = slow(cluster.folder)
    log.unlink(missing_ok=True)
    (state / "cancelled").unlink(missing_ok=True)
    run = cluster.started("--parts", str(cluster.folder / "parts-nohup"), "--tasks", "2", str(sound),
                          env={"MSEED": str(path)}, first=lambda: signal.signal(signal.SIGHUP, signal.SIG_IGN))
    end = time.monotonic() + SECONDS
    while time.monotonic() < end and not log.exists():
        time.sleep(0.01)
    run.send_signal(signal.SIGHUP)
    out, err = run.communicate(timeout=SECONDS)
    yield Fact("slurm: a run by nohup", program(["audit"], b"".join(one.read_bytes() for one in files)),
               Result(run.returncode, out, err))
    yield holds("slurm: nothing of it is cancelled", not (state / "cancelled").exists())
    failing = cluster.folder / "failing"
    failing.write_text(f'#!/bin/sh\n[ "$1" = join ] && exit 9\nexec {PROGRAM} "$@"\n', encoding="utf-8")
    failing.chmod(0o755)
    parts = cluster.folder / "parts-failing"
    came = cluster.run("--parts", str(parts), str(sound), env={"MSEED": str(failing)})
    yield Fact("slurm: a join that fails", (2, [], (
        f"slurm: all parts are made, and the join has failed; {parts}/task-*.log and join.log say why\n")),
        outcome(came))


def shown(cluster: Cluster, sound: Path) -> Cases:
    """How far the jobs are is shown on a terminal, as `sds` shows it, and cleared."""
    path, _ = slow(cluster.folder)
    near, far = os.openpty()
    run = cluster.started("--parts", str(cluster.folder / "parts-shown"), "--tasks", "2", str(sound), err=far,
                          env={"MSEED": str(path)})
    run.communicate(timeout=SECONDS)
    os.set_blocking(near, False)
    drawn = b""
    with contextlib.suppress(BlockingIOError):
        drawn = os.read(near, 2**16)
    for end in (near, far):
        os.close(end)
    line = rb"\r\[#*\.*\] +(\d+) % \d+ MB/s, \d+:\d\d:\d\d left\x1b\[K"
    yield holds("slurm: a bar on a terminal", any(0 < int(part) < 100 for part in re.findall(line, drawn)), drawn)
    yield holds("slurm: the bar is cleared", drawn.endswith(b"\r\x1b[K"), drawn[-80:])


def finding_dask(folder: Path, sound: Path, files: Sequence[Path]) -> Cases:
    """Where a Python has no Dask, another one of the path is taken; where none has it, those that were asked are named.
    From all Pythons here it is hidden by a module of that name."""
    bin, hiding = folder / "pythons", folder / "hiding"
    for made in (bin, hiding):
        made.mkdir()
    (hiding / "distributed.py").write_text("raise ImportError\n", encoding="utf-8")
    python = bin / "python3"
    python.write_text(f'#!/bin/sh\nPYTHONPATH={SOURCES / "dask"} exec {sys.executable} "$@"\n', encoding="utf-8")
    python.chmod(0o755)
    wanted = program(["audit"], b"".join(path.read_bytes() for path in files))
    bare = Cluster("dask_audit", folder, PATH=str(bin), PYTHONPATH=str(hiding))
    yield Fact("dask_audit: another Python has Dask", wanted, bare.run("--parts", str(folder / "parts-found"),
                                                                       str(sound)))
    python.write_text("#!/bin/sh\nexit 1\n", encoding="utf-8")
    asked = [path for path in (sys.executable, str(python), "/usr/bin/python3") if os.access(path, os.X_OK)]
    yield Fact("dask_audit: no Python has Dask", (2, [], (
        "dask_audit: needs Dask: Debian's python3-distributed, or the package distributed, which none of these has: "
        f"{', '.join(dict.fromkeys(asked))}\n")), outcome(bare.run(str(sound))))


def workers_killed(cluster: Cluster, files: Sequence[Path]) -> Cases:
    """Dask's own workers, of which those that come to a file are killed. What Dask reports of that isn't in the way."""
    folder = cluster.folder
    parts, listed, path = folder / "parts-workers", folder / "list-workers", folder / "killing"
    bad = folder / "bad"
    bad.write_bytes(files[0].read_bytes() + b"x")
    listed.write_text("".join(f"{one}\n" for one in [*files, bad]), encoding="utf-8")
    path.write_text(f"""\
#!{sys.executable}
import os, signal, sys
if sys.argv[1] == "audit" and os.fstat(0).st_size == {bad.stat().st_size}:
    os.kill(os.getppid(), signal.SIGKILL)
os.execv({str(PROGRAM)!r}, [{str(PROGRAM)!r}, *sys.argv[1:]])
""", encoding="utf-8")
    path.chmod(0o755)
    words = ["-j", "2", "--parts", str(parts), "--list", str(listed)]
    came = cluster.run(*words, env={"MSEED": str(path)})
    line = rb"dask_audit: \d+ parts are missing: Dask: .*killed.*; \S+/dask.log says more\n"
    yield holds("Dask: workers that were killed",
                came.status == 2 and not came.out and re.fullmatch(line, came.err), came)
    yield holds("Dask: what it reports is beside the parts", (parts / "dask.log").stat().st_size > 0)
    wanted = program(["join", "--past-faults"], parts_of([*files, bad]))
    yield Fact("Dask: the run started anew", wanted, cluster.run(*words))


def linked(cluster: Cluster, sound: Path, files: Sequence[Path]) -> Cases:
    """By a link of another name, as it may be installed, the tool's own modules are found, by workers too."""
    link = cluster.folder / "mseed-dask-audit"
    link.symlink_to(TOOLS / cluster.name)
    wanted = program(["audit"], b"".join(path.read_bytes() for path in files))
    run = subprocess.run([cluster.python, str(link), "-j", "2", str(sound)], stdin=subprocess.DEVNULL,
                         capture_output=True, env=cluster.env, timeout=LIMIT, check=False)
    yield Fact("Dask: by a link", wanted, Result(run.returncode, run.stdout, run.stderr))


def with_dask() -> Optional[str]:
    """A Python that has Dask."""
    for python in (os.environ.get("PYTHON_OF_DASK"), sys.executable, "/usr/bin/python3"):
        if python and shutil.which(python) and subprocess.run(
                [python, "-c", "import distributed"], capture_output=True, check=False).returncode == 0:
            return python
    return None


def rows() -> Cases:
    """All of them."""
    with tempfile.TemporaryDirectory() as name:
        folder = Path(name)
        sound, damaged, state = folder / "sound", folder / "damaged", folder / "state"
        files = sound_tree(sound)
        make_tree(damaged)
        (folder / "bin").mkdir()
        state.mkdir()
        for command in ("sbatch", "scancel"):
            (folder / "bin" / command).symlink_to(SOURCES / "local_sbatch.py")
        slurm = Cluster("slurm", folder, PATH=f"{folder / 'bin'}:{os.environ['PATH']}", SBATCH_STATE=str(state))
        standing_in = Cluster("dask_audit", folder, PYTHONPATH=str(SOURCES / "dask"))
        for cluster in (slurm, standing_in):
            yield from both_trees(cluster, sound, files, damaged)
            yield from not_whole(cluster, sound, files)
            yield from lost(cluster, sound, losing(folder))
            yield from unread(cluster)
            yield from killed_and_unread(cluster, files)
        yield from killed(slurm, sound, files, state)
        yield from stopped(slurm, sound, files, state)
        yield from kept_on(slurm, sound, files, state)
        yield from shown(slurm, sound)
        yield from finding_dask(folder, sound, files)
        for parts in folder.glob("parts-dask_audit*"):
            shutil.rmtree(parts)
        python = with_dask()
        if python is None:
            yield Skipped("tools/dask_audit over Dask itself", DASK)
            return
        itself = Cluster("dask_audit", folder, python)
        yield from both_trees(itself, sound, files, damaged)
        yield from workers_killed(itself, files)
        yield from linked(itself, sound, files)
