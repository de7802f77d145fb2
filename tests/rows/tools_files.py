"""What the tools do with files of other kinds than they may expect: where they write, links, FIFOs and devices; in a
tree, FIFOs and folders that nobody may read; and folders of an archive that are named in place of its root.

Some rows need what not every user may: a device is made by root alone. Where it can't be had, they are skipped."""

from __future__ import annotations

import functools
import json
import os
import shutil
import stat
import subprocess
import sys
import tempfile
import threading
from pathlib import Path
from typing import Callable, Optional
from unittest import mock

from driver.program import PROGRAM, SAMPLES
from driver.records import record
from driver.rows import Cases, Fact, Result, Skipped, contents_of, holds, in_memory
from driver.tools import TOOLS, as_others, losing, outcome, rest, tool, write_tree

sys.path.insert(0, str(TOOLS))

import mseed_tools.files  # noqa: E402

# So long a tool may take that isn't to wait for anybody.
SECONDS = 60
SAMPLE = SAMPLES / "network_gap.mseed"
GAPS = "gaps 0 0.000000 s absent 0.000000 s overlaps 0 0.000000 s findings 0"
# A record of 16 samples at 20 a second, and the next one where it ends.
LINE = "records 1 samples 16 from 2024-01-01T00:00:00.000000 to 2024-01-01T00:00:00.800000"


@functools.lru_cache(None)
def drawn() -> bytes:
    """What `timeline` draws of the sample."""
    return tool("timeline", str(SAMPLE)).out


def led_to(link: Path) -> Optional[str]:
    """Where a link leads; nowhere, where it is none."""
    return os.readlink(link) if link.is_symlink() else None


def links(folder: Path) -> Cases:
    """A link stays, and what it leads to is replaced, whole and with its rights; a file that isn't there is made."""
    target, link = folder / "target.svg", folder / "link.svg"
    target.write_bytes(b"old")
    target.chmod(0o640)
    other = folder / "kept.svg"
    os.link(target, other)
    link.symlink_to("target.svg")
    came = tool("timeline", "--output", str(link), str(SAMPLE))
    yield Fact("timeline --output LINK", (0, b"", b"", "target.svg", drawn()),
               (*came[:3], led_to(link), target.read_bytes()))
    yield Fact("the rights of what was replaced stay", 0o640, stat.S_IMODE(target.stat().st_mode))
    yield Fact("it is replaced, and not written into", b"old", other.read_bytes())
    beyond = folder / "beyond.svg"
    beyond.symlink_to("made.svg")
    tool("timeline", "--output", str(beyond), str(SAMPLE))
    yield Fact("timeline --output LINK to nothing", (drawn(), "made.svg"), (beyond.read_bytes(), led_to(beyond)))
    neighbour = folder / "target.svg.new"
    neighbour.write_bytes(b"somebody's")
    tool("timeline", "--output", str(target), str(SAMPLE))
    yield Fact("files beside it stay", b"somebody's", neighbour.read_bytes() if neighbour.exists() else None)
    yield Fact("nothing that was begun is left", ["beyond.svg", "kept.svg", "link.svg", "made.svg", "target.svg",
                                                  "target.svg.new"], sorted(os.listdir(folder)))


def on_disk(folder: Path) -> Cases:
    """A file has its name only once its content is on the disk."""
    calls: list[str] = []

    def noted(name: str) -> Callable[..., None]:
        call = getattr(os, name)
        return lambda *words: (calls.append(name), call(*words))[1]

    path = folder / "synced"
    with mock.patch("os.fsync", noted("fsync")), mock.patch("os.replace", noted("replace")):
        mseed_tools.files.write_whole(str(path), b"content")
    yield Fact("what is called for a file that is written", (["fsync", "replace"], b"content"),
               (calls, path.read_bytes()))


def pipes(folder: Path) -> Cases:
    """A FIFO is written into."""
    fifo, came = folder / "fifo", []
    os.mkfifo(fifo)
    reader = threading.Thread(target=lambda: came.append(fifo.read_bytes()), daemon=True)
    reader.start()
    result = tool("timeline", "--output", str(fifo), str(SAMPLE))
    # Where it was replaced, whoever reads it waits for ever.
    reader.join(10)
    yield Fact("timeline --output FIFO", (0, [drawn()], True),
               (result.status, came, stat.S_ISFIFO(fifo.stat().st_mode)))


def devices(folder: Path) -> Cases:
    """A device is written into; one that is full fails, and stays as well. These have the numbers of /dev/null and
    /dev/full, and other names, so that a tool that does otherwise does no harm."""
    for name, minor, status in (("null", 3, 0), ("full", 7, 2)):
        path = folder / name
        try:
            os.mknod(path, stat.S_IFCHR | 0o666, os.makedev(1, minor))
            with open(path, "wb"):
                pass
        except OSError as error:
            yield Skipped(f"timeline --output /dev/{name}", f"a device that one may make and open here: {error}")
            continue
        came = tool("timeline", "--output", str(path), str(SAMPLE))
        err = f"timeline: {path}: No space left on device\n" if status else ""
        yield Fact(f"timeline --output /dev/{name}", (status, [], err, True),
                   (*outcome(came), stat.S_ISCHR(path.lstat().st_mode)))
    with in_memory() as file:
        run = subprocess.run([sys.executable, str(TOOLS / "timeline"), "--output", "/dev/stdout", str(SAMPLE)],
                             stdin=subprocess.DEVNULL, stdout=file, env={**os.environ, "MSEED": str(PROGRAM)},
                             timeout=SECONDS, check=False)
        yield Fact("timeline --output /dev/stdout, which has no name", (0, drawn()),
                   (run.returncode, contents_of(file)))
    came = tool("timeline", "--output", str(folder), str(SAMPLE))
    yield Fact("timeline --output FOLDER", (2, [], f"timeline: {folder}: Is a directory\n"), outcome(came))


def within_limit(words: list[str], first: Optional[Callable[[], None]] = None) -> Optional[Result]:
    """How a tool ends, if it does so in its time."""
    run = subprocess.Popen([sys.executable, str(TOOLS / words[0]), *words[1:]], stdin=subprocess.DEVNULL,
                           stdout=subprocess.PIPE, stderr=subprocess.PIPE, env={**os.environ, "MSEED": str(PROGRAM)},
                           preexec_fn=first)
    try:
        out, err = run.communicate(timeout=SECONDS)
        return Result(run.returncode, out, err)
    except subprocess.TimeoutExpired:
        run.kill()
        run.communicate()
        return None


def kept_files(folder: Path) -> Cases:
    """What tools keep: FIFOs in the place of what is kept are no reason to wait, and links stay."""
    out = folder / "fetched"
    os.mkfifo(f"{out}.numbers")
    words = ["--port", "1", "--network", "XX", "--station", "STA", "--tries", "1"]
    came = within_limit(["fetch_on", str(out), *words])
    yield Fact("fetch_on, whose numbers are a FIFO", (2, [], f"fetch_on: {out}.numbers: not a regular file\n"),
               came and outcome(came))
    sys.path.insert(0, str(TOOLS))
    from mseed_tools.held import Held
    linked = folder / "linked"
    Path(f"{linked}.numbers").symlink_to("numbers")
    held = Held(str(linked))
    held.numbers.first("XX_STA", 5)
    held.keep()
    yield Fact("fetch_on, whose numbers are a link", ("numbers", {"XX_STA": [[0, 5]]}),
               (led_to(Path(f"{linked}.numbers")), json.loads(Path(f"{linked}.numbers").read_bytes())["places"]))
    os.mkfifo(folder / "fifo")
    came = within_limit(["fetch_on", str(folder / "fifo"), *words])
    yield holds("fetch_on FIFO", came and came.status == 2 and came.err.startswith(b"fetch_on: "), came)


def day(station: str, number: int, second: int = 0, location: str = "") -> tuple[str, bytes]:
    """A file of a record, and its place."""
    codes = f"{station:5}{location:2}BHZXX".encode()
    return (f"2024/XX/{station}/BHZ.D/XX.{station}.{location}.BHZ.D.2024.{number:03}",
            record(codes=codes, day=number, second=second))


def fifo_in_tree(folder: Path) -> Cases:
    """A FIFO in the place of a file can't be read, and nobody waits for it."""
    root = folder / "with-fifo"
    write_tree(root, dict([day("AAA", 1), day("BBB", 1)]))
    fifo = "2024/XX/AAA/BHZ.D/XX.AAA..BHZ.D.2024.002"
    os.mkfifo(root / fifo)
    rest()
    came = within_limit(["sds", str(root)])
    yield Fact("sds: a FIFO in the tree", (2, [
        f"XX_AAA__BHZ days 1 {LINE} {GAPS}", f"  fault {fifo} at 0 read, 0 bytes skipped",
        f"XX_BBB__BHZ days 1 {LINE} {GAPS}",
        "files 3 bytes 256 channels 2 continuous 2 broken 0 undecoded 0 faults 1"], ""), came and outcome(came))
    for name in ("gaps", "timeline"):
        came = within_limit([name, str(root)])
        yield Fact(f"{name}: a FIFO in the tree", (2, f"{root}/{fifo}: fault at 0 read\n".encode()),
                   came and (came.status, came.err))
        came = within_limit([name, str(root / fifo)])
        yield Fact(f"{name} FIFO", (2, f"{root}/{fifo}: fault at 0 read\n".encode()), came and (came.status, came.err))


def unread_folders(folder: Path) -> Cases:
    """A folder that can't be read is a fault of its own, whatever it holds, and all others are read."""
    root = folder / "unread"
    write_tree(root, dict([day("AAA", 1), day("BBB", 1), day("CCC", 1)]))
    hidden = ["2023", "2024/XX/BBB", "2024/XX/CCC/BHZ.D", "2024/YY"]
    for path in hidden:
        (root / path).mkdir(parents=True, exist_ok=True)
        (root / path).chmod(0)
    loop = "2024/XX/AAA/BHN.D"
    (root / loop).symlink_to("BHN.D")
    (root / "2024/XX/note").write_bytes(b"x")
    rest()
    places = sorted([*hidden, loop])
    try:
        came = tool("sds", str(root), first=as_others)
        yield Fact("sds: folders that nobody may read", (2, [
            f"XX_AAA__BHZ days 1 {LINE} {GAPS}", *[f"fault {path} at 0 read, 0 bytes skipped" for path in places],
            "misplaced 2024/XX/note",
            "files 1 bytes 128 channels 1 continuous 1 broken 0 undecoded 0 faults 5"], ""), outcome(came))
        reported = json.loads(tool("sds", "--json", str(root), first=as_others).out or "{}")
        yield Fact("sds: folders that nobody may read, in JSON",
                   ([{"file": path, "at": 0, "fault": "read", "skipped": 0} for path in places], 5),
                   (reported.get("fault"), reported.get("total", {}).get("faults")))
        lines = [*(f"{root}/{path}: fault at 0 read\n" for path in places), f"{root}/2024/XX/note: misplaced\n"]
        err = "".join(lines).encode()
        for name in ("gaps", "timeline"):
            came = tool(name, str(root), first=as_others)
            yield Fact(f"{name}: folders that nobody may read", (2, err), (came.status, came.err))
        root.chmod(0)
        came = tool("sds", str(root), first=as_others)
        yield Fact("sds: a root that nobody may read", (2, [], f"sds: {root}: Permission denied\n"), outcome(came))
    finally:
        root.chmod(0o755)
        for path in hidden:
            (root / path).chmod(0o755)


def wrong_roots(folder: Path) -> Cases:
    """A folder of the archive in place of its root is named, with the root."""
    root = folder / "archive"
    write_tree(root, dict([day("AAA", 1), day("BBB", 1)]))
    (root / "2024/readme").write_bytes(b"x")
    for path, kind in (("2024", "year"), ("2024/XX", "network"), ("2024/XX/AAA", "station"),
                       ("2024/XX/AAA/BHZ.D", "channel")):
        line = f"{root}/{path}: the folder of a {kind}; the root of the archive is {root}\n"
        for name, words in (("sds", []), ("gaps", []), ("timeline", []), ("slurm", ["--parts", f"{folder}/parts"])):
            yield Fact(f"{name}: a {kind}'s folder for the root", (2, [], f"{name}: {line}"),
                       outcome(tool(name, *words, f"{root}/{path}")))
    (root / "2024").rename(folder / "some")
    yield Fact("sds: a year's folder that has another name", (2, [], (
        f"sds: {folder}/some: the folder of a year; the root of the archive is the folder above the years\n")),
        outcome(tool("sds", str(folder / "some"))))
    # A root with nothing in a place of the layout is a root all the same.
    odd = folder / "2023"
    write_tree(odd, {"XX/AAA/notes": b"x", "readme": b"x"})
    yield Fact("sds: a root without files of days", (1, [
        "misplaced XX", "misplaced readme",
        "files 0 bytes 0 channels 0 continuous 0 broken 0 undecoded 0 faults 0"], ""), outcome(tool("sds", str(odd))))


def lost_parts(folder: Path) -> Cases:
    """A part that is lost on its way to the program is reported, and not left out."""
    root, program = folder / "lost", losing(folder)
    write_tree(root, dict([day("AAA", 1), day("AAA", 2)]))
    rest()
    for name in ("sds", "gaps", "timeline"):
        came = tool(name, str(root), program=program)
        yield holds(f"{name}: a part that is lost", came.status == 2 and not came.out
                    and b"mseed: 1 parts, not 2\n" in came.err, came)


def older(folder: Path) -> Cases:
    """A program that has no such option is named, by a line."""
    path = folder / "older"
    path.write_text(f"""\
#!/bin/sh
case " $* " in
*' --expect '*) printf '%s\\n' "error: unexpected '--expect'" '' 'Usage: mseed <command>' >&2; exit 3;;
esac
exec {PROGRAM} "$@"
""", encoding="utf-8")
    path.chmod(0o755)
    yield Fact("gaps by an older program", (2, [], (
        f"gaps: {path} join --expect 2: status 3, error: unexpected '--expect'\n")),
        outcome(tool("gaps", str(SAMPLES / "two_records.mseed"), program=path)))


def installed(folder: Path) -> Cases:
    """Installed below a folder that isn't on the path, by a link of another name, a tool finds its modules and the
    program."""
    below, sample = folder / "lib" / "mseed", str(SAMPLE)
    shutil.copytree(TOOLS, below / "tools")
    (folder / "bin").mkdir()
    (folder / "bin" / "mseed").symlink_to(PROGRAM)
    (folder / "bin" / "mseed-gaps").symlink_to("../lib/mseed/tools/gaps")
    env = {word: value for word, value in os.environ.items() if word != "MSEED"}
    run = subprocess.run([sys.executable, str(folder / "bin" / "mseed-gaps"), sample], stdin=subprocess.DEVNULL,
                         capture_output=True, env={**env, "PATH": "/usr/bin:/bin"}, timeout=SECONDS, check=False)
    yield Fact("an installed tool, by a link", tool("gaps", sample), Result(run.returncode, run.stdout, run.stderr))


def rows() -> Cases:
    """All of them."""
    for some in (links, on_disk, pipes, devices, kept_files, fifo_in_tree, unread_folders, wrong_roots, lost_parts,
                 older, installed):
        with tempfile.TemporaryDirectory() as name:
            yield from some(Path(name))
