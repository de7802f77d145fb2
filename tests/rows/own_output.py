"""Output that is its own input: the regular file that standard output writes into is refused before anything is read,
whatever name it has, and as standard input too, of the five commands that read files. What isn't a regular file isn't
refused, and neither is another file with the same content.
"""

from __future__ import annotations

import os
import resource
import subprocess
import tempfile
from pathlib import Path
from typing import NamedTuple, Sequence

from driver.links import free_port
from driver.program import PROGRAM, SAMPLES
from driver.rows import NO_END, Cases, Fact, Row, Word, holds

ARCHIVE = (SAMPLES / "two_records.mseed").read_bytes()
# A file may grow to so many bytes; a program that reads what it writes is stopped there.
MOST = 1 << 20
SECONDS = 20
COMMANDS: list[list[Word]] = [["audit"], ["audit", "--each"], ["join"], ["show"], ["repack"],
                              ["repack", "--stretches"], ["select"], ["select", "--channels", "*_*_*_*"]]


class Grown(NamedTuple):
    """How a run onto a file ended: its status, standard error, the bytes that stand in the file then, and how far its
    input was read."""

    status: int
    err: bytes
    content: bytes
    read: int


def bounded() -> None:
    """No file grows without end."""
    resource.setrlimit(resource.RLIMIT_FSIZE, (MOST, MOST))


def onto(output: Path, words: Sequence[Word], input: Path = Path(os.devnull), mode: str = "ab",
         content: bytes = ARCHIVE) -> Grown:
    """A run whose standard output is appended to a file of this content, or that empties it, with this input."""
    output.write_bytes(content)
    with open(output, mode) as out, open(input, "rb") as source:
        try:
            ran = subprocess.run([PROGRAM, *words], stdin=source, stdout=out, stderr=subprocess.PIPE, check=False,
                                 timeout=SECONDS, preexec_fn=bounded)
            status, err = ran.returncode, ran.stderr
        except subprocess.TimeoutExpired:
            status, err = NO_END, b""
        read = os.lseek(source.fileno(), 0, os.SEEK_CUR)
    content = output.read_bytes()
    return Grown(status, err, content if len(content) < MOST else content[:1000], read)


def refused(word: bytes, content: bytes = ARCHIVE, reason: bytes = b"is the output") -> Grown:
    """A run that ended because this word names its output, or for another reason: nothing was read, and nothing
    written."""
    shown = bytes(byte if 32 <= byte <= 126 else ord("?") for byte in word)
    return Grown(2, b"mseed: cannot read " + shown + b": " + reason + b"\n", content, 0)


def made(folder: Path) -> tuple[Path, Path]:
    """The file that is written to, and one that can be read."""
    for name in ("out", "good"):
        (folder / name).write_bytes(ARCHIVE)
    return folder / "out", folder / "good"


def names(folder: Path) -> list[bytes]:
    """Names of the file that is written to by which it is known before it is opened: links of each kind, of which those
    that aren't UTF-8 are soft, and by a longer way."""
    room = os.fsencode(folder)
    (folder / "below").mkdir()
    out = os.path.join(room, b"out")
    for name in (b"hard", b"h\xff", b"below/h\xfe"):
        os.link(out, os.path.join(room, name))
    for name, to in ((b"soft", b"out"), (b"s\xff", b"out"), (b"s\xfes", b"s\xff"), (b"soft of hard", b"h\xff")):
        os.symlink(to, os.path.join(room, name))
    return [b"out", b"hard", b"soft", b"s\xff", b"s\xfes", b"soft of hard", b"below/../out"]


def named(folder: Path) -> Cases:
    """By each of its names, alone and behind a file that can be read."""
    out, good = made(folder)
    for name in names(folder):
        path = os.path.join(os.fsencode(folder), name)
        for command in COMMANDS:
            yield Fact(f"{command} of its output, named {name!r}", refused(path), onto(out, [*command, path]))
        yield Fact(f"select of a file, and of its output, named {name!r}", refused(path),
                   onto(out, ["select", str(good), path], good))
        yield Fact(f"select of standard input, and of its output, named {name!r}", refused(path),
                   onto(out, ["select", "-", path], good))
    for name in (b"h\xff", b"below/h\xfe"):
        path = os.path.join(os.fsencode(folder), name)
        late = refused(path)
        yield Fact(f"select of its output, named {name!r}, known once it is open",
                   late._replace(err=b"mseed: fault at 0 read\n" + late.err), onto(out, ["select", path]))
    for name in (b"hard", b"s\xff"):
        path = os.path.join(os.fsencode(folder), name)
        none = os.path.join(os.fsencode(folder), b"none\xff")
        yield Fact(f"what isn't there, before {name!r}", refused(none, reason=b"not found"),
                   onto(out, ["show", none, path]))
        yield Fact(f"what isn't there, after {name!r}", refused(path), onto(out, ["show", path, none]))
        yield Fact(f"an emptied one, named {name!r}", refused(path, b""), onto(out, ["select", path], mode="wb"))


def standard_input(folder: Path) -> Cases:
    """As standard input, named and not."""
    out, good = made(folder)
    for command in COMMANDS:
        for name, words in [("", []), (", named", ["-"]), (", after a file", [str(good), "-"]),
                            (", before a file", ["-", str(good)])]:
            yield Fact(f"{command} of its output as standard input{name}", refused(b"-"),
                       onto(out, [*command, *words], out))
    yield Fact("select by another name of it", refused(b"-"), onto(out, ["select", "-", str(out)], out))
    yield Fact("select of it, and then of itself as -", refused(str(out).encode()),
               onto(out, ["select", str(out), "-"], out))
    yield Fact("select of an emptied one", refused(b"-", b""), onto(out, ["select"], out, mode="wb"))


def others(folder: Path) -> Cases:
    """What isn't refused: another file, standard input that isn't read, and what is no regular file."""
    out, good = made(folder)
    size = len(ARCHIVE)
    yield Fact("another file of the same content", Grown(0, b"", ARCHIVE * 2, 0), onto(out, ["select", str(good)]))
    yield Fact("a file as standard input", Grown(0, b"", ARCHIVE, size), onto(out, ["select"], good, content=b""))
    yield Fact("standard input that isn't read", Grown(0, b"", ARCHIVE * 2, 0),
               onto(out, ["select", str(good)], out))
    for words in (["audit"], ["audit", "-"], ["show", os.devnull], ["select"], ["repack"], ["join"]):
        yield Row(f"{words} from {os.devnull} to {os.devnull}", Path(os.devnull), words, 0, out_to=os.devnull)
    serve = ["serve", "--live", "--port", str(free_port()), "--station", "STA", "--network", "XX"]
    yield Fact("serve writes nothing", Grown(0, b"", b"", 0), onto(out, serve, out, content=b""))
    near, far = os.pipe()
    os.close(far)
    ran = subprocess.run([PROGRAM, "show", f"/dev/fd/{near}"], stdin=subprocess.DEVNULL, stdout=subprocess.PIPE,
                         pass_fds=[near], timeout=SECONDS, check=False)
    os.close(near)
    yield holds("a pipe", (ran.returncode, ran.stdout) == (0, b"records 0\n"), ran)


def rows() -> Cases:
    """All of them."""
    for make in (named, standard_input, others):
        with tempfile.TemporaryDirectory() as folder:
            yield from make(Path(folder))
