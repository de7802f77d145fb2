"""Named files of more than a buffer's bytes: each is read to its end where the system gives it, in any pieces; and a
read that fails, after many bytes and many files, is reported with its file, after what a failed input has."""

from __future__ import annotations

import functools
import os
import tempfile
from pathlib import Path
from typing import Optional, Sequence

from driver.helpers import COMPILER, library, preloaded
from driver.records import record
from driver.rows import Cases, Row, Skipped
from driver.texts import WRITE_FAILED
from models.auditing import audit
from models.parts import join, part
from models.selecting import repack, show
from models.workloads import CODES, one_after_another, part_of

SIZE = 128
# 400 records of one channel, each where the one before it ends, of 51,200 bytes; and the parts of two days, of 55,000.
ARCHIVE = b"".join(one_after_another([record(factor=100)], 400, (CODES,)))
PARTS = b"".join(part_of(range(200), day) for day in range(2))
COMMANDS = ["audit", "audit --each", "audit --part", "show", "select", "select --from 2000-001", "repack", "join",
            "join --part"]
# Where an input is cut into files: around a page, and around the buffers of files.
CUTS: list[list[int]] = [[], [4095], [4096], [4097], [4096, 8192], [5000, 10000], [1, 2, 40000], [8191, 8192, 16385],
                         [128 * at for at in range(1, 400)], [1000 * at for at in range(1, 51)]]
# After so many bytes a file fails.
ROOMS = [0, 1, 127, 128, 4095, 4096, 4097, 6000, 8192, 8193, 12288, 16384, 20000]
# What is to come of a run: its output, its standard error, and its status.
Ended = tuple[bytes, bytes, int]


def input_of(command: str) -> bytes:
    """What a command is to read."""
    return PARTS if command.startswith("join") else ARCHIVE


@functools.lru_cache(maxsize=None)
def ended(command: str, size: int, fails: bool = False) -> Ended:
    """What must come of a command over the first so many bytes of its input, where that is the end, or where the next
    read fails. Of a failed archive the channels are judged as if it had ended after its last whole record."""
    whole = ARCHIVE[: size // SIZE * SIZE]
    fault = b"fault at %d read\n" % len(whole) if fails else b""
    first, *options = command.split()
    if first == "join":
        status, out, err = join(PARTS[:size], part="--part" in options, fails=fails)
        return out, err, status
    if first == "select":
        return whole, b"mseed: " + fault if fails else b"", 2 if fails else 0
    if first == "repack":
        return (b"", b"mseed: fault at %d read\n" % size, 2) if fails else repack(whole)
    text = part(whole) if "--part" in options else audit(whole)[0] if first == "audit" else show(whole)[0]
    return text + fault, b"", 2 if fails else 0


def files(folder: Path, input: bytes, cuts: Sequence[int]) -> list[str]:
    """An input in files that are cut here."""
    names = []
    for index, (begin, end) in enumerate(zip([0, *cuts], [*cuts, len(input)])):
        path = folder / f"{index}.mseed"
        path.write_bytes(input[begin:end])
        names.append(str(path))
    return names


def whole_files(folder: Path, failing: Optional[str]) -> Cases:
    """Each file is read to its end, at once, by pieces, and of standard input between two of them."""
    for command in COMMANDS:
        input = input_of(command)
        out, err, status = ended(command, len(input))
        for cuts in CUTS:
            name = f"{command} of {len(cuts) + 1} files, cut at {cuts[:3]}"
            names = files(folder, input, cuts)
            yield Row(name, b"", [*command.split(), *names], status, out, err)
            if len(names) > 2:
                words = [*command.split(), names[0], "-", *names[2:]]
                yield Row(f"{name}, of which one is standard input", input[cuts[0] : cuts[1]], words, status, out, err)
        for piece in (1, 4095, 4096, 4097) if failing else ():
            yield Row(f"{command} of two files, {piece} bytes at once", b"",
                      [*command.split(), *files(folder, input, [20001])], status, out, err,
                      env=preloaded(failing, FILE_PIECE=piece))


def failing_files(folder: Path, failing: str) -> Cases:
    """The first, a middle or the last file fails after so many bytes."""
    for command in COMMANDS:
        input = input_of(command)
        for cuts in ([], [20000], [7000, 14001, 40000]):
            names, begins, ends = files(folder, input, cuts), [0, *cuts], [*cuts, len(input)]
            for name, begin, end in zip(names, begins, ends):
                env = preloaded(failing, FAILING=os.path.realpath(name))
                for room in (room for room in ROOMS if room < end - begin):
                    out, err, status = ended(command, begin + room, True)
                    yield Row(f"{command} of {len(names)} files, the one from {begin} fails after {room} bytes", b"",
                              [*command.split(), *names], status, out, err + cannot_read(name),
                              env={**env, "FILE_ROOM": str(room)})
    yield Row("select onto a full device, of a file that fails", b"", ["select", *files(folder, ARCHIVE, [])], 2, b"",
              WRITE_FAILED, out_to="/dev/full",
              env=preloaded(failing, FAILING=os.path.realpath(folder / "0.mseed"), FILE_ROOM=4097))


def cannot_read(name: str) -> bytes:
    """The line of a file that failed."""
    return f"mseed: cannot read {name}: input/output error\n".encode()


def rows() -> Cases:
    """All of them."""
    failing = library("failing_files")
    with tempfile.TemporaryDirectory() as folder:
        yield from whole_files(Path(folder), failing)
        if failing is None:
            yield Skipped("files that fail", COMPILER)
            return
        yield from failing_files(Path(folder), failing)
