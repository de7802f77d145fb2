"""Parts that are joined over an input that fails after so many bytes, and onto an output and a standard error that do;
with each allocation refused in turn; and 100,000 parts of one channel in the memory of a few."""

from __future__ import annotations

import contextlib
import fcntl
import re
import struct
import subprocess
import termios
import time
from dataclasses import replace
from pathlib import Path
from typing import Generator, Iterator, Sequence

from driver.helpers import COMPILER, library, preloaded, refused_in_turn
from driver.program import LIMIT, ROOT
from driver.rows import Case, Cases, Fact, Result, Row, Skipped, contents_of, holds, in_memory, started, status_of
from driver.texts import DEVICE_ERROR, IS_CLOSED, IS_DIRECTORY, NO_MEMORY, WRITE_FAILED
from models.parts import NO_BEGINNING, NO_ENDING, TOO_LONG, bad_field, join
from rows.devices import WHOLE
from rows.join import BHN_KEY, FIRST, FOUND, LATE, NEXT, NONE, ONE, SECOND, begins, channel, counts
from rows.memory import refuses
from rows.parts import BHZ, LATER, OF_BOTH, OF_FIRST, OF_LATE, START, part

# Two parts with a gap between them, without faults and with one each.
GAPPED = f"{FIRST}{LATE}"
TEXT = f"{FOUND}records 2 channels 1\n"
WHY = DEVICE_ERROR.decode()
BORDER = f"128 {BHZ} record 2 start 2024-01-01T00:00:00.825001 gap 25001\n"
JOINT = part(OF_BOTH, counts(2, 256))
CUT = "fault at 128 truncated 10"
FAULTY = part(OF_FIRST, ONE, CUT) + part(OF_LATE, ONE, CUT)
REPORTED = [f"mseed: part {number} {CUT}\n" for number in (1, 2)]
# After a bad line nothing matters.
BAD = GAPPED + part("none") + GAPPED
FLAW = f"mseed: {bad_field('none')}\n"

# The most memory that any number of parts of one channel may take, in KiB.
MOST = 8192
MANY = 100000


def reads(failing: str, text: str, words: Sequence[str], size: int, out: str, err: str) -> Iterator[Row]:
    """So many bytes are all that the input brings, at once and one after another."""
    for piece in (1, WHOLE):
        if piece > 1 or size % 7 == 0:
            yield Row(f"{' '.join(words)} over an input that fails after {size} of {len(text)} bytes, {piece} at once",
                      text.encode(), words, 2, out.encode(), err.encode(),
                      env=preloaded(failing, READ_ROOM=size, PIECE=piece))


def inputs(failing: str) -> Cases:
    """Inputs that fail: what stands on the lines before is read."""
    # The border is in the fifth line.
    found = len(FIRST) + LATE.index("records 1 bytes")
    for size in range(len(GAPPED) + 1):
        fault = f"mseed: fault at {size} read\n{WHY}"
        yield from reads(failing, GAPPED, ["join"], size, "", fault)
        yield from reads(failing, GAPPED, ["join", "--each"], size, BORDER if size >= found else "", fault)
        yield from reads(failing, GAPPED, ["join", "--part"], size, "", fault)
    for size in range(len(FAULTY) + 1):
        lines = FAULTY[:size].count("\n")
        reported = "".join(REPORTED[: lines // 4])
        yield from reads(failing, FAULTY, ["join", "--past-faults"], size, "",
                         f"{reported}mseed: fault at {size} read\n{WHY}")
    # The bad line is the eighth.
    end = len(GAPPED + "mseed part 1\nnone\n")
    for size in range(end - 30, end + 60):
        error = f"mseed: fault at {size} read\n{WHY}" if size < end else f"mseed: bad part at line 8\n{FLAW}"
        yield from reads(failing, BAD, ["join"], size, "", error)
        yield from reads(failing, BAD, ["join", "--each"], size, BORDER, error)
    # A failed read comes before the number of parts.
    for size in range(len(GAPPED) + 1):
        fault = f"mseed: fault at {size} read\n{WHY}"
        yield from reads(failing, GAPPED, ["join", "--each", "--expect", "3"], size, BORDER if size >= found else "",
                         fault)
    yield Row("an input that can't be read", ROOT, ["join"], 2, b"", b"mseed: fault at 0 read\n" + IS_DIRECTORY)
    yield Row("an input that can't be read, of which a part is expected", ROOT, ["join", "--expect", "1"], 2, b"",
              b"mseed: fault at 0 read\n" + IS_DIRECTORY)


def outputs(failing: str) -> Cases:
    """Outputs that take each prefix of the text and no more."""
    two = f"{BHZ} {NONE} records 2 samples 32\nrecords 2 channels 1\n"
    for words, parts, status, text, reported in (
        ([], FIRST + NEXT, 0, two, ""), ([], GAPPED, 1, TEXT, ""), (["--part"], GAPPED, 1, JOINT, ""),
        (["--each"], GAPPED, 1, BORDER + TEXT, ""),
        (["--each", "--past-faults"], FAULTY, 2, f"{BORDER}{TEXT}faults 2\n", "".join(REPORTED)),
        (["--part", "--past-faults"], FAULTY, 2, part(OF_BOTH, counts(2, 256), "faults 2"), "".join(REPORTED)),
    ):
        words = ["join", *words]
        for room in range(len(text) + 1):
            for piece in (2, WHOLE):
                error = WRITE_FAILED if room < len(text) else b""
                yield Row(f"{' '.join(words)} onto an output that takes {room} of {len(text)} bytes, {piece} at once",
                          parts.encode(), words, 2 if room < len(text) else status, text[:room].encode(),
                          reported.encode() + error, env=preloaded(failing, WRITE_ROOM=room, PIECE=piece))
    yield Row("a full output", GAPPED.encode(), ["join"], 2, b"", WRITE_FAILED, out_to="/dev/full")
    yield Row("a full output, and nothing to write", BAD.encode(), ["join"], 2, b"",
              f"mseed: bad part at line 8\n{FLAW}".encode(), out_to="/dev/full")
    # What is found before a bad line is written before it.
    yield Row("a full output, and a border before a bad line", BAD.encode(), ["join", "--each"], 2, b"", WRITE_FAILED,
              out_to="/dev/full")
    for text, more, last in ((BAD, [], f"mseed: bad part at line 8\n{FLAW}".encode()),
                             (GAPPED, ["--expect", "3"], b"mseed: 2 parts, not 3\n")):
        words = ["join", "--each", *more]
        for room in range(len(BORDER) + 1):
            error = WRITE_FAILED if room < len(BORDER) else last
            yield Row(f"{' '.join(words)} of {len(text)} bytes onto an output that takes {room}", text.encode(), words,
                      2, BORDER[:room].encode(), error, env=preloaded(failing, WRITE_ROOM=room))
    yield Row("a full output, and too few parts", GAPPED.encode(), ["join", "--expect", "3"], 2, b"",
              b"mseed: 2 parts, not 3\n", out_to="/dev/full")


def errors(failing: str) -> Cases:
    """A standard error that takes each prefix of its lines and no more: the status and the output stay the same."""
    bad, reported = f"mseed: bad part at line 8\n{FLAW}", "".join(REPORTED)
    past = part(OF_BOTH, counts(2, 256), "faults 2")
    for words, parts, out, lines in (([], BAD, "", bad),
                                     (["--past-faults", "--part"], FAULTY, past, reported),
                                     (["--past-faults", "--part"], FAULTY + "none\n", "", reported),
                                     (["--expect", "1", "--past-faults"], FAULTY, "",
                                      f"{reported}mseed: 2 parts, not 1\n"),
                                     (["--each"], BAD, BORDER, bad)):
        words = ["join", *words]
        for room in range(len(lines) + 1):
            yield Row(f"{' '.join(words)} onto a standard error that takes {room} bytes of {lines!r}", parts.encode(),
                      words, 2, out.encode(), lines[:room].encode(), env=preloaded(failing, ERROR_ROOM=room))


def closed() -> Cases:
    """Standard streams that are closed."""
    for name, text, streams, status, out, err in (
        ("input", GAPPED, [0], 2, "", f"mseed: fault at 0 read\n{IS_CLOSED.decode()}"),
        ("output", GAPPED, [1], 2, "", "mseed: write failed\n"),
        ("error", GAPPED, [2], 1, TEXT, ""),
        ("error, and a bad line", BAD, [2], 2, "", ""),
        ("output and error", GAPPED, [1, 2], 2, "", ""),
    ):
        yield Row(f"join with a closed standard {name}", text.encode(), ["join"], status, out.encode(), err.encode(),
                  closed=streams)
    past = ["join", "--past-faults", "--part"]
    yield Row("join --past-faults with a closed standard error", FAULTY.encode(), past, 2,
              part(OF_BOTH, counts(2, 256), "faults 2").encode(), closed=[2])


def same_channel(count: int) -> str:
    """So many parts of one channel, each 0.2 seconds after the end of the one before."""
    return "".join(part(begins(START + SECOND * index), ONE) for index in range(count))


def refusals(refusing: str) -> Cases:
    """Each allocation refused in turn."""
    two = part(channel(BHN_KEY), OF_FIRST, counts(2, 256))
    parts = (two + part(OF_LATE, ONE) + two.replace(str(START), str(LATER))).encode()
    for words, status in (([], 1), (["--part"], 1), (["--past-faults"], 1), (["--each"], 1),
                          (["--part", "--past-faults"], 1), (["--expect", "3"], 1), (["--each", "--part"], 3)):
        words = ["join", *words]
        yield from refuses(" ".join(words), Row("", parts, words, status), refusing, "--each" in words)
    past, none = ["join", "--past-faults", "--part"], b"none\n"
    faulty, reported = FAULTY.encode(), "".join(REPORTED).encode()
    behind = f"mseed: {NO_ENDING}\n".encode()
    yield from reports(refusing, "a bad line", Row("", parts + none, ["join"], 2, b"",
                                                 b"mseed: bad part at line 12\n" + behind))
    yield from reports(refusing, "too few parts", Row("", parts, ["join", "--expect", "4"], 2, b"",
                                                    b"mseed: 3 parts, not 4\n"))
    joint = part(OF_BOTH, counts(2, 256), "faults 2").encode()
    yield from reports(refusing, "faults", Row("", faulty, past, 2, joint, reported))
    yield from reports(refusing, "faults and a bad line",
                     Row("", faulty + none, past, 2, b"",
                         reported + f"mseed: bad part at line 9\nmseed: {NO_BEGINNING}\n".encode()))


def reports(refusing: str, name: str, row: Row) -> Cases:
    """A run of status 2 in any case, with each allocation refused in turn, alone and with all after it: it reports some
    of the faults before it ends for want of memory, and writes nothing."""
    whole = Result(2, row.out, row.err)
    ends = [Result(2, b"", "".join(REPORTED[:count]).encode() + NO_MEMORY) for count in range(len(REPORTED) + 1)]
    for number, came in refused_in_turn(row, refusing):
        if came == whole:
            break
        yield holds(f"{name}, with allocation {number} refused", came in ends, came)
        came = replace(row, env=preloaded(refusing, REFUSE_FROM=number)).run()
        yield holds(f"{name}, with all allocations from {number} on refused", came in ends, came)
    yield Fact(f"{name}, with no allocation refused at {number}", whole, came)


def least(refusing: str) -> Generator[Case, None, None]:
    """The least memory, to a byte, that joins three parts, the first of which is a joint part itself; the parts that
    these stand for, one by one, need no more."""
    many = same_channel(5000)
    at = [found.start() for found in re.finditer("mseed part 1", many)][-2]
    few = join(many[:at].encode(), part=True)[1] + many[at:].encode()
    for words in (["join"], ["join", "--part"]):
        whole = join(many.encode(), part="--part" in words)
        too_few, enough = 0, 1024 * MOST
        while enough - too_few > 1:
            heap = (too_few + enough) // 2
            if Row("", few, words, 1, env=preloaded(refusing, HEAP=heap)).run().status == 1:
                enough = heap
            else:
                too_few = heap
        yield Row(f"{' '.join(words)} of three parts in {too_few} bytes", few, words, 2, b"", NO_MEMORY,
                  env=preloaded(refusing, HEAP=too_few))
        for name, text in (("three", few), ("5000", many.encode())):
            yield Row(f"{' '.join(words)} of {name} parts in {enough} bytes", text, words, *whole,
                      env=preloaded(refusing, HEAP=enough))
    for end in (b"", b"\n"):
        yield Row(f"a line of 64 MB in {MOST} KiB", b"0" * 64 * 10**6 + end, ["join"], 2, b"",
                  f"mseed: bad part at line 1\nmseed: {TOO_LONG}\n".encode(),
                  env=preloaded(refusing, HEAP=1024 * MOST))


def waits(process: subprocess.Popen) -> bool:
    """Whether a process sleeps though all of its input is read."""
    unread = struct.unpack("i", fcntl.ioctl(process.stdin, termios.FIONREAD, bytes(4)))[0]
    state = Path(f"/proc/{process.pid}/stat").read_text(encoding="ascii").rpartition(") ")[2][0]
    return unread == 0 and state == "S"


def peak_over(words: Sequence[str], text: bytes) -> tuple[Result, int]:
    """What a run over a pipe ends with, and the most memory that it had once all of the input was read, in KiB."""
    with in_memory() as out, in_memory() as err:
        process = started(words, bufsize=0, stdin=subprocess.PIPE, stdout=out, stderr=err)
        peak, written, until = None, 0, time.monotonic() + LIMIT
        with contextlib.suppress(BrokenPipeError):
            while written < len(text):
                written += process.stdin.write(text[written : written + 65536])
            while process.poll() is None and time.monotonic() < until:
                if waits(process):
                    reported = Path(f"/proc/{process.pid}/status").read_text(encoding="ascii")
                    peak = re.search(r"VmHWM:\s*(\d+) kB", reported)
                    break
                time.sleep(0.01)
        process.stdin.close()
        status = status_of(process)
        return Result(status, contents_of(out), contents_of(err)), int(peak[1]) if peak else 0


def memory() -> Cases:
    """The memory of many parts of one channel, each of which has a border with a finding."""
    text = same_channel(MANY).encode()
    joint = channel(records=MANY, samples=16 * MANY, tail=f"{START + SECOND * (MANY - 1)} 16 20/1 none",
                    findings=f"{MANY - 1} first 2 128 gap 200000")
    found = f"{BHZ} broken findings {MANY - 1} first record 2 offset 128 gap 200000\nrecords {MANY} channels 1\n"
    lines = join(text, each=True)[1]
    for words, out in (([], found.encode()), (["--part"], part(joint, counts(MANY, 128 * MANY)).encode()),
                       (["--each"], lines)):
        came, peak = peak_over(["join", *words], text)
        name = f"{MANY} parts: join {' '.join(words)}"
        yield Fact(name, Result(1, out, b""), came)
        yield holds(f"{name} takes less than {MOST} KiB", 0 < peak < MOST, peak)


def rows() -> Cases:
    """All of them."""
    yield from closed()
    yield from memory()
    failing, refusing = library("failing_devices"), library("refuse_memory")
    if failing is None or refusing is None:
        yield Skipped("parts joined with failing devices and refused memory", COMPILER)
        return
    yield from inputs(failing)
    yield from outputs(failing)
    yield from errors(failing)
    yield from refusals(refusing)
    yield from least(refusing)
