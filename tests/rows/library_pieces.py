"""The package for Python reads on after bytes that begin no record, and reads archives in pieces: by hand, in little
memory, and while other threads go on. Archives at random are those of library_python.py."""

from __future__ import annotations

import os
import re
import tempfile
from pathlib import Path

from driver.library import PYTHON, WANTS, has_numpy, library, python
from driver.program import ROOT, SAMPLES
from driver.records import integers, record
from driver.rows import Cases, Fact, Skipped, holds
from driver.tools import tool
from models.auditing import time_of
from rows.library import stretches

SECOND = 10**9
# 108,000 samples at 100 a second, 100 in each record of 512 bytes: 1,080 records, of which each takes a second.
START = 1704067200 * SECOND
RECORDS, EACH, LENGTH = 1080, 100, 512
# The record in the middle, and where it stands.
MIDDLE = 540
AT = MIDDLE * LENGTH

SHOW = """
import sys, mseed
def shown(trace):
    return trace.start_ns, len(trace), trace.first_record, sum(trace.samples.tolist())
def left_out(errors):
    return [(e.number, e.offset, e.length, e.reason, e.name) for e in errors]
"""

READ = SHOW + """
traces = mseed.read(sys.argv[1], skip=True)
print([shown(trace) for trace in traces], left_out(traces.skipped))
try:
    mseed.read(sys.argv[1])
except mseed.RecordError as error:
    print(left_out([error]))
pieces = mseed.iterate(sys.argv[1], samples=10**6, skip=True)
print([shown(piece) for piece in pieces], left_out(pieces.skipped))
try:
    print(len(list(mseed.iterate(sys.argv[1], samples=10**6))))
except mseed.RecordError as error:
    print(left_out([error]))
"""

PIECES = """
import pickle, sys, mseed
traces = {}
pieces = mseed.iterate(sys.argv[1] + "/network_gap.mseed", samples=5000)
for piece in pieces:
    if piece.index == 0:
        traces.setdefault(piece.channel, []).append([])
    traces[piece.channel][-1].append((piece.index, len(piece), piece.goes_on, piece.start.strftime("%M:%S.%f")))
for channel in sorted(traces):
    for trace in traces[channel]:
        print(channel, trace)
print(pieces.skipped, type(piece) is mseed.Piece, isinstance(piece, mseed.Trace))
for wrong in (0, -1):
    try:
        mseed.iterate(b"", samples=wrong)
    except ValueError as error:
        print(error)
try:
    mseed.iterate("/none/such")
except FileNotFoundError as error:
    print("refused at once", error.filename)
with open(sys.argv[1] + "/network_gap.mseed", "rb") as file:
    file.seek(512)
    part = mseed.iterate(file, samples=100)
    print(len(next(part)), file.closed)
    part.close()
    print(list(part), file.closed)
error = pickle.loads(pickle.dumps(mseed.RecordError(3, 4, "notdata", "XX", 5)))
print(error, error.number, error.offset, error.reason, error.name, error.length)
"""

# The lengths of the traces are those of samples/README.md; a piece of 5,000 samples at 20 a second takes 250 seconds.
EXPECTED_PIECES = """\
BHE [(0, 5000, True, '20:00.000000'), (5000, 5000, True, '24:10.000000'), (10000, 2000, False, '28:20.000000')]
BHN [(0, 5000, True, '20:00.000000'), (5000, 5000, True, '24:10.000000'), (10000, 2000, False, '28:20.000000')]
BHZ [(0, 4665, False, '20:00.000000')]
BHZ [(0, 5000, True, '25:05.350000'), (5000, 893, False, '29:15.350000')]
[] True True
a piece has 1 sample or more, not 0
a piece has 1 sample or more, not -1
refused at once /none/such
100 False
[] False
record 3 of XX at offset 4: notdata 3 4 notdata XX 5
"""

# An archive that is made as it is read: so many megabytes, of nine channels in turn; and the megabytes by which Python
# grows while it is read.
MEMORY = """
import io, resource, sys, mseed
class Made(io.RawIOBase):
    def __init__(self, size):
        self.left, self.turn, self.held = size, 0, b""
        self.make()
    def make(self):
        each = [mseed.pack(mseed.make(SAMPLES, network="XX", station="STA", channel=f"BH{c}", rate=100,
                                      start_ns=10**18 + self.turn * len(SAMPLES) * 10**7)) for c in range(9)]
        self.held += b"".join(part[at : at + 512] for at in range(0, len(each[0]), 512) for part in each)
        self.turn, self.left = self.turn + 1, self.left - 9 * len(each[0])
    def read(self, size=-1):
        while self.left > 0 and len(self.held) < size:
            self.make()
        given, self.held = self.held[:size], self.held[size:]
        return given
SAMPLES = mseed.make([(i * i) % 1009 - 500 for i in range(100_000)], network="XX", station="STA", channel="BHZ",
                     rate=100, start_ns=0).samples
made = Made(int(sys.argv[1]) * 10**6)
before, samples, last = resource.getrusage(resource.RUSAGE_SELF).ru_maxrss, 0, {}
for piece in mseed.iterate(made):
    samples += len(piece)
    assert piece.index == 0 or last[piece.id] == (piece.index, True)
    last[piece.id] = piece.index + len(piece), piece.goes_on
after = resource.getrusage(resource.RUSAGE_SELF).ru_maxrss
print(samples == 9 * len(SAMPLES) * made.turn, {goes_on for _, goes_on in last.values()}, (after - before) // 1024)
"""

# While a call of the library lasts, other threads go on: another one takes turns meanwhile, though no thread ever has
# to make way here. And the share of a reading thread's own time of a processor that such calls are, in the hundred,
# which is the same however busy the machine is: the least time of either in five.
THREADS = """
import sys, threading, time, mseed
from mseed._library import LIBRARY
channels, turns, called, inside = int(sys.argv[1]), 0, {}, 0.0
samples = [(i * i) % 1009 - 500 for i in range(2_000_000 // channels)]
def packed():
    each = [mseed.pack(mseed.make(samples, network="XX", station="STA", channel=f"BH{channel}", rate=100, start_ns=0))
            for channel in range(channels)]
    return b"".join(part[at : at + 512] for at in range(0, len(each[0]), 512) for part in each)
def read():
    assert sum(map(len, mseed.read(archive))) == channels * len(samples)
def time_of_own(action):
    begun = time.thread_time()
    action()
    return time.thread_time() - begun
def take_turns():
    global turns
    while True:
        turns += 1
        time.sleep(0.0001)
def watch(name):
    call = getattr(LIBRARY, name)
    def watched(*words):
        global inside
        before, begun = turns, time.thread_time()
        status = call(*words)
        inside += time.thread_time() - begun
        called[name] = called.get(name, False) or turns > before
        return status
    setattr(LIBRARY, name, watched)
def time_inside():
    global inside
    inside = 0.0
    read()
    return inside
archive = packed()
whole = min(time_of_own(read) for _ in range(5))
for name in "mseed_pack", "mseed_rows", "mseed_read":
    watch(name)
share = min(time_inside() for _ in range(5)) / whole
sys.setswitchinterval(1000)
threading.Thread(target=take_turns, daemon=True).start()
end = time.monotonic() + 60
while not (len(called) == 3 and all(called.values())) and time.monotonic() < end:
    packed()
    read()
print(sorted(called.items()), round(100 * share))
"""
MEANWHILE = "[('mseed_pack', True), ('mseed_read', True), ('mseed_rows', True)]"


def value(index: int) -> int:
    """The sample at an index of the archive."""
    return index % 300


def archive() -> list[bytes]:
    """Its records."""
    return [record(minute=number // 60 % 60, second=number % 60, samples=EACH, factor=100, exponent=9,
                   data=integers(value(number * EACH + place) for place in range(EACH))) for number in range(RECORDS)]


def trace(first: int, end: int, number: int) -> tuple[int, int, int, int]:
    """What is shown of a trace of the samples of some records, of which the first has this number in its archive."""
    values = sum(value(index) for index in range(first * EACH, end * EACH))
    return START + first * SECOND, (end - first) * EACH, number, values


def damages() -> list[tuple[str, bytes, list[tuple], list[tuple]]]:
    """Archives with damage, their traces, and what is left out of them: number, offset, length, reason and name."""
    whole, zeros = archive(), bytes(LENGTH)
    front, after, middle = b"".join(whole[:MIDDLE]), b"".join(whole[MIDDLE + 1 :]), whole[MIDDLE]
    one = [trace(0, RECORDS, 1)]
    two = [trace(0, MIDDLE, 1), trace(MIDDLE + 1, RECORDS, MIDDLE + 1)]
    # Its first blockette is of type 0, and names none after it.
    headless = middle[:48] + zeros[:8] + middle[56:]
    # A sample of 4 bytes is lacking.
    short = middle[:30] + (EACH + 50).to_bytes(2, "big") + middle[32:]
    return [
        ("512 zero bytes in the middle", front + zeros + after, two, [(MIDDLE + 1, AT, LENGTH, "notdata", "")]),
        ("512 zero bytes more", front + zeros + middle + after, one, [(MIDDLE + 1, AT, LENGTH, "notdata", "")]),
        ("64 bytes more", front + b"x" * 64 + middle + after, one, [(MIDDLE + 1, AT, 64, "notdata", "")]),
        ("a record without blockettes", front + headless + after, two, [(MIDDLE + 1, AT, LENGTH, "no1000", "")]),
        ("zero bytes at the beginning", zeros + b"".join(whole), one, [(1, 0, LENGTH, "notdata", "")]),
        ("a record that is cut off at the end", b"".join(whole)[:-100], [trace(0, RECORDS - 1, 1)],
         [(RECORDS, (RECORDS - 1) * LENGTH, LENGTH - 100, "truncated 412", "")]),
        ("a byte more, after which no record stands at a multiple of 64", front + b"x" + middle + after,
         [trace(0, MIDDLE, 1)], [(MIDDLE + 1, AT, (RECORDS - MIDDLE) * LENGTH + 1, "notdata", "")]),
        ("63 bytes more after it, and the rest is found", front + b"x" + middle + bytes(63) + after, two,
         [(MIDDLE + 1, AT, LENGTH + 64, "notdata", "")]),
        ("a record with fewer samples than it says", front + short + after,
         [trace(0, MIDDLE, 1), trace(MIDDLE + 1, RECORDS, MIDDLE + 2)],
         [(MIDDLE + 1, AT, LENGTH, "short 112", "XX_STA__BHZ")]),
        ("no record at all", b"x" * 1000, [], [(1, 0, 1000, "notdata", "")]),
        ("two damages", zeros[:128] + front + zeros + after[:-10],
         [two[0], trace(MIDDLE + 1, RECORDS - 1, MIDDLE + 1)],
         [(1, 0, 128, "notdata", ""), (MIDDLE + 1, AT + 128, LENGTH, "notdata", ""),
          (RECORDS - 1, (RECORDS - 1) * LENGTH + 128, LENGTH - 10, f"truncated {LENGTH - 10}", "")]),
    ]


def reads_on(built: Path, folder: Path, numpy: bool) -> Cases:
    """After what is no record, and after a record that can't be read, by `read` and in pieces."""
    manner = "with NumPy" if numpy else "without NumPy"
    for name, content, traces, left_out in damages():
        path = folder / "damaged.mseed"
        path.write_bytes(content)
        ended = python(built, ["-c", READ, str(path)], numpy=numpy)
        expected = f"{traces} {left_out}\n{left_out[:1]}\n" * 2
        yield Fact(f"{name}, {manner}", expected, (ended.stdout + ended.stderr).decode())


def as_gaps_does(folder: Path) -> Cases:
    """`tools/gaps` passes over the same bytes."""
    path = folder / "damaged.mseed"
    for name, content, _, left_out in damages():
        path.write_bytes(content)
        expected = [f"{path}: fault at {offset} {reason}, {length} bytes skipped"
                    for _, offset, length, reason, channel in left_out if not channel]
        yield Fact(f"{name}: the same by tools/gaps", expected, tool("gaps", str(path)).err.decode().splitlines())


def recipe(built: Path) -> Cases:
    """The cookbook's recipe prints what the second program reads of the records before the junk and after it."""
    text = (ROOT / "docs" / "cookbook.md").read_text(encoding="utf-8")
    blocks = re.findall(r"^```python\n(.*?)^```", text, re.MULTILINE | re.DOTALL)
    code = next(block for block in blocks if "iterate" in block)
    junk = (SAMPLES / "network_junk.mseed").read_bytes()
    lines = ["14336 512 notdata"]
    for name, start, samples in stretches(junk[:14336] + junk[14336 + 512 :]):
        for at in range(0, len(samples), 5000):
            time = time_of(start + at * SECOND // 20 // 1000)[11:].removesuffix(".000000")
            left = len(samples) - at
            lines.append(f"{name} {time} {min(left, 5000)} {'goes on' if left > 5000 else 'ends'}")
    for numpy in (False, True) if has_numpy() else (False,):
        ended = python(built, ["-c", code], numpy=numpy)
        yield Fact(f"the recipe of the cookbook, {'with' if numpy else 'without'} NumPy", sorted(lines),
                   sorted((ended.stdout + ended.stderr).decode().splitlines()))


def rows() -> Cases:
    """All of them."""
    built = library()
    if built is None or not os.path.exists(PYTHON):
        yield Skipped("archives in pieces", WANTS)
        return
    yield from recipe(built)
    with tempfile.TemporaryDirectory() as name:
        folder = Path(name)
        yield from as_gaps_does(folder)
        for numpy in (False, True) if has_numpy() else (False,):
            manner = "with NumPy" if numpy else "without NumPy"
            yield from reads_on(built, folder, numpy)
            ended = python(built, ["-c", PIECES, str(SAMPLES)], numpy=numpy)
            yield Fact(f"pieces by hand, {manner}", EXPECTED_PIECES, (ended.stdout + ended.stderr).decode())
            ended = python(built, ["-c", MEMORY, "300" if numpy else "30"], numpy=numpy)
            words = ended.stdout.decode().rpartition(" ")
            yield holds(f"reading in pieces takes less than 100 MB, {manner}",
                        words[0] == "True {False}" and int(words[2]) < 100, ended.stdout + ended.stderr)
        for channels, least in ((1, 20), (9, 8)):
            ended = python(built, ["-c", THREADS, str(channels)], numpy=has_numpy())
            said, _, share = ended.stdout.decode().rpartition(" ")
            kind = f"an archive of {channels} channels"
            yield Fact(f"other threads go on while {kind} is packed and read", MEANWHILE, said + ended.stderr.decode())
            yield holds(f"of a thread that reads {kind} they go on for {least} in the hundred of its time",
                        said == MEANWHILE and int(share) >= least, ended.stdout + ended.stderr)
