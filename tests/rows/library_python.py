"""The package for Python: against the program and the second programs over archives at random, with NumPy and without,
and each of its calls by hand."""

from __future__ import annotations

import os
import re
import subprocess
import tempfile
from concurrent.futures import ThreadPoolExecutor
from pathlib import Path

from driver.library import PYTHON, WANTS, has_numpy, library, python
from driver.program import PROGRAM, ROOT, SAMPLES, SOURCES
from driver.rows import Cases, Fact, Skipped, holds

NUMPY = "python3-numpy, for /usr/bin/python3"

# What stands in for ObsPy, which Debian doesn't have.
STAND_IN = str(SOURCES / "obspy_stand_in")

# With NumPy, so many archives, in so many parts side by side; without it, fewer.
ARCHIVES, PARTS, WITHOUT = 2000, 4, 100

# What is asked for of two records of 16 samples at 20 a second, from the first instant of 2024 on: the first ends at
# 0.75 s, and the second begins at 0.8 s.
SELECTING = """
import datetime, sys, mseed
two = sys.argv[1] + "/two_records.mseed"
data = open(two, "rb").read()
first, second, day = data[:len(data) // 2], data[len(data) // 2:], "2024-01-01T00:00:00"
trace = mseed.read(two)[0]
print(mseed.select(two) == data, mseed.select(data, channels="XX_STA__BH?") == data)
print(mseed.select(bytearray(data)) == data, mseed.select(memoryview(data)[:], channels=[trace.id, "*_*_*_*"]) == data)
print(mseed.select(two, channels=["IU_*_*_*", "XX_STA_--_BHN"]), len(mseed.read(mseed.select(two, end=day + ".8"))[0]))
print(mseed.select(two, end=day + ".8") == first, mseed.select(two, end=day + ".800001") == data)
print(mseed.select(two, start=day + ".75") == data, mseed.select(two, start="2024-001T00:00:00.750001Z") == second)
at = datetime.datetime(2024, 1, 1, 0, 0, 0, 800000)
print(mseed.select(two, start=at) == second, mseed.select(two, end=1704067200 * 10**9 + 800000000) == first)
for asked in ({"channels": "XX_STA_BHZ"}, {"channels": ""}, {"start": "2024-02-30"}, {"start": at, "end": at}):
    try:
        mseed.select(two, **asked)
    except ValueError as error:
        print(error)
try:
    mseed.select(data[:-1])
except mseed.RecordError as error:
    print(error.number, error.offset == len(first), error.reason.split()[0])
traces = mseed.read(two, channels="XX_*_*_*", start=day + ".8")
print([(t.id, t.start.isoformat(), len(t), t.first_record) for t in traces], len(mseed.read(two, channels="IU_*_*_*")))
try:
    mseed.read(data + b"junk" * 16, channels="XX_*_*_*")
except mseed.RecordError as error:
    print(error.number, error.offset == len(data))
for words in ({}, {"channels": "XX_*_*_*"}, {"channels": "XX.STA..*", "end": "2025-01-01"}):
    traces = mseed.read(first + b"junk" * 16 + second, skip=True, **words)
    print([len(t) for t in traces], [(e.number, e.offset == len(first), e.length, e.reason) for e in traces.skipped])
for words in ({}, {"channels": trace.id}, {"channels": trace.name}, {"end": day + ".8"}, {"start": "2025-01-01"}):
    print([(len(p), p.index, p.goes_on, p.first_record) for p in mseed.iterate(two, samples=12, **words)])
try:
    mseed.iterate(two, channels="XX_STA")
except ValueError as error:
    print(error)
"""
SELECTED = """True True
True True
b'' 16
True True
True True
True True
no patterns of channels: XX_STA_BHZ
no patterns of channels: there is none
no time: 2024-02-30
the end isn't after the start
2 True truncated
[('XX.STA..BHZ', '2024-01-01T00:00:00.800000+00:00', 16, 1)] 0
3 True
[32] [(2, True, 64, 'notdata')]
[32] [(2, True, 64, 'notdata')]
[32] [(2, True, 64, 'notdata')]
[(12, 0, True, 1), (12, 12, True, 1), (8, 24, False, 2)]
[(12, 0, True, 1), (12, 12, True, 1), (8, 24, False, 2)]
[(12, 0, True, 1), (12, 12, True, 1), (8, 24, False, 2)]
[(12, 0, True, 1), (4, 12, False, 1)]
[]
no patterns of channels: XX_STA
"""

# What is done by hand, and what is printed: by rows of samples that tests/models and README's samples say.
BY_HAND = """
import datetime, os, sys, mseed
two = sys.argv[1] + "/two_records.mseed"
traces = mseed.read(two)
trace = traces[0]
print(len(traces), traces.skipped, trace.id, trace.start_ns, trace.start.isoformat(), trace.rate, trace.exact_rate)
print(list(trace.samples) == list(range(32)), len(trace), trace.end_ns)
gap = mseed.read(sys.argv[1] + "/gap.mseed")
print([(t.start_ns, len(t), t.first_record) for t in gap])
print([(f.offset, f.name, f.number, f.start, f.reason, f.is_own) for f in mseed.findings(sys.argv[1] + "/gap.mseed")])
for archive in (b"junk" * 20, b"", sys.argv[1] + "/network_cut.mseed", open(two, "rb").read() + b"MS\\3"):
    print([(f.offset, f.name, f.number, f.start, f.reason, f.kind) for f in mseed.findings(archive)])
audit = mseed.audit(open(two, "rb").read())
print(audit.status, audit.records, audit.channels, audit.broken, bool(audit), audit.text.splitlines()[-1])
print(mseed.part(two).splitlines()[0])
bad = sys.argv[1] + "/network_bad_constant.mseed"
try:
    mseed.read(bad)
except mseed.RecordError as error:
    print(error.number, error.offset, error.reason, error)
left = mseed.read(bad, skip=True)
print([e.number for e in left.skipped], len(left))
try:
    mseed.read(sys.argv[1] + "/network_cut.mseed")
except mseed.RecordError as error:
    print(error.number, error.offset, error.reason)
made = mseed.make([1, 2, 3], network="XX", station="STA", channel="BHZ", start_ns=10**18, rate=0.1)
print(made.id, made.factor, made.multiplier, made.rate, made.end_ns - made.start_ns)
packed = mseed.pack(made, length=128)
again = mseed.read(packed)[0]
print(len(packed), again.id, again.start_ns, list(again.samples), again.key == made.key)
for change in ({"length": 100}, {"encoding": "steim3"}, {"sequence": 10**6}, {"leap": (4, 1)}):
    try:
        mseed.pack(made, **change)
    except ValueError as error:
        print(error)
for samples, encoding in (([], "int32"), ([0, 40000], "int16"), ([0, 2**30], "steim2")):
    far = mseed.make(samples, network="XX", station="STA", channel="BHZ", start_ns=0, rate=1)
    try:
        mseed.pack(far, encoding=encoding)
    except mseed.PackError as error:
        print(error.reason, error.index)
for samples in ([2**31], [0.5]):
    try:
        mseed.make(samples, network="XX", station="STA", channel="BHZ", start_ns=0, rate=1)
    except (TypeError, OverflowError) as error:
        print(type(error).__name__)
file = sys.argv[2] + "/written.mseed"
print(mseed.write(file, traces, length=256), mseed.read(file)[0].start_ns == trace.start_ns, mseed.read(file)[0].key)
print(mseed.audit(b"").text.strip(), mseed.read(b""))
"""

EXPECTED = """\
1 [] XX.STA..BHZ 1704067200000000000 2024-01-01T00:00:00+00:00 20.0 20
True 32 1704067201550000000
[(1704067200000000000, 16, 1), (1704067200825001000, 16, 2)]
[(128, 'XX_STA__BHZ', 2, '2024-01-01T00:00:00.825001', 'gap 25001', False)]
[(0, '', 1, '', 'notdata', 'notdata')]
[]
[(28672, '', 57, '', 'truncated 312', 'truncated')]
[(256, '', 3, '', 'version3', 'version3')]
0 2 1 0 True records 2 channels 1
mseed part 1
35 17408 lastdiffers -125 -61 record 35 of XX_KILN__BHE at offset 17408: lastdiffers -125 -61
[35] 4
57 28672 truncated 312
XX.STA..BHZ 1 -10 0.1 20000000000
128 XX.STA..BHZ 1000000000000000000 [1, 2, 3] True
no record has 100 bytes
no encoding steim3: it is one of int16, int32, steim1, steim2
a sequence number is 0 to 999,999
a leap second has 1 to 3 samples before it, not 4
does not fit 1 None
does not fit 4 1
does not fit 5 1
OverflowError
TypeError
1 True b'XXSTA    BHZ'
records 0 channels 0 []
"""

WITH_NUMPY = """
import numpy, sys, threading, mseed
network = open(sys.argv[1] + "/network.mseed", "rb").read()
traces = mseed.read(network)
print({str(t.samples.dtype) for t in traces}, len({id(t.samples.base) for t in traces}), len(traces))
wide = mseed.make(numpy.arange(5, dtype=numpy.int64), network="XX", station="A", channel="BHZ", start_ns=0, rate=1)
print(mseed.read(mseed.pack(wide))[0].samples.tolist(), mseed.pack(wide) == mseed.pack(
    mseed.make(numpy.arange(5, dtype=numpy.int16)[::1], network="XX", station="A", channel="BHZ", start_ns=0, rate=1)))
want, others = (mseed.audit(network), [t.samples.tolist() for t in traces]), []
def ask():
    for _ in range(20):
        if (mseed.audit(network), [t.samples.tolist() for t in mseed.read(network)]) != want:
            others.append(1)
threads = [threading.Thread(target=ask) for _ in range(8)]
[t.start() for t in threads], [t.join() for t in threads]
print(others)
"""

OBSPY = """
import sys, mseed
sys.path.insert(0, sys.argv[2])
trace = mseed.read(sys.argv[1] + "/two_records.mseed")[0]
made = trace.to_obspy()
print(type(made).__module__, made.stats["network"], made.stats["station"], repr(made.stats["location"]),
      made.stats["channel"], made.stats["starttime"].ns, made.stats["sampling_rate"], made.data is trace.samples)
"""


def run(built: Path, script: str, folder: str, numpy: bool = True) -> str:
    """What a script prints."""
    ended = python(built, ["-c", script, str(SAMPLES), folder], numpy=numpy)
    return (ended.stdout + ended.stderr).decode()


def at_random(built: Path, numpy: bool) -> Cases:
    """Archives and series at random."""
    count, parts = (ARCHIVES // PARTS, PARTS) if numpy else (WITHOUT, 1)
    manner = "with NumPy" if numpy else "without NumPy"

    def one(seed: int) -> str:
        words = [str(SOURCES / "library_archives.py"), str(seed), str(count), str(count // 10)]
        ended = python(built, words, numpy=numpy, MSEED=str(PROGRAM))
        return (ended.stdout + ended.stderr).decode()

    with ThreadPoolExecutor(parts) as pool:
        for seed, outcome in enumerate(pool.map(one, range(20261125, 20261125 + parts))):
            yield Fact(f"archives {manner}, part {seed + 1}", f"{count} archives {count // 10} packings\n", outcome)


def command(built: Path) -> Cases:
    """python -m mseed audit FILE writes what the program writes, with its status."""
    for name in ("two_records", "network_gap", "network_cut"):
        file = SAMPLES / f"{name}.mseed"
        for option in ([], ["--each"], ["--part"]):
            with file.open("rb") as source:
                wanted = subprocess.run([str(PROGRAM), "audit", *option], stdin=source, stdout=subprocess.PIPE,
                                        check=False)
            came = python(built, ["-m", "mseed", "audit", *option, str(file)], numpy=False)
            yield Fact(f"python -m mseed audit {' '.join([*option, name])}", (wanted.returncode, wanted.stdout, b""),
                       (came.returncode, came.stdout, came.stderr))


def typed() -> Cases:
    """Each function and class of the package has a text, and each of its functions types."""
    for path in sorted((ROOT / "python" / "mseed").glob("*.py")):
        text = path.read_text(encoding="utf-8")
        for name, rest in re.findall(r"^ *(?:def|class) (\w+)([^\"]*?):\n(?= *\"\"\")", text, re.MULTILINE | re.DOTALL):
            if "(" in rest and not name.lstrip("_")[:1].isupper():
                yield holds(f"{path.name}: {name} has types", "->" in rest, rest)
        unreported = re.findall(r"^ *(?:def|class) (\w+)[^\"]*?:\n(?! *\"\"\")", text, re.MULTILINE)
        yield Fact(f"{path.name}: texts are missing of", [], [name for name in unreported if not name.startswith("__")])


def rows() -> Cases:
    """All of them."""
    yield from typed()
    built = library()
    if built is None or not os.path.exists(PYTHON):
        yield Skipped("the package for Python", WANTS)
        return
    with tempfile.TemporaryDirectory() as folder:
        yield Fact("by hand, without NumPy", EXPECTED, run(built, BY_HAND, folder, numpy=False))
        yield from command(built)
        yield Fact("an ObsPy trace, without NumPy", "obspy XX STA '' BHZ 1704067200000000000 20.0 False\n",
                   run(built, OBSPY, STAND_IN, numpy=False))
        yield from at_random(built, False)
        if not has_numpy():
            yield Skipped("the package with NumPy", NUMPY)
            return
        yield Fact("by hand, with NumPy", EXPECTED, run(built, BY_HAND, folder))
        yield Fact("what is asked for", SELECTED, run(built, SELECTING, folder))
        ended = python(built, [str(SOURCES / "library_selections.py"), "7", "200"])
        yield Fact("selections at random", "1600 selections\n", (ended.stdout + ended.stderr).decode())
        yield Fact("views and threads", "{'int32'} 9 9\n[0, 1, 2, 3, 4] True\n[]\n", run(built, WITH_NUMPY, folder))
        yield Fact("an ObsPy trace", "obspy XX STA '' BHZ 1704067200000000000 20.0 True\n", run(built, OBSPY, STAND_IN))
        yield from at_random(built, True)
