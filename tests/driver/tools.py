"""The tools beside the program, and an archive in the SDS layout that has whatever goes wrong with one.

The archive is of three stations with three channels each, at a sample a second, of the five days from 2016-12-30 to
2017-01-03: a leap second and a year's end lie between. All samples are 0, so that a packed record of 512 bytes holds
721 of them (103 words of seven), a day has 120 records, and so has that of the leap second, which is a second longer.
Records of 4,096 bytes hold 6,601 samples, and a day 14 of them.
"""

from __future__ import annotations

import ctypes
import os
import struct
import subprocess
import sys
import time
from pathlib import Path
from typing import Callable, Optional, Sequence

from driver.program import LIMIT, PROGRAM, ROOT
from driver.records import changed, record
from driver.rows import Result

TOOLS = ROOT / "tools"
# The days of the archive, by year and number, and how many seconds they have.
DAYS = [(2016, 365, 86400), (2016, 366, 86401), (2017, 1, 86400), (2017, 2, 86400), (2017, 3, 86400)]
LEAP = DAYS[1]
JUNK = b"logger 7: power lost, started again\n".ljust(512, b"\0")


# The rights by which root reads what nobody may: CAP_DAC_OVERRIDE and CAP_DAC_READ_SEARCH; and PR_CAPBSET_DROP.
READ_ALL, DROP = (1, 2), 24


def tool(name: str, *words: str, program: Optional[Path] = None,
         first: Optional[Callable[[], None]] = None) -> Result:
    """Runs a tool over the program that is tested, or over another one; in the process that becomes the tool something
    may be called first."""
    run = subprocess.run([sys.executable, str(TOOLS / name), *words], stdin=subprocess.DEVNULL, capture_output=True,
                         env={**os.environ, "MSEED": str(program or PROGRAM)}, timeout=LIMIT, check=False,
                         preexec_fn=first)
    return Result(run.returncode, run.stdout, run.stderr)


def as_others() -> None:
    """Gives up root's right to read what nobody may, for the program that is run next. Others have no such right."""
    prctl = ctypes.CDLL(None).prctl
    for right in READ_ALL:
        prctl(DROP, right, 0, 0, 0)


def losing(folder: Path) -> Path:
    """A program that does what the one that is tested does, but of the parts that it should join it reads one less, as
    if a part had been lost on its way."""
    path = folder / "losing"
    path.write_text(f"""\
#!{sys.executable}
import os, subprocess, sys
if sys.argv[1] != "join":
    os.execv({str(PROGRAM)!r}, [{str(PROGRAM)!r}, *sys.argv[1:]])
parts = sys.stdin.buffer.read()
left = parts[:max(0, parts.rfind(b"mseed part 1"))]
sys.exit(subprocess.run([{str(PROGRAM)!r}, *sys.argv[1:]], input=left, check=False).returncode)
""", encoding="utf-8")
    path.chmod(0o755)
    return path


def integers(codes: bytes, day: tuple[int, int, int], first: int = 1008) -> list[bytes]:
    """The records of a day as integers, in 4,096 bytes each; the first has so many samples, the next ones 1,008."""
    year, number, seconds = day
    records, at = [], 0
    while at < seconds:
        count = min(first if at == 0 else 1008, seconds - at)
        is_last = at + count == seconds
        records.append(record(codes=codes, year=year, day=number, hour=at // 3600, minute=at // 60 % 60, second=at % 60,
                              samples=count, factor=1, exponent=12, data=bytes(4 * count),
                              activity=16 if is_last and day == LEAP else 0))
        at += count
    return records


def packed(codes: bytes, day: tuple[int, int, int], length: int = 512) -> list[bytes]:
    """The records of a day, as the program packs them."""
    made = subprocess.run([str(PROGRAM), "repack", "--length", str(length)], input=b"".join(integers(codes, day)),
                          stdout=subprocess.PIPE, timeout=LIMIT, check=True).stdout
    return [made[at : at + length] for at in range(0, len(made), length)]


def place(station: str, channel: str, day: tuple[int, int, int], folder: Optional[str] = None) -> str:
    """The path of a file below the root."""
    year, number, _ = day
    return f"{year}/XX/{folder or station}/{channel}.D/XX.{station}..{channel}.D.{year}.{number:03}"


def with_blockette_100(codes: bytes, day: tuple[int, int, int]) -> list[bytes]:
    """The records of a day, of which the first has a blockette 100 after its 900 samples."""
    records = integers(codes, day, 900)
    marked = changed(records[0], [(58, struct.pack(">H", 4000)), (4000, struct.pack(">HHf", 100, 0, 1.0))])
    return [marked, *records[1:]]


def damaged(files: dict[str, list[bytes]]) -> None:
    """Brings in what goes wrong."""

    def of(station: str, channel: str, number: int) -> list[bytes]:
        return files[place(station, channel, DAYS[number])]

    # A gap of a record, and a record that was sent twice.
    del of("AAA", "BHE", 0)[50]
    of("AAA", "BHE", 3).insert(30, of("AAA", "BHE", 3)[30])
    # A day that was written twice, and two days that changed places.
    of("BBB", "BHZ", 2).extend(list(of("BBB", "BHZ", 2)))
    first, second = (place("BBB", "BHN", DAYS[number]) for number in (2, 3))
    files[first], files[second] = files[second], files[first]
    # Blockette 100, a record without samples, and a wrong constant in the tenth record of a day.
    files[place("CCC", "BHE", DAYS[0])] = with_blockette_100(b"CCC    BHEXX", DAYS[0])
    of("CCC", "BHE", 1).insert(5, record(codes=b"CCC    BHEXX", samples=0, exponent=9))
    of("CCC", "BHE", 4)[9] = changed(of("CCC", "BHE", 4)[9], [(72, struct.pack(">i", 1))])
    # A file that was cut, and junk and padding in the middle.
    of("CCC", "BHN", 1)[-1] = of("CCC", "BHN", 1)[-1][:-100]
    of("CCC", "BHN", 2).insert(60, JUNK)
    of("CCC", "BHN", 3).insert(60, bytes(4096))
    # An empty file, and one of another channel; the next one can't be read.
    of("CCC", "BHZ", 1).clear()
    files[place("CCC", "BHZ", DAYS[2])] = list(of("AAA", "BHZ", 2))
    del files[place("CCC", "BHZ", DAYS[3])]


def make_tree(root: Path) -> None:
    """Makes the archive. Its files are of yesterday."""
    files = {}
    for station, channel in ((station, channel) for station in ("AAA", "BBB", "CCC") for channel in "ZNE"):
        codes, length = f"{station}    BH{channel}XX".encode(), 4096 if (station, channel) == ("AAA", "N") else 512
        for day in DAYS:
            files[place(station, f"BH{channel}", day)] = packed(codes, day, length)
    for day in DAYS:
        del files[place("BBB", "BHE", day)]
        files[place("BBB", "LOG", day)] = [record(codes=b"BBB    LOGXX", year=day[0], day=day[1], hour=12, samples=20,
                                                  factor=0, multiplier=0, encoding=0, exponent=9, data=b"locked")]
    damaged(files)
    write_tree(root, {path: b"".join(records) for path, records in files.items()})
    (root / place("CCC", "BHZ", DAYS[3])).symlink_to("nothing")
    # A file in the wrong folder.
    misplaced = root / place("AAA", "BHZ", DAYS[4], folder="CCC")
    misplaced.write_bytes(b"".join(files[place("AAA", "BHZ", DAYS[4])]))


def write_tree(root: Path, files: dict[str, bytes]) -> None:
    """Writes files below a root."""
    for path, content in files.items():
        (root / path).parent.mkdir(parents=True, exist_ok=True)
        (root / path).write_bytes(content)


def rest() -> None:
    """Waits until a change of what was written before would show by its time."""
    time.sleep(0.2)


def outcome(result: Result) -> tuple[int, list[str], str]:
    """How a tool ended, the lines that it wrote, and what it reported."""
    return result.status, result.out.decode().splitlines(), result.err.decode()


def batches(items: Sequence[bytes], sizes: Sequence[int]) -> list[bytes]:
    """Records as files of so many each."""
    files, at = [], 0
    for size in sizes:
        files.append(b"".join(items[at : at + size]))
        at += size
    return files
