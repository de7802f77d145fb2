"""`make audit`, `make show`, `make select` and `make repack` in a copy of the repository, with a stand-in for the
toolchain: how they end, for files of any name and for those that aren't there, and when they say that proving takes long."""

from __future__ import annotations

import shutil
import tempfile
from pathlib import Path

from driver.program import SAMPLES
from driver.rows import Cases, Fact, Skipped, holds
from driver.stand_in import LONG, Copy

BUILT = "Proved and built."
AUDITED = ["XX_STA__BHZ continuous 2024-01-01T00:00:00.000000 rate 20/1 records 2 samples 32", "records 2 channels 1"]
BROKEN = ["XX_STA__BHZ broken findings 1 first record 2 offset 128 gap 25001", "records 2 channels 1"]
# By each of the targets, where its file isn't there.
WORDS = ["audit", "show", "select", "repack"]
ODD = """a b'c"d.mseed"""


def long(copy: Copy) -> Cases:
    """Where nothing was built, a source has changed, or the toolchain is another one, it is said that it takes long."""
    first = [LONG, BUILT, *AUDITED, "status 0"]
    yield Fact("make audit, the first time", (0, first, ""), copy.make("audit"))
    yield Fact("make audit, the second time", (0, first[1:], ""), copy.make("audit"))
    copy.change("mseed_time")
    yield Fact("make build, a source has changed", (0, [LONG, BUILT], ""), copy.make("build"))
    yield Fact("make build, and has been proved", (0, [BUILT], ""), copy.make("build"))
    yield Fact("make build, by another toolchain", (0, [LONG, BUILT], ""), copy.make("build", version="another kit"))
    yield Fact("make build, by it again", (0, [BUILT], ""), copy.make("build", version="another kit"))
    copy.make("build")


def files(copy: Copy) -> Cases:
    """Files that are there, and others."""
    shutil.copy(SAMPLES / "gap.mseed", copy.folder / ODD)
    status, lines, report = copy.make("audit", f"FILE={ODD}")
    yield Fact("make audit of a broken archive", (2, [BUILT, *BROKEN, "status 1"]), (status, lines))
    yield holds("it is make's error", "audit] Error 1" in report, report)
    shutil.copy(SAMPLES / "two_records.mseed", copy.folder / ODD)
    status, lines, report = copy.make("repack", f"FILE={ODD}", f"OUT={ODD}.new")
    yield Fact("make repack", (0, [BUILT, f"Packed into {ODD}.new.", "status 0"], ""), (status, lines, report))
    yield Fact("what it packed", [512], [path.stat().st_size for path in copy.folder.glob("*.new")])
    asked = [f"FILE={ODD}", "CHANNELS=XX_*_*_BH?", "UNTIL=2024-01-01T00:00:00.8"]
    selected = copy.make("select", *asked, f"OUT={ODD}.some")
    yield Fact("make select", (0, [BUILT, f"Selected into {ODD}.some.", "status 0"], ""), selected)
    first = (SAMPLES / "two_records.mseed").read_bytes()[:128]
    yield Fact("what it selected", [first], [path.read_bytes() for path in copy.folder.glob("*.some")])
    yield Fact("make select of all", (0, [BUILT, "Selected into selected.mseed.", "status 0"], ""), copy.make("select"))
    status, lines, report = copy.make("select", "FROM=2024-13", f"OUT={ODD}.none")
    yield Fact("make select of no time", (2, [BUILT, "status 3"], []),
               (status, lines, list(copy.folder.glob("*.none*"))))
    for word in WORDS:
        for name in ("/none", "samples", f"{ODD}.none"):
            status, lines, report = copy.make(word, f"FILE={name}")
            yield Fact(f"make {word} FILE={name}", (2, []), (status, lines))
            yield holds("the file is named", report.startswith(f"FILE={name}: no file that can be read\n"), report)
    status, lines, report = copy.make("repack", "FILE=samples/gap.mseed", "OUT=gap.packed")
    yield Fact("make repack of a broken archive", (2, [BUILT, "status 1"]), (status, lines))
    why = "mseed: XX_STA__BHZ is broken\nmseed: record 2 offset 128 gap 25001\n"
    yield holds("it says why", report.startswith(why), report)
    yield Fact("and leaves nothing", [], list(copy.folder.glob("gap.packed*")))
    status, lines, report = copy.make("repack", "OUT=none/packed")
    yield Fact("make repack into no folder", (True, "status 0" in lines), (status == 2, False))
    yield holds("it is named", "none/packed" in report, report)


def rows() -> Cases:
    """All of them."""
    if shutil.which("make") is None:
        yield Skipped("make audit, show, select and repack", "make")
        return
    with tempfile.TemporaryDirectory() as folder:
        copy = Copy(Path(folder))
        yield from long(copy)
        yield from files(copy)
