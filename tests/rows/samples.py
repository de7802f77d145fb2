"""The archives of the sample network are those that samples/make.py makes, each sample's audit is that of a second
program (models/auditing.py), and samples/README.md quotes it and shows commands that print what stands there."""

from __future__ import annotations

import os
import re
import subprocess
import sys
import tempfile
from pathlib import Path

from driver.examples import shown_in
from driver.program import PROGRAM, SAMPLES
from driver.rows import Cases, Fact, Row, holds
from models.auditing import audit


def archives_in(folder: Path) -> list[str]:
    """The names of the archives in a folder."""
    return sorted(path.name for path in folder.glob("*.mseed"))


def made_anew() -> Cases:
    """What make.py writes is what is kept."""
    with tempfile.TemporaryDirectory() as name:
        subprocess.run([sys.executable, str(SAMPLES / "make.py"), name], check=True, timeout=100,
                       env={**os.environ, "MSEED": str(PROGRAM)})
        made = {archive: (Path(name) / archive).read_bytes() for archive in archives_in(Path(name))}
    kept = [archive for archive in archives_in(SAMPLES) if archive.startswith("network")]
    yield Fact("the names of the network's archives", kept, sorted(made))
    for archive in kept:
        yield holds(f"{archive} made anew", made.get(archive) == (SAMPLES / archive).read_bytes())


def audits() -> Cases:
    """Each sample's audit is that of the second program, and its row of the table quotes it."""
    table = (SAMPLES / "README.md").read_text(encoding="utf-8")
    for name in archives_in(SAMPLES):
        archive = (SAMPLES / name).read_bytes()
        text, status = audit(archive)
        yield Row(f"{name} audited", archive, ["audit"], status, text)
        row = re.search(rf"^\| `{re.escape(name)}` \|.*\|(.*)\|$", table, re.MULTILINE)
        quoted = re.findall("`([^`]+)`", row.group(1)) if row else []
        yield holds(f"{name} in the table", quoted and all(part in text.decode() for part in quoted), quoted)


def rows() -> Cases:
    """All of them."""
    yield from made_anew()
    yield from audits()
    yield from shown_in("samples/README.md")
