"""Relays of the crate slink_model, which no command calls: in a copy of the crates, sources/relay_rows.source is
compiled as tests of the crate, and run."""

from __future__ import annotations

import re
import shutil
import tempfile
from pathlib import Path

from driver.program import SOURCES
from driver.rows import Cases, Skipped, holds
from driver.toolchain import TOOLCHAIN, copied, is_installed, rt


def rows() -> Cases:
    """The tests of `relay`."""
    if not is_installed():
        yield Skipped("relays", TOOLCHAIN)
        return
    with tempfile.TemporaryDirectory() as name:
        crate = copied(Path(name), ["slink_model"]) / "slink_model"
        shutil.copy(SOURCES / "relay_rows.source", crate / "src" / "rows.rt")
        with (crate / "src" / "lib.rt").open("a", encoding="utf-8") as file:
            file.write("\n#[cfg(test)]\nmod rows;\n")
        run = rt(crate, ["try", "--test", "--seconds", "600"])
    log = (run.stdout + run.stderr).decode(errors="replace")
    code = (SOURCES / "relay_rows.source").read_text(encoding="utf-8")
    tests = re.findall(r"^#\[test\]\s+fn (\w+)", code, re.MULTILINE)
    for test in tests:
        yield holds(f"relay: {test}", re.search(rf"^test rows::{test} .*ok$", log, re.MULTILINE), log[-1500:])
    yield holds("relay has tests", tests)
