"""The helpers in C, each built once into tests/out and built anew where its source is newer."""

from __future__ import annotations

import os
import shutil
import subprocess
from dataclasses import replace
from pathlib import Path
from typing import Iterator, Optional, Sequence

from driver.program import ROOT, SOURCES
from driver.rows import Result, Row

COMPILER = "a C compiler"


def built(source: str, product: str, options: Sequence[str]) -> Optional[Path]:
    """What a C compiler makes of a source; nothing where none is installed."""
    made, code = ROOT / "tests" / "out" / product, SOURCES / source
    if made.exists() and made.stat().st_mtime > code.stat().st_mtime:
        return made
    if shutil.which("cc") is None:
        return None
    made.parent.mkdir(exist_ok=True)
    # Others may build the same meanwhile: whoever is last replaces what is whole by what is whole.
    part = made.with_name(f"{product}.{os.getpid()}")
    subprocess.run(["cc", "-O1", "-o", str(part), str(code), *options], check=True)
    part.replace(made)
    return made


def library(name: str) -> Optional[str]:
    """The path of a library that is put before the C library (LD_PRELOAD), if it can be built."""
    made = built(f"{name}.c", f"{name}.so", ["-shared", "-fPIC", "-ldl"])
    return made and str(made)


def preloaded(library: str, **settings: object) -> dict[str, str]:
    """The environment of a run with a library before the C library, and with these settings of it."""
    return {"LD_PRELOAD": library, **{name: str(value) for name, value in settings.items()}}


def refused_in_turn(row: Row, refusing: str) -> Iterator[tuple[int, Result]]:
    """The runs of a row with its first allocation refused, its second, and so on; whoever asks stops at the first that
    has all its memory."""
    for number in range(1, 1001):
        yield number, replace(row, env=preloaded(refusing, REFUSE=number)).run()
