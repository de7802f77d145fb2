"""Each command of the pages about the tools, of the operator's page and of that for whoever comes from other programs
prints what stands there, but for the whole loop of the cookbook, which goes through one shell: tools_loop.py. Commands
of programs that aren't installed are skipped, with those that want what they leave behind; and each tool is named in
its page."""

from __future__ import annotations

import contextlib
import re
import shutil
import tempfile
from pathlib import Path
from typing import Iterator

from driver.examples import examples, printed_by
from driver.program import ROOT, SOURCES
from driver.rows import Cases, Fact, Skipped, holds
from driver.slurm import PACKAGES, NotUp, is_installed, slurm
from driver.tools import TOOLS
from rows import tools_loop
from rows.tools_cluster import DASK, with_dask

DOCUMENTS = ["tools/README.md", "docs/cookbook.md", "docs/operating.md", "docs/coming-from.md"]
MOST_LINES = 400


class Lacks(Exception):
    """What isn't installed."""


@contextlib.contextmanager
def environment(command: str, folder: Path) -> Iterator[dict[str, str]]:
    """What a command runs in, if it is one of those that want what not every machine has. Other machines are this one.
    Raises Lacks where it isn't there."""
    if "parallel " in command:
        if shutil.which("parallel") is None:
            raise Lacks("parallel")
        yield {"PARALLEL_SSH": str(SOURCES / "local_ssh.sh")}
    elif "tools/slurm " in command:
        if not is_installed():
            raise Lacks(PACKAGES)
        try:
            with slurm(folder / "slurm") as run:
                yield run.env
        except NotUp as error:
            raise Lacks(f"a Slurm that comes up here: {error}") from error
    elif "tools/dask_audit " in command:
        python = with_dask()
        if python is None:
            raise Lacks(DASK)
        (folder / "python3").write_text(f'#!/bin/sh\nexec {python} "$@"\n', encoding="utf-8")
        (folder / "python3").chmod(0o755)
        yield {}
    else:
        yield {}


def commands(document: str) -> Cases:
    """Those of a page."""
    text = (ROOT / document).read_text(encoding="utf-8")
    text = text.replace(tools_loop.page(), "")
    with tempfile.TemporaryDirectory() as folder:
        for command, wanted in examples(text):
            try:
                with environment(command, Path(folder)) as env:
                    came = printed_by(command, folder, env)
            except Lacks as lacking:
                yield Skipped(f"{document}: {command}", str(lacking))
                continue
            yield Fact(f"{document}: {command}", wanted, came.replace(folder + "/", "/tmp/"))


def names() -> Cases:
    """Each tool has its part of the page, and no file is long."""
    text = (TOOLS / "README.md").read_text(encoding="utf-8")
    for path in sorted(path for path in TOOLS.iterdir() if path.is_file() and not path.suffix):
        yield holds(f"tools/README.md: {path.name}", re.search(rf"^## .*\b{path.name}\b", text, re.MULTILINE))
        words = path.read_text(encoding="utf-8")
        yield holds(f"{path.name}: an example in its help", f'"""example:\n  {path.name} ' in words)
    for path in sorted([*TOOLS.glob("mseed_tools/*.py"), *(path for path in TOOLS.iterdir() if path.is_file())]):
        lines = path.read_text(encoding="utf-8").splitlines()
        yield holds(f"{path.name} has fewer than {MOST_LINES} lines", len(lines) < MOST_LINES, len(lines))


def rows() -> Cases:
    """All of them."""
    yield from names()
    for document in DOCUMENTS:
        yield from commands(document)
