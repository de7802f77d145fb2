"""Commands that documents show, and what they print."""

from __future__ import annotations

import contextlib
import os
import re
import signal
import subprocess
import tempfile
from pathlib import Path
from typing import Iterator, Mapping, Optional

from driver.links import free_port
from driver.program import BUILT, LIMIT, PROGRAM, ROOT
from driver.rows import Cases, Fact


def examples(text: str) -> Iterator[tuple[str, str]]:
    """The commands of a document, the lines `$ ..` of its blocks marked `console`, each with the lines after it. One
    that ends in `|`, `&&` or a backslash goes on in the next line. Those of `make` are left out: they stand for the
    gate itself."""
    for block in re.findall(r"^```console\n(.*?)^```", text, re.MULTILINE | re.DOTALL):
        for part in re.split(r"^\$ ", block, flags=re.MULTILINE)[1:]:
            command, printed = re.match(r"((?:[^\n]*(?:\||&&|\\)\n)*[^\n]*)\n?(.*)", part, re.DOTALL).groups()
            if not command.startswith("make"):
                yield command, printed


def printed_by(command: str, folder: str, env: Optional[Mapping[str, str]] = None) -> str:
    """What a command prints. The program is the one that is tested, by its path or as `mseed`, a port that the command
    names is another one here, that nobody uses, and this folder is /tmp. Whatever was started is over then."""
    command = re.sub(r"--port \d+", f"--port {free_port()}", command).replace("/tmp/", folder + "/")
    command = command.replace(str(BUILT.relative_to(ROOT)), str(PROGRAM))
    with contextlib.suppress(FileExistsError):
        os.symlink(PROGRAM, Path(folder) / "mseed")
    run = subprocess.Popen(["bash", "-c", command], cwd=ROOT, stdin=subprocess.DEVNULL, stdout=subprocess.PIPE,
                           stderr=subprocess.STDOUT, text=True, start_new_session=True,
                           env={**os.environ, "PATH": f"{folder}:{os.environ['PATH']}", **(env or {})})
    try:
        return run.communicate(timeout=LIMIT)[0]
    except subprocess.TimeoutExpired:
        return "no end"
    finally:
        with contextlib.suppress(ProcessLookupError):
            os.killpg(run.pid, signal.SIGKILL)
        run.wait()


def shown_in(document: str) -> Cases:
    """Each command that a document shows prints what stands there."""
    text = (ROOT / document).read_text(encoding="utf-8")
    with tempfile.TemporaryDirectory() as folder:
        for command, printed in examples(text):
            came = printed_by(command, folder)
            # Where a reader leaves, each end of the pipe has a line of its own, and either may come first.
            if "| head " in command and sorted(came.splitlines()) == sorted(printed.splitlines()):
                came = printed
            yield Fact(f"{document}: {command}", printed, came)
