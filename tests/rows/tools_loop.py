"""The whole loop, as the cookbook has it: each command of its page prints what stands there, all of them in one shell,
from the recorder to the answer of a `curl`. Its client and its server are killed on the way; what the tree holds then,
and what the service answers, is compared with what the recorder wrote."""

from __future__ import annotations

import contextlib
import os
import re
import shutil
import signal
import subprocess
import tempfile
from pathlib import Path
from typing import Iterator, Sequence

from driver.examples import examples
from driver.links import free_port
from driver.program import LIMIT, PROGRAM, ROOT, SAMPLES
from driver.rows import Cases, Fact, Skipped, holds
from rows.tools_archive import tree_of

HEADING = "## The whole loop: "
# Stands before what each command prints.
MARK = "-- the next command --\n"


def page() -> str:
    """The part of the cookbook."""
    text = (ROOT / "docs" / "cookbook.md").read_text(encoding="utf-8")
    return re.split(r"^## ", text[text.index(HEADING) + 3 :], flags=re.MULTILINE)[0]


def records_in(content: bytes) -> Iterator[bytes]:
    """The records of some bytes, each with its length in a blockette 1000 right behind its header."""
    at = 0
    while at < len(content):
        yield content[at : at + (1 << content[at + 54])]
        at += 1 << content[at + 54]


def in_one_shell(commands: Sequence[str], folder: Path) -> list[str]:
    """What each command prints, where one shell runs all. Each port that they name is another one here, that nobody
    uses, and the folder is /tmp. Whatever was started is over then."""
    script = "".join(f"printf %s '{MARK}'\n{command}\n" for command in commands).replace("/tmp/", f"{folder}/")
    for port in sorted(set(re.findall(r"--port (\d+)", script))):
        script = re.sub(rf"\b{port}\b", str(free_port()), script)
    (folder / "bin").mkdir()
    (folder / "bin" / "mseed").symlink_to(PROGRAM)
    with tempfile.TemporaryFile() as output:
        run = subprocess.Popen(["bash", "-c", script], cwd=ROOT, stdin=subprocess.DEVNULL, stdout=output,
                               stderr=subprocess.STDOUT, start_new_session=True,
                               env={**os.environ, "PATH": f"{folder}/bin:{os.environ['PATH']}"})
        try:
            run.wait(LIMIT)
        except subprocess.TimeoutExpired:
            output.write(b"no end")
        finally:
            with contextlib.suppress(ProcessLookupError):
                os.killpg(run.pid, signal.SIGKILL)
            run.wait()
        output.seek(0)
        return output.read().decode().replace(f"{folder}/", "/tmp/").split(MARK)[1:]


def rows() -> Cases:
    """All of them."""
    if shutil.which("curl") is None:
        yield Skipped("the whole loop", "curl")
        return
    shown = list(examples(page()))
    with tempfile.TemporaryDirectory() as name:
        folder = Path(name)
        came = in_one_shell([command for command, _ in shown], folder)
        for (command, printed), one in zip(shown, [*came, *[""] * len(shown)]):
            yield Fact(f"the whole loop: {command}", printed, one)
        records = {one for one in records_in((SAMPLES / "network.mseed").read_bytes()) if one[8:13] != b"TARN "}
        tree = tree_of(folder / "loop" / "archive")
        held = sorted(one for part in tree.values() for one in records_in(part))
        yield Fact("the tree holds each record once", sorted(records), held)
        stands = {path: {one[8:20] for one in records_in(part)} for path, part in tree.items()}
        wanted = {f"2024/XX/{station}/BH{letter}.D/XX.{station}..BH{letter}.D.2024.135":
                  {f"{station:5}  BH{letter}XX".encode()} for station in ("KILN", "MOOR") for letter in "ENZ"}
        yield Fact("each in the file of its codes and day", wanted, stands)
        some = list(records_in((folder / "loop" / "minute.mseed").read_bytes()))
        yield holds("what came by curl is some of them, each once", set(some) <= records and
                    len(set(some)) == len(some) > 6, len(some))
