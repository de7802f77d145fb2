"""The edits of tests/must-fail by tenths, of which the gate tries one: each has its turn. Each edit can be applied: its
crate has the file, and the text that it turns stands there once. And one that is refused for its shape alone fails."""

from __future__ import annotations

import contextlib
import io
import os
import re
import shutil
import tempfile
from pathlib import Path
from typing import Optional
from unittest import mock

import edits
from driver.program import CRATES, SOURCES
from driver.rows import Cases, Fact, holds


# A crate that stands on no other.
LOW = "mseed_time"
TURN = 7


def by_turn() -> Cases:
    """The tenths, and whose turn it is."""
    tenths = edits.tenths()
    yield Fact("there are ten", 10, len(tenths))
    yield Fact("none is empty", [], [part for part, of in enumerate(tenths) if not of])
    yield Fact("together they are the whole list, each edit once", edits.edits_of(),
               [edit for of in tenths for edit in of])
    yield holds("they are of like size", max(map(len, tenths)) - min(map(len, tenths)) <= 1, list(map(len, tenths)))
    with tempfile.TemporaryDirectory() as folder:
        crates, tried = Path(folder) / "crates", Path(folder) / "must-fail"
        source, edit = crates / "a/src/lib.rt", tried / "a/b.edit"
        for file in (source, edit):
            file.parent.mkdir(parents=True)
        edit.write_text("", encoding="ascii")
        for name, file in (("a source", source), ("an edit", edit)):
            met = []
            for number in range(100):
                file.write_text(f"fn f() -> u32 {{ {number} }}\n", encoding="ascii")
                met.append(edits.turn(crates, tried))
            yield Fact(f"over a hundred changes of {name} each has its turn", set(range(10)), set(met))
        # By sha256sum.
        yield Fact("whose turn it is, of a source and an edit that both have 99", TURN, met[-1])
        (crates / "a/out").mkdir()
        (crates / "a/out/made").write_bytes(b"")
        yield Fact("what was made changes nothing", met[-1], edits.turn(crates, tried))
        source.rename(source.with_name("other.rt"))
        names = {edits.turn(crates, tried)}
        shutil.copytree(crates / "a/src", crates / "a/specs")
        names.add(edits.turn(crates, tried))
        yield holds("a file's name counts, and its folder", names != {met[-1]}, names)


def by_gate() -> Cases:
    """A tenth, and the edits of one crate, by a stand-in for the toolchain: each edit has to be refused for what it
    does."""
    with tempfile.TemporaryDirectory() as folder:
        kit = Path(folder) / "bin"
        kit.mkdir()
        for name in ("rt", "rattle"):
            (kit / name).symlink_to(SOURCES / "local_rt.sh")
        words = {"PATH": f"{kit}:{os.environ['PATH']}", "RT_PROGRAM": os.devnull}
        for way, some in ((edits.tried_by_gate, edits.tenths()[0]), (edits.tried, edits.edits_of([LOW]))):
            last = f"{some[-1].parent.name}/{some[-1].name}"
            for name, more, wanted in [("all are refused", {}, (0, None)),
                                       ("one is not", {"RT_MISSED": some[-1].name}, (1, f"not refused: {last}")),
                                       ("one is bad", {"RT_BAD": some[-1].name}, (1, f"not refused: {last}")),
                                       ("one is for its shape alone", {"RT_SHAPE": some[-1].name},
                                        (1, f"refused for their shape alone: {last}")),
                                       ("the toolchain fails", {"RT_FAILS": "all"}, (1, None))]:
                with mock.patch.dict(os.environ, {**words, **more}), contextlib.redirect_stdout(io.StringIO()) as said:
                    found = way(some)
                named = [line for line in said.getvalue().splitlines() if re.match("(not )?refused", line)]
                yield Fact(f"{way.__name__}, {name}: the status, and which one is named", wanted,
                           (found, named[0] if named else None))


def fault_of(edit: Path) -> Optional[str]:
    """Why an edit can't be applied, if it can't."""
    crate, texts, path, old = CRATES / edit.parent.name, {}, "", None
    for line in edit.read_text(encoding="utf-8").splitlines():
        word, _, text = line.partition(": ")
        if word == "file":
            path = text
            if not (crate / path).is_file():
                return f"no file {path}"
            texts.setdefault(path, (crate / path).read_text(encoding="utf-8"))
        elif word == "old":
            old = text
        elif re.match(r"new:", line):
            if old is None or not path:
                return "a new text without an old one"
            found = texts[path].count(old)
            if found != 1:
                return f"{path} has the text {found} times: {old}"
            texts[path], old = texts[path].replace(old, text), None
    if not texts or any((crate / path).read_text(encoding="utf-8") == text for path, text in texts.items()):
        return "it changes nothing"
    return None


def rows() -> Cases:
    """All of them."""
    yield from by_turn()
    yield from by_gate()
    there = {edit.parent.name for edit in edits.edits_of()}
    yield Fact("each folder is a crate's", set(), {name for name in there if not (CRATES / name).is_dir()})
    for edit in edits.edits_of():
        yield Fact(f"{edit.parent.name}/{edit.name} can be applied", None, fault_of(edit))
