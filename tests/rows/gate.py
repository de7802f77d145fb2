"""The gate of tests/run.py, over a stand-in for the toolchain: what it counts as failed besides what `rt ci` does, and
that it goes over what it has built."""

from __future__ import annotations

import contextlib
import io
import os
import shutil
import sys
import tempfile
from pathlib import Path
from typing import Iterator
from unittest import mock

import run
from driver import library
from driver.counting import Count, judge
from driver.rows import Cases, Fact, Skipped, holds
from driver.stand_in import Copy

CRATE = "mseed_time"


@contextlib.contextmanager
def over(copy: Copy, **more: str) -> Iterator[io.StringIO]:
    """As if the copy were the repository: gives what is printed."""
    out = copy.folder / "crates"
    there = {run: {"ROOT": copy.folder, "BUILT": out / "mseed/out/mseed"},
             library: {"ROOT": copy.folder, "BUILT": out / "mseed_c/out/lib", "LATE": copy.folder / "late/library"}}
    with contextlib.ExitStack() as patched, contextlib.redirect_stdout(io.StringIO()) as said:
        patched.enter_context(mock.patch.dict(os.environ, copy.environment(**more), clear=True))
        for module, names in there.items():
            patched.enter_context(mock.patch.multiple(module, **names))
        yield said


def counted(copy: Copy) -> Cases:
    """What is counted of `rt ci`."""
    folder = copy.folder / "crates" / CRATE / "must-fail"
    folder.mkdir()
    (folder / "one.edit").write_text("file: src/lib.rt\n", encoding="ascii")
    for name, more, wanted in [("all is well", {}, Count(3)), ("an edit is bad", {"RT_BAD": "one.edit"}, Count(3, 1)),
                               ("one has another shape", {"RT_SHAPE": "one.edit"}, Count(2, 1)),
                               ("a crate isn't proved", {"RT_FAILS": CRATE}, Count(0, 1))]:
        with over(copy, RT_PASSED="3", **more):
            found = run.gate()
        yield Fact(f"the gate's count where {name}", wanted, found)


def library_fails(copy: Copy) -> Cases:
    """`make lib` fails: what the stand-in builds isn't proved, or is no archive."""
    for name, more, wanted in [("isn't proved", {"RT_FAILS": "mseed_c"}, "not proved"), ("has no archive", {}, "ar: ")]:
        with over(copy, **more) as said:
            found = run.library_of_gate()
        yield Fact(f"a library that {name} fails in the gate", Count(failed=1), found)
        yield holds("it is shown why, and counted", wanted in said.getvalue() and "FAILED make lib: status 2\n"
                    in said.getvalue(), said.getvalue())


def named_again() -> Cases:
    """What failed stands once more just before the count, where whoever sees the end of a long run alone finds it."""
    count = Count(passed=2)
    with contextlib.redirect_stdout(io.StringIO()):
        for case in (Fact("as it has to be", 1, 1), Fact("another than it has to be", 1, 2)):
            judge(case, count, False)
    count.add(Count.failure("make lib"))
    yield Fact("what failed is named before the count",
               ["FAILED, as shown above: another than it has to be", "FAILED, as shown above: make lib",
                "3 passed, 2 failed"], count.lines().splitlines())


def named_from_outside() -> Cases:
    """$MSEED and $MSEED_LIB don't reach the gate: it begins anew without them."""
    class Begun(Exception):
        """It begins anew."""

    env = {**os.environ, "MSEED": "/another/program", "MSEED_LIB": "/another/library", "ELSE": "stays"}
    for words, wanted in [(["--gate"], (["tests/run.py", "--gate"], {"ELSE": "stays"})), (["--list"], None)]:
        met = None
        with mock.patch.dict(os.environ, env), mock.patch.object(sys, "argv", ["tests/run.py", *words]), \
                mock.patch.object(os, "execve", side_effect=Begun) as begun, \
                contextlib.redirect_stdout(io.StringIO()), contextlib.suppress(Begun):
            run.main()
        if begun.called:
            _, said, given = begun.call_args[0]
            met = said[1:], {name: given[name] for name in ("MSEED", "MSEED_LIB", "ELSE") if name in given}
        yield Fact(f"tests/run.py {words[0]} begins anew, with what of the environment", wanted, met)


def rows() -> Cases:
    """All of them."""
    yield from named_from_outside()
    yield from named_again()
    with tempfile.TemporaryDirectory() as folder:
        copy = Copy(Path(folder))
        yield from counted(copy)
        if shutil.which("make") and shutil.which("ar"):
            yield from library_fails(copy)
        else:
            yield Skipped("a library that can't be built", "make and ar")
