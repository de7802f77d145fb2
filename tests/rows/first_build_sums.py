"""What crates/prove.py takes as proved, over a stand-in for the toolchain: what was made of the same files, by
checksums that were taken before the proof began, and is built to the same. Times of files are nothing to it, and
neither a file of an older date nor one that changes while its crate is proved is ever called proved. So it is of what
the toolchain's gate has built; and an edit that shows nothing of a contract fails in the gate."""

from __future__ import annotations

import os
import shutil
import subprocess
import tempfile
from pathlib import Path
from typing import Sequence

from driver.program import LIMIT
from driver.proving import prove
from driver.rows import Cases, Fact, Skipped
from driver.stand_in import FIRST, NEXT, Copy

PROGRAM = ["mseed", "run", "--", "audit"]
KEEPING = ["--keep", *PROGRAM]
EVERYTHING = {"mseed", *prove.below("mseed")}
# A crate in the middle, and those of the program that stand on it.
CRATE = "mseed_text"
ABOVE = {at for at in EVERYTHING if CRATE in {at, *prove.below(at)}}
# A day before all of these files were written, as a time of a file and as git has it.
OLD, OLD_DATE = 10 ** 9, "2001-09-09T01:46:40Z"
BUILT = "Proved and built."


def begun(copy: Copy, *words: str, **more: str) -> set[str]:
    """Which crates are proved now."""
    copy.logged()
    copy.prove(*words, **more)
    return {crate for word, crate in copy.logged() if word == "begin"}


def told(crate: str) -> str:
    """What is said of a crate that changed too soon."""
    return f"{crate} has changed since its proof began: the same command proves it once more."


def copied_over(copy: Copy) -> Cases:
    """A source that is put in place with an older date, by `cp -p`."""
    source, other = copy.source(CRATE), copy.folder / "other.rt"
    other.write_text(source.read_text(encoding="utf-8") + "// A wrong body.\n", encoding="utf-8")
    os.utime(other, (OLD, OLD))
    subprocess.run(["cp", "-p", other, source], check=True)
    yield Fact("by cp -p a source has an older date", OLD, source.stat().st_mtime)
    yield Fact("what is made of it is proved", ABOVE, begun(copy, *PROGRAM))


def unpacked_over(copy: Copy) -> Cases:
    """The same by an archive of a commit, which is unpacked over the tree."""
    source = copy.source(CRATE)
    with tempfile.TemporaryDirectory() as folder:
        there = Path(folder) / source.relative_to(copy.folder)
        there.parent.mkdir(parents=True)
        there.write_text(source.read_text(encoding="utf-8") + "// Another wrong body.\n", encoding="utf-8")
        env = {**os.environ, "GIT_AUTHOR_DATE": OLD_DATE, "GIT_COMMITTER_DATE": OLD_DATE}
        named = ["-c", "user.name=a", "-c", "user.email=a@example.org"]
        for words in (["init", "--quiet"], ["add", "."], [*named, "commit", "--quiet", "--message", "a wrong body"]):
            subprocess.run(["git", *words], cwd=folder, env=env, check=True)
        made = subprocess.run(["git", "archive", "HEAD"], cwd=folder, stdout=subprocess.PIPE, check=True).stdout
        subprocess.run(["tar", "--extract"], cwd=copy.folder, input=made, check=True)
    yield Fact("by git archive a source has an older date", OLD, source.stat().st_mtime)
    yield Fact("what is made of it is proved", ABOVE, begun(copy, *PROGRAM))


def changed_while_proved(copy: Copy) -> Cases:
    """A source that changes once its crate's proof, or that of one above it, has begun."""
    for words in (PROGRAM, KEEPING):
        name = " ".join(words)
        copy.change(CRATE)
        copy.logged()
        status, lines = copy.prove(*words, RT_WHILE=CRATE, RT_CHANGED=str(copy.source(CRATE)))
        yield Fact(f"{name}: a source changes while its crate is proved", (1, [told(CRATE)]),
                   (status, [line for line in lines if not FIRST.fullmatch(line) and not NEXT.fullmatch(line)]))
        done = {crate for word, crate in copy.logged() if word == "begin"}
        yield Fact("nothing above it is begun", {CRATE}, done & ABOVE)
        yield Fact("the next call proves it", ABOVE, begun(copy, *words) & ABOVE)
        copy.change("mseed")
        status, lines = copy.prove(*words, RT_WHILE="mseed", RT_CHANGED=str(copy.source(CRATE)))
        yield Fact(f"{name}: it changes while the program is proved", (1, told(CRATE)), (status, lines[-1]))
        yield Fact("the next call proves that", ABOVE, begun(copy, *words) & ABOVE)
        copy.change("mseed")
        status, lines = copy.prove(*words, RT_WHILE="mseed", RT_CHANGED=str(copy.source("mseed")), RT_BACK="1")
        yield Fact(f"{name}: one that is changed back meanwhile was not read", 0, status)


def said_by_make(copy: Copy) -> Cases:
    """What make says of it, without and with what checks have kept."""
    for _ in range(2):
        env = copy.environment(RT_WHILE="mseed", RT_CHANGED=str(copy.source("mseed")))
        copy.change("mseed")
        run = subprocess.run(["make", "build"], cwd=copy.folder, env=env, stdin=subprocess.DEVNULL, text=True,
                             stdout=subprocess.PIPE, stderr=subprocess.PIPE, timeout=LIMIT, check=False)
        yield Fact("make build ends with what has changed", (2, told("mseed")),
                   (run.returncode, run.stdout.splitlines()[-1]))
        yield Fact("and then it is proved", (0, BUILT), (copy.make("build")[0], copy.make("build")[1][-1]))
        copy.prove("--keep", *PROGRAM)


def found_again(copy: Copy) -> Cases:
    """What was proved is found again, unless something that it was made of has changed, or what it was built to."""
    yield Fact("at first all are proved", EVERYTHING, begun(copy, *PROGRAM))
    yield Fact("nothing has changed", set(), begun(copy, *PROGRAM))
    os.utime(copy.source(CRATE))
    yield Fact("a source has another date alone", set(), begun(copy, *PROGRAM))
    copy.change(CRATE)
    yield Fact("a source has changed", ABOVE, begun(copy, *PROGRAM))
    (copy.folder / "crates" / CRATE / "proofs").mkdir()
    (copy.folder / "crates" / CRATE / "proofs" / "Lib.antt").write_text("mod More\n", encoding="ascii")
    yield Fact("a file of proofs is new", ABOVE, begun(copy, *PROGRAM))
    lines = copy.folder / "crates.txt"
    lines.write_text(lines.read_text(encoding="utf-8").replace(f"\n{CRATE}: ", f"\n{CRATE}: std "), encoding="utf-8")
    yield Fact("its line of crates.txt is another one", ABOVE, begun(copy, *PROGRAM))
    (copy.folder / "HANDLES").write_text("Handles allowed: none.\n", encoding="ascii")
    yield Fact("HANDLES is another one", EVERYTHING, begun(copy, *PROGRAM))
    yield Fact("the toolchain is another one", EVERYTHING, begun(copy, *PROGRAM, RT_VERSION="another kit"))
    yield Fact("nor is what the other one built", EVERYTHING, begun(copy, *PROGRAM))
    for mark in copy.folder.glob("crates/*/out/proved"):
        mark.write_text("a kit\n", encoding="ascii")
    yield Fact("no checksums are there", EVERYTHING, begun(copy, *PROGRAM))
    (copy.folder / "crates/mseed/out/mseed").write_bytes(b"#!/bin/sh\n")
    yield Fact("the program was replaced", {"mseed"}, begun(copy, *PROGRAM))
    (copy.folder / "crates/mseed/out/mseed").unlink()
    yield Fact("the program is gone", {"mseed"}, begun(copy, *PROGRAM))


def over_others(copy: Copy) -> Cases:
    """Libraries that `rt` built anew, or that are gone: the program was proved over what they were, and what is built
    next wants them."""
    text = copy.folder / "crates" / CRATE / "out" / "rlib"
    for name, change in [("rt has built a library anew", lambda: (text / f"{CRATE}.rlib/format").write_text("rt")),
                         ("a library is gone", lambda: shutil.rmtree(text))]:
        change()
        yield Fact(f"{name}: the program stays proved", set(), begun(copy, *PROGRAM))
        yield Fact(f"{name}: libraries are built over it", ABOVE - {"mseed"}, begun(copy, "mseed"))
        yield Fact(f"{name}: so they are there", set(), begun(copy, "mseed"))
    yield Fact("of what the compiler built rt has no mark", EVERYTHING, begun(copy, *KEEPING))
    yield Fact("with --keep once more", {"mseed"}, begun(copy, *KEEPING))
    yield Fact("without, where checks have kept something", set(), begun(copy, *PROGRAM))
    copy.change(CRATE)
    yield Fact("once something has to be proved, it goes on as with --keep", ABOVE, begun(copy, *PROGRAM))
    yield Fact("all of them are found by rt", {"mseed"}, begun(copy, *KEEPING))
    for kept in copy.folder.glob("crates/*/out/incremental"):
        shutil.rmtree(kept)
    yield Fact("a toolchain that knows of no statements finds the program", set(), begun(copy, *PROGRAM, RT_OLD="1"))
    yield Fact("and rt what it built", {"mseed"}, begun(copy, *KEEPING, RT_OLD="1"))


def kept_of_one(copy: Copy) -> Cases:
    """All are proved without --keep, and then `rt` has kept something of one of them."""
    copy.prove(*PROGRAM)
    (copy.folder / "crates" / CRATE / "out/incremental/work").mkdir(parents=True)
    yield Fact("after a check of one crate nothing is proved once more", set(), begun(copy, *PROGRAM))
    copy.change("mseed")
    libraries = len(EVERYTHING) - 1
    more = (f"Of these {libraries} are proved, but not for checks, which have kept something here: they are proved "
            "once more, so that checks go on from them.")
    _, lines = copy.prove(*PROGRAM)
    yield Fact("where something has changed, it is said that they are, before they are", [True, more],
               [bool(FIRST.fullmatch(lines[0])), lines[1]])
    yield Fact("and then of each that it is", [True] * len(EVERYTHING), [bool(NEXT.fullmatch(at)) for at in lines[2:]])
    copy.change("mseed")
    yield Fact("and not again", [True, 1], [more not in copy.prove(*PROGRAM)[1], len(begun(copy, *KEEPING))])


def gated(copy: Copy) -> Cases:
    """What the toolchain's gate has built is found again, unless it failed or a source was touched meanwhile; and
    nothing that was built before it."""
    passed, failed = ["1 passed, 0 failed"], ["0 passed, 1 failed"]
    yield Fact("prove.py --gate ends as the gate does", (0, passed), copy.prove("--gate"))
    yield Fact("what it has built is found again", set(), begun(copy, *PROGRAM))
    yield Fact("its libraries too", set(), begun(copy, "mseed"))
    copy.change(CRATE)
    copy.prove(*PROGRAM)
    copy.prove("--gate")
    yield Fact("and that it is, not what was built before it", ("gate\n", set()),
               ((copy.folder / f"crates/{CRATE}/out/rlib/{CRATE}.rlib/format").read_text(encoding="ascii"),
                begun(copy, *PROGRAM)))
    yield Fact("the library for C is proved over that", {"mseed_c"}, begun(copy, "mseed_c", "lib"))
    copy.change(CRATE)
    yield Fact("what has changed since is proved", ABOVE, begun(copy, *PROGRAM))
    source = str(copy.source(CRATE))
    for name, more in [("changes", {}), ("changes and is changed back", {"RT_BACK": "1"})]:
        yield Fact(f"where a source {name} while it runs", (0, passed), copy.prove("--gate", RT_CHANGED=source, **more))
        yield Fact("what stands on that is proved", ABOVE, begun(copy, *PROGRAM))
    yield Fact("where it fails", (1, failed), copy.prove("--gate", RT_FAILS=CRATE))
    yield Fact("nothing is found", EVERYTHING, begun(copy, *PROGRAM))
    copy.prove(*KEEPING)
    yield Fact("where rt has built all", (0, passed), copy.prove("--gate"))
    marks = {path.parents[1].name for path in copy.folder.glob("crates/*/out/proved")}
    yield Fact("the gate gives that back, and rt finds it by its own marks", ({"mseed"}, EVERYTHING),
               (marks & EVERYTHING, begun(copy, *KEEPING)))


def tried_by_gate(copy: Copy) -> Cases:
    """An edit of the gate that shows nothing of a contract, of which `rt ci` says that it fails nothing."""
    folder = copy.folder / "crates" / CRATE / "must-fail"
    folder.mkdir()
    for name in ("one.edit", "two.edit"):
        (folder / name).write_text("file: src/lib.rt\n", encoding="ascii")
    idle = "FAILED, since they show nothing of a contract: "
    for name, more, wanted in [
            ("where both are refused", {}, (0, ["3 passed, 0 failed"])),
            ("one is bad", {"RT_BAD": "one.edit"}, (1, [f"{idle}{CRATE}/one.edit", "3 passed, 1 failed"])),
            ("one has another shape", {"RT_SHAPE": "two.edit"}, (1, [f"{idle}{CRATE}/two.edit", "2 passed, 1 failed"])),
            ("both", {"RT_BAD": "one.edit", "RT_SHAPE": "two.edit"},
             (1, [f"{idle}{CRATE}/one.edit, {CRATE}/two.edit", "2 passed, 2 failed"]))]:
        status, lines = copy.prove("--gate", RT_PASSED="3", **more)
        yield Fact(f"the gate, {name}", wanted, (status, [line for line in lines if not line.startswith("rt: ")]))
        yield Fact("it shows what rt says of each", [CRATE] * 2,
                   [line.split()[2].split("/")[0] for line in lines if line.startswith("rt: must-fail ")])
    astray = "rt: crates/a/must-fail/b/c.edit: BAD EDIT: an edit stands right in must-fail/"
    for line, wanted in [(astray, ("crates/a/must-fail/b/c.edit", 0)), ("rt: a: trying its must-fail edits (2)", None),
                         ("rt: must-fail a/b.edit: refused, as it must be: src/a.rt:1:1: error: BAD EDIT: no", None),
                         ("rt: must-fail a/b.edit: refused, as it must be", ("a/b.edit", 1)),
                         ("rt: must-fail a/b.edit: refused, as it must be (only by a limit of the prover, ..", None),
                         ("rt: must-fail a/b.edit: NOT REFUSED: the crate is still proved with this edit", None)]:
        yield Fact(f"what counts of {line}", wanted, prove.idle_edit(line))


def rows() -> Cases:
    """All of them."""
    old: Sequence = [copied_over, *([unpacked_over] if shutil.which("git") else [])]
    if not shutil.which("git"):
        yield Skipped("an archive of a commit, unpacked over the tree", "git")
    for part in ([found_again, *old, changed_while_proved], [kept_of_one], [found_again, over_others], [gated],
                 [tried_by_gate], [said_by_make] if shutil.which("make") else []):
        with tempfile.TemporaryDirectory() as folder:
            copy = Copy(Path(folder))
            for cases in part:
                yield from cases(copy)
