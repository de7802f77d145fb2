#!/usr/bin/env python3
"""Says where the minutes of a first build go, by what the checks of its crates have kept.

    minutes.py [CRATE ..]
    minutes.py --dearest N [CRATE ..]
    minutes.py --measure CRATE ..

A check keeps, in the folder `out` of its crate, each module that it has checked, and of most modules a record of what
each declaration took of the prover: steps to elaborate it, and steps of the kernel, which checks it once more. They are
the same on every machine. So the crates have to be proved with --keep before, in a checkout in which no check has kept
anything of an earlier tree: `crates/prove.py --keep mseed`.

What each part takes is reckoned from these steps, by rates that were measured and stand below, and given in minutes by
the scale of crates/minutes.txt; those that were measured stand beside them. A crate for which they are far apart has
changed since.

With --dearest it lists the functions and lemmas that take most: of a function all that is made and proved of it. With
--measure it checks crates from nothing in one process each, in a folder of its own, and an empty crate with the same
line of crates.txt, and writes the seconds of processors beside those that are reckoned.
"""

from __future__ import annotations

import argparse
import collections
import json
import re
import resource
import shutil
import statistics
import subprocess
import sys
import tempfile
from pathlib import Path
from typing import Iterator, NamedTuple, Optional

from driver.program import CRATES
from driver.proving import prove

# Seconds of a process: for a million steps of the elaboration and of the kernel, for a MB of a module and its records,
# and for a module. Of a function's steps, spelled out, there is no record: for a MB of them, and this power of more.
ELABORATED, KERNEL, OTHER, MODULE, SPELLED, POWER = 0.38, 0.25, 0.1, 0.0006, 0.9, 1.29
# Seconds for which a crate starts and loads what lies below it, however many crates that are.
START = 13
PARTS = ["start", "derived", "contracts", "steps", "searched", "answers", "lemmas", "rest"]
DERIVED = re.compile(r"#\[derive\(([^)]*)\)\]\s*(?:(?:#\[|//)[^\n]*\s*)*(?:pub(?:\([^)]*\))? )?(?:struct|enum) (\w+)")
# The modules in which rattle spells out the steps of a function, and what they read and change.
STEPS = {"Lts", "Code", "Mir", "Reads", "Tie", "Layout", "Kinds", "Named", "View", "Given", "TheLink", "Symbol", "Met",
         "Statement", "Paired", "Pair"}
# What a proof consists of that has a file of its own.
BY_HAND = {"Answers", "Invariants", "Proof"}
# The tactics that rattle itself tries on a goal.
SEARCHES = {"search", "grind"}
RECORDS = '[{"aux":'
# The module before a function's name, where it isn't a type.
MODULES = re.compile(r"^[a-z]\w*::")


class Spent(NamedTuple):
    """Seconds that a crate's check spends on something: a part, of a function or a lemma, in so many goals that are
    searched for."""

    part: str
    owner: str
    seconds: float
    goals: int = 0


def records_of(file: Path) -> Iterator[dict]:
    """What a file of records says of each declaration. It has lists of them, between other bytes."""
    text, decoder = file.read_bytes().decode("utf-8", "surrogateescape"), json.JSONDecoder()
    at = text.find(RECORDS)
    while at >= 0:
        found, at = decoder.raw_decode(text, at)
        yield from found
        at = text.find(RECORDS, at)


def derived_in(crate: str) -> set[str]:
    """The implementations that a crate derives, as their modules are called."""
    texts = [file.read_text(encoding="utf-8") for file in (CRATES / crate / "src").rglob("*.rt")]
    return {made + word.split("::")[-1].strip() for text in texts for words, made in DERIVED.findall(text)
            for word in words.split(",")}


def owner_of(path: list[str]) -> str:
    """The function to which a module that was made of one belongs, closures with the function that has them."""
    inside = [at for at in path if at not in {*STEPS, *BY_HAND, "Goals"}]
    if "fn" in inside:
        at = inside.index("fn")
        inside = inside[:at] + inside[at + 1:]
        closure = next((place for place, name in enumerate(inside) if "+" in name), len(inside) - 1)
        inside = inside[:max(closure, at + 1)]
    return "::".join(inside[-2:])


def part_of(crate: str, library: str, path: list[str], derived: set[str]) -> str:
    """The part to which a module belongs."""
    if derived.intersection(path):
        return "derived"
    if not library.endswith("-proofs") or path[-1].startswith(("TheLaws", "TheReach", "TheSendSync")):
        return "contracts"
    if (CRATES / crate / "proofs" / Path(*path)).with_suffix(".antt").exists():
        return "answers" if path[-1] in BY_HAND else "lemmas"
    return "steps" if STEPS.intersection(path) else "rest"


def spent_on(crate: str) -> Iterator[Spent]:
    """What a crate's check spent on each declaration and module, without what it started and loaded."""
    derived = derived_in(crate)
    for kept in (CRATES / crate / "out" / "incremental").glob("*/*.oantt"):
        library, _, name = kept.name[:-len(".oantt")].partition(".")
        path = name.split(".") if name else ["Lib"]
        part, owner = part_of(crate, library, path, derived), owner_of(path)
        record = kept.parent / "records" / f"{kept.name[:-len('oantt')]}decls.oantt"
        size = kept.stat().st_size / 1e6
        if not record.exists():
            yield Spent(part, owner, MODULE + (size ** POWER * SPELLED if path[-1] == "Lts" else size * OTHER))
            continue
        yield Spent(part, owner, MODULE + (size + record.stat().st_size / 1e6) * OTHER)
        for one in records_of(record):
            seconds = (one["steps"][0] * ELABORATED + one["steps"][1] * KERNEL) / 1e6
            is_searched = part == "rest" and any(tactic in SEARCHES for tactic, *_ in one["calls"])
            yield Spent("searched" if is_searched else part, f"{path[-1]}.{one['name']}" if part == "lemmas" else owner,
                        seconds, int(is_searched))


def reckoned(crate: str, goals: Optional[collections.Counter] = None) -> dict[str, float]:
    """The seconds that each part of a crate's check takes by the rates; and goals that are searched for are counted."""
    seconds = {part: float(START) if part == "start" else 0.0 for part in PARTS}
    for spent in spent_on(crate):
        seconds[spent.part] += spent.seconds
        if goals is not None:
            goals[crate] += spent.goals
    return seconds


def row(*cells: object) -> str:
    """A row of a table."""
    return f"| {' | '.join(f'{cell:.1f}' if isinstance(cell, float) else str(cell) for cell in cells)} |"


def scale(found: dict[str, dict[str, float]]) -> float:
    """The minutes of minutes.txt for a second that is reckoned: what half of the crates have more of. Some of them may
    have changed since they were measured."""
    return statistics.median(prove.cost_of(crate).minutes / sum(seconds.values()) for crate, seconds in found.items())


def table(crates: list[str], goals: collections.Counter) -> None:
    """Writes the minutes of each crate by parts, and those of all."""
    found = {crate: reckoned(crate, goals) for crate in crates}
    factor, measured = scale(found), [prove.cost_of(crate).minutes for crate in crates]
    rows = [[sum(seconds.values()) * factor, *(seconds[part] * factor for part in PARTS)] for seconds in found.values()]
    print(row("crate", "measured", "reckoned", *PARTS, "goals"), "|---" * (len(PARTS) + 4) + "|", sep="\n")
    for crate, minutes, cells in zip(crates, measured, rows):
        print(row(f"`{crate}`", minutes, *cells, goals[crate]))
    sums = [sum(cells) for cells in zip(*rows)]
    print(row("in all", sum(measured), *sums, f"{sum(goals.values()):,}"))
    print(row("in the hundred", "", *(round(100 * cell / sums[0]) for cell in sums), ""))


def dearest(crates: list[str], most: int) -> None:
    """Writes the functions and lemmas that take most, two in a row: seconds by the scale of minutes.txt, and those of
    goals that are searched for."""
    factor = 60 * scale({crate: reckoned(crate) for crate in crates})
    whole: collections.Counter = collections.Counter()
    searched: collections.Counter = collections.Counter()
    for crate in crates:
        for spent in filter(lambda spent: spent.owner, spent_on(crate)):
            name = (spent.owner, f"`{crate}`")
            whole[name] += spent.seconds * factor
            searched[name] += spent.seconds * factor * spent.goals
    cells = [(f"`{MODULES.sub('', owner)}`", crate, round(seconds), round(searched[(owner, crate)]))
             for (owner, crate), seconds in whole.most_common(most)]
    half = (len(cells) + 1) // 2
    print(row(*["function or lemma", "crate", "seconds", "searched"] * 2), "|---" * 8 + "|", sep="\n")
    for one, other in zip(cells[:half], [*cells[half:], ("",) * 4]):
        print(row(*one, *other))


def seconds_of(crate: str, is_empty: bool) -> float:
    """The seconds of a processor that a crate's check takes from nothing, or that of an empty one with its line."""
    words = prove.steps_to(crate, 1)[0]
    words = [words[0], "check", *words[2:words.index("--jobs") + 2]]
    with tempfile.TemporaryDirectory() as folder:
        for part in [] if is_empty else prove.SOURCES:
            if (CRATES / crate / part).exists():
                shutil.copytree(CRATES / crate / part, Path(folder) / part)
        if is_empty:
            root = Path(folder) / next(word for word in words if word.startswith("src/"))
            root.parent.mkdir()
            root.write_text("#![tactic(auto)]\n" + "fn main() {}\n" * (root.stem == "main"), encoding="utf-8")
        before = resource.getrusage(resource.RUSAGE_CHILDREN)
        subprocess.run(words, cwd=folder, stdout=subprocess.DEVNULL, stderr=subprocess.DEVNULL, check=True)
        after = resource.getrusage(resource.RUSAGE_CHILDREN)
    return after.ru_utime - before.ru_utime + after.ru_stime - before.ru_stime


def measure(crates: list[str]) -> None:
    """Measures what checks of these crates take, and writes it beside what is reckoned."""
    print(row("crate", "empty", "from nothing", "start", "reckoned"), "|---" * 5 + "|", sep="\n")
    for crate in crates:
        seconds = reckoned(crate)
        print(row(f"`{crate}`", seconds_of(crate, True), seconds_of(crate, False), seconds["start"],
                  sum(seconds.values())), flush=True)


def main() -> int:
    """Does what the arguments ask for."""
    parser = argparse.ArgumentParser(description="Says where the minutes of a first build go.",
                                     epilog="Before it: crates/prove.py --keep mseed")
    parser.add_argument("--dearest", type=int, metavar="N", help="list the N functions and lemmas that take most")
    parser.add_argument("--measure", action="store_true", help="check the crates from nothing, and say what that takes")
    parser.add_argument("crate", nargs="*", metavar="CRATE", help="a crate of crates.txt; all of the first build")
    given = parser.parse_args()
    crates = given.crate or [crate for crate in prove.lines() if crate in {"mseed", *prove.below("mseed")}]
    missing = [crate for crate in crates if not any((CRATES / crate / "out" / "incremental").glob("*/records"))]
    if missing:
        print(f"No check has kept anything of {', '.join(missing)}.", file=sys.stderr)
        return 1
    if given.measure:
        measure(crates)
    elif given.dearest:
        dearest(crates, given.dearest)
    else:
        table(crates, collections.Counter())
    return 0


if __name__ == "__main__":
    sys.exit(main())
