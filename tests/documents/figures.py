"""Figures in the pages that are counted from the tree: wrong bodies, public calls, the lines of each crate; and sizes
that are constants of the code.

A figure stands between words by which it is known; where its page has these twice, it has the figure twice. The table
of crates in docs/developing.md has a row for each crate but those of tests and benchmarks, and one for all; its
functions and lines may be off by MOST_OFF in the hundred, so that not each line that is added changes the page. Imports
are counted by themselves. Its minutes are those of minutes.txt.
"""

from __future__ import annotations

import functools
import operator
import re
from typing import Callable, Iterator, NamedTuple

from documents.callers import libraries
from documents.page import Judged
from documents.sources import Sources, files_below, text_of
from driver.proving import prove

TABLE = "docs/developing.md"
# The files whose lines are counted: code, definitions and proofs.
PARTS = [("src", ".rt"), ("specs", ".antt"), ("proofs", ".antt")]
WITHOUT_ROW = ["mseed_tests", "slink_tests", "mseed_bench"]
MOST_OFF = 5
# Of fewer lines than this it may be off by as many as of this many.
FEW = 60
# A row of the table of crates, or that of all: what it is of, what is counted of it, and its minutes.
ROW = re.compile(r"^\| (`\w+`|in all) ((?:\| [\d,]* ?)+)\| ([\d.]+) \|$", re.MULTILINE)
ALL = "in all"
FUNCTION = re.compile(r"^ *(?:pub(?:\(crate\))? )?(?:const )?(?:extern \"C\" )?fn \w+", re.MULTILINE)
# A line of code that imports, with those that belong to it, and one of a definition or a proof.
IMPORT = {".rt": re.compile(r"^ *(?:pub(?:\(\w+\))? )?(?:ghost )?use [^;]*;.*\n", re.MULTILINE),
          ".antt": re.compile(r"^ *(?:pub )?(?:use|open|import) .*\n", re.MULTILINE)}


def texts_of(crate: str, folder: str, suffix: str) -> tuple[str, str]:
    """The text of a crate's files without tests and imports, and that of the imports."""
    texts = [text_of(path) for path in files_below("crates", crate, folder)
             if path.endswith(suffix) and "/tests" not in path]
    imports = "".join(line for text in texts for line in IMPORT[suffix].findall(text))
    return "".join(IMPORT[suffix].sub("", text) for text in texts), imports


def lines_of(crate: str, folder: str, suffix: str) -> list[int]:
    """The lines of a crate's files, without tests: of all but imports, and of imports."""
    return [len(text.splitlines()) for text in texts_of(crate, folder, suffix)]


def functions_of(crate: str) -> int:
    """The functions of a crate's files, without tests."""
    return sum(len(FUNCTION.findall(text_of(path))) for path in files_below("crates", crate, "src")
               if path.endswith(".rt") and "/tests" not in path)


@functools.lru_cache(maxsize=None)
def row_of(crate: str) -> list[int]:
    """Functions, lines of code, of definitions and of proofs, each with those of their imports, and edits."""
    parts = [line for part in PARTS for line in lines_of(crate, *part)]
    return [functions_of(crate), *parts, len(edits_of(crate))]


def with_row(sources: Sources) -> list[str]:
    """The crates that have a row."""
    return [crate for crate in sources.crates if crate not in WITHOUT_ROW]


def width(sources: Sources) -> int:
    """How many characters a line of the crates' files has on average, imports and empty lines apart."""
    texts = [texts_of(crate, *part)[0] for crate in with_row(sources) for part in PARTS]
    lines = [line for text in texts for line in text.splitlines() if line.strip()]
    return round(sum(map(len, lines)) / len(lines))


class Figure(NamedTuple):
    """A figure of a page: the words before and after it, and what it counts."""

    page: str
    before: str
    after: str
    counted: Callable[[Sources], int]

    def pattern(self) -> re.Pattern[str]:
        """The words with the figure between them."""
        return re.compile(f"(?<={re.escape(self.before)})[0-9][0-9,]*(?={re.escape(self.after)})")

    def found_in(self, text: str) -> set[str]:
        """What stands between the words in a page: the figure."""
        return set(self.pattern().findall(text))


def edits_of(crate: str = "") -> list[str]:
    """The edits that the gate tries, of a crate or of all."""
    return [path for path in files_below("crates", crate) if "/must-fail/" in path and path.endswith(".edit")]


def edits_beside() -> list[str]:
    """The edits that the gate leaves."""
    return [path for path in files_below("tests", "must-fail") if path.endswith(".edit")]


def in_gate(_: Sources) -> int:
    """How many edits the gate tries."""
    return len(edits_of())


def beside(_: Sources) -> int:
    """How many it leaves."""
    return len(edits_beside())


def least_tenth(_: Sources) -> int:
    """How many of them a run of `make test` tries at least."""
    return len(edits_beside()) // 10


def most_of_tenth(_: Sources) -> int:
    """How many of them it tries at most."""
    return -(-len(edits_beside()) // 10)


def edits(_: Sources) -> int:
    """How many edits there are."""
    return len(edits_of()) + len(edits_beside())


def calls(sources: Sources) -> int:
    """How many public calls the libraries have. A law has no body that could be wrong."""
    return sum(not call.is_law for crate in libraries(sources) for call in sources.calls_of(crate))


def built_first(_: Sources) -> int:
    """How many crates the first build of the program proves."""
    return len({"mseed", *prove.below("mseed")})


def minutes_of_first(cores: int) -> Callable[[Sources], int]:
    """How many minutes it says at first that it may take, on so many cores."""

    def counted(_: Sources) -> int:
        on = {crate: prove.below(crate) for crate in ["mseed", *prove.below("mseed")]}
        minutes = {crate: prove.cost_of(crate).minutes for crate in on}
        return round(prove.minutes_left(minutes, on, set(), cores))

    return counted


def minutes_from(lowest: str) -> Callable[[Sources], int]:
    """How many minutes of processors a crate and those above it take, by minutes.txt."""
    return lambda _: round(sum(float(minutes) for crate, minutes in minutes_of().items()
                               if lowest in {crate, *prove.below(crate)}))


def constant_of(path: str, name: str) -> int:
    """A constant of a source file: a number, another of its constants, or two with `<<`, `*`, `+` or `-` between."""
    found = re.search(rf"\bconst {name}: \w+ = ([\w]+)(?: (<<|\*|\+|-) ([\w]+))?;", text_of(path))
    if not found:
        raise ValueError(f"{path} has no constant {name}")

    def number_of(word: str) -> int:
        return int(word) if word[0].isdigit() else constant_of(path, word)

    first, sign, second = found.groups()
    if not sign:
        return number_of(first)
    signs = {"<<": operator.lshift, "*": operator.mul, "+": operator.add, "-": operator.sub}
    return signs[sign](number_of(first), number_of(second))


def size(page: str, before: str, after: str, path: str, name: str) -> Figure:
    """A size that a page gives, which is a constant of a file of the crates."""
    return Figure(page, before, after, lambda _: constant_of(f"crates/{path}", name))


FIGURES = [
    Figure("README.md", "7. ", " wrong bodies", edits),
    Figure("README.md", "the libraries have ", " public calls", calls),
    Figure("README.md", "Proving and building: about ", " min for", minutes_of_first(4)),
    Figure("README.md", " min for ", " crates.", built_first),
    Figure("docs/developing.md", "everything from nothing, the ", " edits in", in_gate),
    Figure("docs/developing.md", "tries the ", " edits that the gate leaves out", beside),
    Figure("docs/developing.md", "a tenth of the second folder, ", " or ", least_tenth),
    Figure("docs/developing.md", " or ", " edits of up to", most_of_tenth),
    *(Figure("docs/developing.md", f"| {cores} | ", " |\n", minutes_of_first(cores)) for cores in (2, 4, 8)),
    Figure("docs/developing.md", "`slink_wire` is proved once: some ", " minutes of processors, by the",
           minutes_from("mseed_time")),
    Figure("docs/developing.md", "it is `mseed_audit` and the crates above it, some ", ".",
           minutes_from("mseed_audit")),
    Figure("docs/developing.md", "a line has ", " characters on average", width),
    Figure("docs/DECISIONS.md", "the most of each crate**, ", " of ", in_gate),
    Figure("docs/DECISIONS.md", " of ", "; the others are in `tests/must-fail`", edits),
    size("docs/DECISIONS.md", "is found ahead** by `pack_words`, for ", " places", "mseed_steim_pack/src/ahead.rt",
         "KNOWN"),
    size("docs/DECISIONS.md", "all words once fewer than ", " differences", "mseed_steim_pack/src/ahead.rt", "FEW"),
    size("docs/format.md", "if it has samples, at most ", " a second", "mseed_pack/src/fitting.rt", "FASTEST"),
    size("docs/protocol.md", "A packet has ", " bytes: `SL`", "slink_wire/src/packet.rt", "PACKET"),
    size("docs/protocol.md", "and has at most ", " bytes including it", "slink_feed/src/cutting.rt", "LONGEST_REPLY"),
    size("docs/protocol.md", "a fixed number of them, 1 to ", ".", "slink_wire/src/limits.rt", "MOST_RECORDS"),
    size("docs/protocol.md", "Otherwise it reads at most ", " bytes", "slink_feed/src/serving.rt", "ROOM"),
    size("docs/protocol.md", "until the client closes the link, ", " bytes", "slink_links/src/closing.rt", "MOST"),
    size("docs/protocol.md", "the input gives at most ", " bytes", "slink_live/src/intake.rt", "INPUT"),
    size("docs/texts.md", "or a name of at most ", " letters", "slink_wire/src/host.rt", "LONGEST"),
]


def minutes_of() -> dict[str, str]:
    """The minutes of processors of each crate's first proof, as they were measured."""
    lines = [line.split() for line in text_of("crates", "minutes.txt").splitlines() if line[0] != "#"]
    return {crate: minutes for crate, minutes, _ in lines}


def wanted_of(sources: Sources, name: str) -> tuple[list[int], str]:
    """What is counted of a crate or of all, as the table names it, and the minutes."""
    crates, measured = with_row(sources) if name == ALL else [name.strip("`")], minutes_of()
    minutes = sum(float(measured.get(crate, 0)) for crate in crates)
    return [sum(cells) for cells in zip(*map(row_of, crates))], f"{minutes:.1f}"


def is_near(found: int, counted: int) -> bool:
    """Whether lines are off by no more than they may."""
    return abs(found - counted) * 100 <= MOST_OFF * max(counted, FEW)


def judged_figures(sources: Sources) -> Iterator[Judged]:
    """Each figure, and whether it is the one that is counted."""
    for figure in FIGURES:
        found, counted = figure.found_in(text_of(figure.page)), f"{figure.counted(sources):,}"
        yield Judged(f"{figure.page}: {figure.before}..{figure.after}", found == {counted},
                     f"{counted} are counted, and there stands {found or 'none'}")


def judged_rows(sources: Sources, text: str) -> Iterator[Judged]:
    """The rows of the table of crates."""
    rows = {name: ([int(cell.replace(",", "").strip() or 0) for cell in cells.split("|")[1:]], minutes)
            for name, cells, minutes in ROW.findall(text)}
    wanted = sorted([ALL, *(f"`{crate}`" for crate in with_row(sources))])
    yield Judged(f"{TABLE}: the table of crates", sorted(rows) == wanted, f"has {sorted(rows)}, and not {wanted}")
    for name, (found, minutes) in rows.items():
        counted, measured = wanted_of(sources, name)
        is_right = len(found) == len(counted) and found[-1] == counted[-1] and all(map(is_near, found, counted))
        yield Judged(f"{TABLE}: the row of {name}", is_right, f"has {found}, and {counted} are counted")
        yield Judged(f"{TABLE}: the minutes of {name}", minutes == measured,
                     f"has {minutes}, and crates/minutes.txt {measured}")


def recounted(sources: Sources, name: str, text: str) -> str:
    """The page with the figures that are counted."""
    for figure in FIGURES:
        if figure.page == name:
            text = figure.pattern().sub(f"{figure.counted(sources):,}", text)

    def counted(row: re.Match[str]) -> str:
        cells, minutes = wanted_of(sources, row[1])
        return f"| {row[1]}" + "".join(f" | {number:,}" if number else " |" for number in cells) + f" | {minutes} |"

    return ROW.sub(counted, text) if name == TABLE else text
