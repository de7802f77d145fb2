"""What the documents name is there: files, public calls, their clauses, types, definitions, crates, commands, options
and words of the programs' output (documents/page.py). The pages for callers show each call, and each field has its
documentation (documents/callers.py); and no line of a crate is too long. Before that, lines and pages that are wrong
have to be found wrong. The drawing of docs/architecture.md is the one that docs/architecture.py draws from crates.txt.
What a page quotes of the code stands there, sign by sign (documents/quoted.py), and what it counts is counted
(documents/figures.py); the codes of the library for C are those of its header (documents/codes.py). The parts of the
promises are tied to their entrance (documents/promises.py).
"""

from __future__ import annotations

import subprocess
import sys
from typing import Optional, Sequence

from documents.callers import judged_fields, judged_page, libraries, page_of
from documents.codes import CODES, judged_codes
from documents.figures import FIGURES, TABLE, judged_figures, judged_rows, recounted
from documents.page import Page
from documents.promises import ENTRANCE, PROMISES, judged_parts
from documents.quoted import judged_quotations, requoted
from documents.sources import Sources, text_of
from driver.program import ROOT
from driver.rows import Cases, Fact

DOCUMENTS = ["README.md", *PROMISES, "docs/developing.md", "docs/architecture.md", "docs/protocol.md", "docs/texts.md",
             "docs/headline.md", "docs/glossary.md"]
QUOTING = "docs/headline.md"

COLUMNS = 120

# Each of these names one thing that isn't there; and those below, none.
WRONG = [
    "[a page](docs/no_page.md)",
    "[a part](docs/format.md#no-part-of-it)",
    "[a part](#no-part-of-it)",
    "`docs/no_page.md`",
    "`crates/NAME/nothing`",
    "`no_edit_of_this_name.edit`",
    "`Cutter::no_call`",
    "`no_call_of_this_name`",
    "`NoTypeOfThisName`",
    "`Cutter::next`, clause `no_clause`",
    "`Cutter::offset`, clause `called`",
    "`Cutter::offset` and `Cutter::next`, clause `called`",
    "clause `archive`",
    "clause `called` of `Cutter::offset`",
    "`Cutter::next` (`device.rt`)",
    "[`Cutter::next`](crates/mseed_stream/src/device.rt)",
    "| `mseed_time` | is in another crate | `check_samples` |",
    "| promise | contract |\n|---|---|\n| is a word of a text | `truncated` |",
    "| promise | call | definition | fails |\n|---|---|---|---|\n"
    "| a | [`no_call`](crates/mseed_time/src/rate.rt) | b | law |",
    "| promise | call | definition | fails |\n|---|---|---|---|\n"
    "| a | [`Rate::of`](crates/mseed_time/src/rate.rt) (`no_clause`) | b | law |",
    "| promise | call | definition | fails |\n|---|---|---|---|\n| a | `Rate::of` | b | law |",
    "| promise | call | definition | fails |\n|---|---|---|---|\n"
    "| a | b | [`ratio_of`](crates/mseed_time/specs/Join.antt) | law |",
    "| promise | call | definition | fails |\n|---|---|---|---|\n| a | | c | law |",
    "After a line of text:\n\n| call |\n|---|\n| `truncated` |",
    "| promise | call | definition | fails |\n|---|---|---|---|\n| a | b | c | nothing |",
    "| promise | call | definition | fails |\n|---|---|---|---|\n"
    "| a | b | c | [`another_name`](crates/mseed_time/must-fail/half_excluded.edit) |",
    "| promise | call | definition | fails |\n|---|---|---|---|\n"
    "| a | b | c | test [`no_test`](crates/slink_tests/src/wire.rt) |",
    "`one_packing` of `mseed_time`",
    "`make nothing`",
    "`mseed nothing`",
    "`rt nothing-at-all`",
    "`no words of a program <number>`",
    "`rattle-kit-13b logic 0123456789abcdef`",
]
RIGHT = [
    "`Cutter::offset`, `Cutter::next`, clause `called`",
    "[a part](docs/format.md#blockettes-and-framing-chapter-8)",
    "# A part, and more of it\n\n[a part](#a-part-and-more-of-it)",
    "`Cutter::next` (`cutter.rt`), clauses `called` and `record`; `offset`",
    "[`Cutter::next`](crates/mseed_stream/src/cutter.rt), and clause `first` of `Source::pull`",
    "| promise | call | definition | fails |\n|---|---|---|---|\n"
    "| a | [`Rate::of`](crates/mseed_time/src/rate.rt) (`ok`, `value`); [`Rate::num`](crates/mseed_time/src/rate.rt) "
    "| [`ratio_of`](crates/mseed_time/specs/Ratios.antt) "
    "| law, [`half_excluded`](crates/mseed_time/must-fail/half_excluded.edit), "
    "test [`replies`](crates/slink_tests/src/wire.rt), [`readme.py`](tests/rows/readme.py) |",
    "`one_packing` of `mseed_pack`, `truncated <bytes>`, `make audit FILE=..`",
]


# Each of these changes of the page for callers of mseed_time is found wrong.
CHANGES = [
    ("Btime::read(bytes, Order::Big)?;", "Btime::read(bytes, Order::Little)?;"),
    ("```rust\n/// The text of an instant", "```text\n/// The text of an instant"),
    ("`show_time`", "`Micros`"),
    ("`one_name`", "`Micros`"),
]

# Each of these changes of what a page quotes is found wrong, and mended where a definition was changed.
MISQUOTED = [
    ("pub some : vs ≢ []", "pub some : vs ≡ []"),
    ("(miss_of start n rate step next) ≤ rate.den", "(miss_of start n rate step next) < rate.den"),
    ("  pub only : (others : List ℤ) → IsReading v others → others ≡ samples\n", ""),
    ("(../crates/mseed_time/specs/Join.antt)", "(../crates/mseed_time/specs/Rate.antt)"),
]
# Each of these changes of a page of promises is found wrong in as many places as stand behind it, and in no others.
MISPARTED = [
    (ENTRANCE, "](promises/feed.md) |", "](promises/no_part.md) |",
     ["the row of docs/promises/feed.md", "the part of slink_wire", "the part of slink_model"]),
    (ENTRANCE, "| `slink_wire`, `slink_feed`,", "| `slink_feed`,",
     ["the crates of docs/promises/feed.md", "the part of slink_wire"]),
    ("docs/promises/feed.md", "(../promises.md)", "(../headline.md)", ["the link back"]),
    ("docs/promises/feed.md", "\n## Grants", "\n| a | [`Rate::of`](../../crates/mseed_time/src/rate.rt) | b | law |\n"
     "\n## Grants", ["the crates of docs/promises/feed.md"]),
    ("docs/promises/feed.md", "| promise | call | definition | fails |\n|---|---|---|---|\n",
     "| promise | call | definition | fails |\n|---|---|---|---|\n| a | b | c | law |\n| a | b | c | law |\n",
     ["| a | b | c | law |"]),
    (ENTRANCE, "`clap`, `strsim`, `thiserror`", "`clap`, `thiserror`", ["the crate strsim"]),
]
# Rows of a table of crates that are wrong, and one that is right but for some lines.
MISCOUNTED = [
    ("| `mseed_time` | 43 | 769 | 58 | 304 | 32 | 849 | 128 | 7 |", False),
    ("| `mseed_time` | 65 | 769 | 58 | 304 | 32 | 849 | 128 | 6 |", False),
    ("| `mseed_time` | 43 | 1,769 | 58 | 304 | 32 | 849 | 128 | 6 |", False),
    ("| `mseed_time` | 43 | 769 | 58 | 304 | 32 | 849 | 6 |", False),
    ("| `mseed_time` | 43 | 768 | 58 | 304 | 32 | 849 | 128 | 6 |", True),
]


def self_tests(sources: Sources) -> Cases:
    """Each of the lines has as many faults as it must, and each page that was made wrong has some."""
    for text in WRONG + RIGHT:
        faults = [judged for judged in Page(sources, "README.md", text).judged if not judged.is_there]
        yield Fact(f"the faults that are found in: {text}", int(text in WRONG), len(faults))
    name = page_of("mseed_time")
    page = text_of(name)
    for old, new in CHANGES:
        is_right = all(judged.is_there for judged in judged_page(sources, name, page.replace(old, new)))
        yield Fact(f"a page for callers with `{new}` in place of `{old}` is wrong", (True, False),
                   (old in page, is_right))
    page = text_of(QUOTING)
    for old, new in MISQUOTED:
        is_right = all(judged.is_there for judged in judged_quotations(QUOTING, page.replace(old, new)))
        yield Fact(f"a page that quotes `{new.strip()}` in place of `{old.strip()}` is wrong", (True, False),
                   (old in page, is_right))
        if ".antt" not in old:
            yield Fact(f"and `{old.strip()}` is quoted anew", page, requoted(QUOTING, page.replace(old, new)))
    pages = {name: text_of(name) for name in PROMISES}
    for name, old, new, faults in MISPARTED:
        judged = judged_parts({**pages, name: pages[name].replace(old, new, 1)})
        yield Fact(f"what is found wrong with `{new.strip()}` in place of `{old.strip()}` in {name}", (True, faults),
                   (old in pages[name], [one.name.split(": ", 1)[1] for one in judged if not one.is_there]))
    for figure in FIGURES:
        wrong = figure.pattern().sub("7", text_of(figure.page))
        yield Fact(f"a wrong figure in {figure.page} after `{figure.before}` is found, and counted anew",
                   ({"7"}, {f"{figure.counted(sources):,}"}),
                   (figure.found_in(wrong), figure.found_in(recounted(sources, figure.page, wrong))))
    for row, wanted in MISCOUNTED:
        judged = [one for one in judged_rows(sources, row + " 1.6 |") if "the row of" in one.name]
        yield Fact(f"the row {row}", [wanted], [one.is_there for one in judged])
        again = recounted(sources, TABLE, row + " 1.6 |")
        yield Fact(f"the row {row}, counted anew", [True, True],
                   [one.is_there for one in judged_rows(sources, again) if "the table" not in one.name])
    wrong = [one.name for one in judged_codes(text_of(CODES).replace("| `no memory`, ", "| ")) if not one.is_there]
    yield Fact("a text that is missing among the library's codes is found",
               [f"{CODES}: the code {code}" for code in (3, 4, 5)], wrong)
    yield Fact("minutes that aren't those that were measured", [False],
               [one.is_there for one in judged_rows(sources, MISCOUNTED[-1][0] + " 99.9 |") if "minutes" in one.name])


def documents_of(sources: Sources) -> list[str]:
    """The documents, and the pages for callers."""
    return DOCUMENTS + [page_of(crate) for crate in libraries(sources)]


def names(sources: Sources, documents: Optional[Sequence[str]] = None) -> Cases:
    """What the documents name and show."""
    for document in documents or documents_of(sources):
        text = text_of(document)
        judged = Page(sources, document, text).judged
        if document not in DOCUMENTS:
            judged += judged_page(sources, document, text)
        for name, is_there, why in judged:
            yield Fact(name, "there", "there" if is_there else why)


def quotations() -> Cases:
    """What a page quotes of the code."""
    for name, is_there, why in judged_quotations(QUOTING, text_of(QUOTING)):
        yield Fact(name, "there", "there" if is_there else why)


def figures(sources: Sources) -> Cases:
    """What the pages count."""
    for judged in (judged_figures(sources), judged_rows(sources, text_of(TABLE)),
                   judged_codes(text_of(CODES))):
        for name, is_so, why in judged:
            yield Fact(name, "so many", "so many" if is_so else why)


def promises() -> Cases:
    """What ties the parts of the promises to their entrance."""
    for name, is_so, why in judged_parts({name: text_of(name) for name in PROMISES}):
        yield Fact(name, "so", "so" if is_so else why)


def fields(sources: Sources) -> Cases:
    """Fields and variants are documented."""
    for name, is_so, why in judged_fields(sources):
        yield Fact(name, "documented", "documented" if is_so else why)


def lengths(sources: Sources) -> Cases:
    """Lines of code, definitions and proofs have at most 120 columns, but for attributes, which are one line each."""
    for crate in sources.crates:
        long = [f"{path.relative_to(ROOT)}:{number}"
                for path in sorted((ROOT / "crates" / crate).rglob("*.*"))
                if path.suffix in (".rt", ".antt") and "out" not in path.parts
                for number, line in enumerate(path.read_text(encoding="utf-8").splitlines(), 1)
                if len(line) > COLUMNS and not line.lstrip().startswith("#[")]
        yield Fact(f"the lines of {crate} have at most {COLUMNS} columns", [], long)


def drawing() -> Cases:
    """The drawing is that of crates.txt."""
    run = subprocess.run([sys.executable, str(ROOT / "docs" / "architecture.py"), "--check"], stdout=subprocess.PIPE,
                         stderr=subprocess.STDOUT, text=True, check=False)
    *lines, last = run.stdout.splitlines() or [""]
    for line in lines:
        yield Fact(f"the drawing: {line.partition(' ')[2]}", True, not line.startswith("FAILED"))
    yield Fact("docs/architecture.py --check", (0, True), (run.returncode, bool(lines) and "passed" in last))


def rows() -> Cases:
    """All of them."""
    sources = Sources()
    yield from self_tests(sources)
    yield from names(sources)
    yield from quotations()
    yield from figures(sources)
    yield from promises()
    yield from fields(sources)
    yield from lengths(sources)
    yield from drawing()
