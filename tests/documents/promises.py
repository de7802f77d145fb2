"""The pages of promises: docs/promises.md, the entrance, and its parts in docs/promises.

- Each part has one row in the entrance's table of parts, and links back to the entrance in its first lines.
- The row names each crate of which a call stands in the part's tables, or says `all`.
- Each crate of the entrance's last table is named in the row of a part.
- No row of a part's tables stands in them twice, nor in those of another part.
- What the entrance says of what is trusted names each crate of the kit that a line of crates.txt uses.
"""

from __future__ import annotations

import os
import re
from typing import Iterator, Mapping

from documents.page import Judged
from documents.sources import files_below, text_of

ENTRANCE = "docs/promises.md"
PARTS = [path for path in files_below("docs", "promises") if path.endswith(".md")]
PROMISES = [ENTRANCE, *PARTS]

# Of the table of parts: the page and the crates; of the table by crate: the crate.
OF_PART = re.compile(r"^\| \[[^\]]*\]\((promises/[^)#]*)\) \| ([^|]*) \|", re.MULTILINE)
OF_CRATE = re.compile(r"^\| `(\w+)` \|", re.MULTILINE)
# A row of promises, with its calls; and the crate of a call.
PROMISE = re.compile(r"^\| (?!promise \|)[^|]* \| ([^|]*) \|.*$", re.MULTILINE)
CALL = re.compile(r"\[`[\w:]+`\]\((?:\.\./)*crates/(\w+)/src/")
# Its first lines: the heading, and what the part holds.
FIRST = 3
# The paragraph on what is trusted; and a crate with what it uses.
TRUSTED = re.compile(r"^## Trusted\n\n([^\n]*)", re.MULTILINE)
USES = re.compile(r"^(\w+)(?: \w+)?: ([^\n]*)$", re.MULTILINE)


def crates_of_kit() -> list[str]:
    """The crates that those of crates.txt use and that aren't among them."""
    lines = dict(USES.findall(text_of("crates.txt")))
    return sorted({used for line in lines.values() for used in line.split()} - {*lines})


def judged_parts(texts: Mapping[str, str]) -> Iterator[Judged]:
    """What ties the parts to the entrance, and to one another, by the text of each page."""
    entrance, parts = texts[ENTRANCE], {name: text for name, text in texts.items() if name != ENTRANCE}
    rows = [(f"{os.path.dirname(ENTRANCE)}/{row[1]}", row[2]) for row in OF_PART.finditer(entrance)]
    seen: dict[str, str] = {}
    for name, text in parts.items():
        crates = [crates for part, crates in rows if part == name]
        yield Judged(f"{ENTRANCE}: the row of {name}", len(crates) == 1, f"{len(crates)} rows of the table link to it")
        back = f"({os.path.relpath(ENTRANCE, os.path.dirname(name))})"
        yield Judged(f"{name}: the link back", back in "\n".join(text.splitlines()[:FIRST]), "isn't in the first lines")
        calls = {crate for row in PROMISE.finditer(text) for crate in CALL.findall(row[1])}
        lacks = sorted(crate for crate in calls if crates and crates[0] != "all" and f"`{crate}`" not in crates[0])
        yield Judged(f"{ENTRANCE}: the crates of {name}", calls and not lacks, f"lack {', '.join(lacks) or 'calls'}")
        for row in PROMISE.finditer(text):
            yield Judged(f"{name}: {row[0][:80]}", row[0] not in seen, f"stands in {seen.get(row[0])} too")
            seen[row[0]] = name
    for crate in OF_CRATE.findall(entrance):
        is_named = any(f"`{crate}`" in crates for part, crates in rows if part in parts)
        yield Judged(f"{ENTRANCE}: the part of {crate}", is_named, "no row of the table of parts names it")
    trusted = TRUSTED.search(entrance)
    for crate in crates_of_kit():
        yield Judged(f"{ENTRANCE}: the crate {crate}", trusted is not None and f"`{crate}`" in trusted[1],
                     "isn't named among what is trusted")
