"""The codes of the library for C with their texts, as docs/texts.md has them and as include/mseed.h does."""

from __future__ import annotations

import re
from typing import Iterator

from documents.page import Judged
from documents.sources import text_of

CODES = "docs/texts.md"
ROW = re.compile(r"^\| (\d[\d, to]*) \| [^|]* \| (`[^|]*`) \|$", re.MULTILINE)
NUMBERS = re.compile(r"(\d+)(?: to (\d+))?")


def on_the_page(text: str) -> dict[int, str]:
    """The text of each code: a row has codes and texts in the same order."""
    found: dict[int, str] = {}
    for row in ROW.finditer(text):
        codes = [code for first, last in NUMBERS.findall(row[1]) for code in range(int(first), int(last or first) + 1)]
        found.update(dict(zip(codes, re.findall(r"`([^`]*)`", row[2]))) if "`" in row[2] else {})
    return found


def in_the_header(text: str) -> dict[int, str]:
    """What mseed_why gives for each code."""
    numbers = {name: int(number) for name, number in re.findall(r"^  (MSEED_\w+) = (\d+),?$", text, re.MULTILINE)}
    return {numbers[name]: why for name, why in re.findall(r'case (MSEED_\w+): return "([^"]*)";', text)}


def judged_codes(text: str) -> Iterator[Judged]:
    """Each code, and whether the page has the text that the header has."""
    page, header = on_the_page(text), in_the_header(text_of("include/mseed.h"))
    for code in sorted({*page, *header}):
        yield Judged(f"{CODES}: the code {code}", page.get(code) == header.get(code),
                     f"is {page.get(code)}, and in mseed.h {header.get(code)}")
