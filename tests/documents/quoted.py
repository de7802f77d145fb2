"""Definitions and contracts that a page quotes: each stands in a file to which the page links, sign by sign.

A block of code is cut into paragraphs at its empty lines. Each stands in one of the files to which the lines above
the block link, those since the heading: of definitions a whole paragraph, and of code some lines, which may stand
further to the left than there.
"""

from __future__ import annotations

import os
import re
import textwrap
from typing import Iterator, Sequence

from documents.page import Judged
from documents.sources import text_of

BLOCK = re.compile(r"^```(antt|rust)\n(.*?)^```$", re.MULTILINE | re.DOTALL)
DECLARED = re.compile(r"^(?:abbrev )?pub (?:record |data )?(\w+)", re.MULTILINE)
CODE = re.compile(r"\]\(([^)]+\.(?:antt|rt))\)")
DEEPEST = 8


def is_in(paragraph: str, kind: str, code: str) -> bool:
    """Whether a paragraph of a block of this kind stands in a file."""
    if kind == "antt":
        return f"\n\n{paragraph}\n\n" in f"\n\n{code}\n"
    return any(f"\n{textwrap.indent(paragraph, ' ' * column)}\n" in f"\n{code}" for column in range(0, DEEPEST + 1, 4))


def codes_of(name: str, above: str) -> list[str]:
    """The files to which a page links after the last heading above a block."""
    section = above[max(0, above.rfind("\n#")) :]
    return [text_of(os.path.normpath(os.path.join(os.path.dirname(name), path))) for path in CODE.findall(section)]


def judged_quotations(name: str, text: str) -> Iterator[Judged]:
    """Each paragraph of each block, and whether it stands in the code."""
    for block in BLOCK.finditer(text):
        above = text[: block.start()]
        codes = codes_of(name, above)
        for paragraph in block[2].rstrip("\n").split("\n\n"):
            named = f"{name}:{above.count(chr(10)) + 1}: {paragraph.splitlines()[0]}"
            yield Judged(named, any(is_in(paragraph, block[1], code) for code in codes),
                         "doesn't stand so in the files to which the section links")


def definition_of(paragraph: str, codes: Sequence[str]) -> str:
    """The paragraph of one of the files that declares the same name, where there is one."""
    declared = DECLARED.search(paragraph)
    same = [other for code in codes for other in code.rstrip("\n").split("\n\n") for found in [DECLARED.search(other)]
            if declared and found and found[1] == declared[1]]
    return same[0] if same else paragraph


def requoted(name: str, text: str) -> str:
    """The page, with each definition as it stands in the code. A paragraph with only its declaration gets all of it."""

    def quoted(block: re.Match[str]) -> str:
        if block[1] != "antt":
            return block[0]
        codes = codes_of(name, text[: block.start()])
        paragraphs = [definition_of(paragraph, codes) for paragraph in block[2].rstrip("\n").split("\n\n")]
        return "```antt\n" + "\n\n".join(paragraphs) + "\n```"

    return BLOCK.sub(quoted, text)
