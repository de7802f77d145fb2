#!/usr/bin/env python3
"""Looks for what the documents name: what isn't there is printed with its line.

    docs_check.py [DOCUMENT ..]
    docs_check.py --relink [DOCUMENT ..]
    docs_check.py --requote [DOCUMENT ..]
    docs_check.py --recount

With --relink each link in the tables of promises that is wrong gets the one file that has its name, where there is one.
With --requote each example of a page for callers gets the text of its function, and each definition that a page quotes
that of the code.
With --recount each figure that is counted from the tree is counted anew.
"""

from __future__ import annotations

import os
import re
import sys

from documents import callers, quoted
from documents.figures import FIGURES, recounted
from documents.sources import Sources, files_below, text_of
from driver.counting import Count, judge
from driver.program import ROOT
from rows.documents import (QUOTING, documents_of, drawing, fields, figures, names, promises, quotations,
                            self_tests)


def relinked(sources: Sources, name: str, text: str) -> str:
    """The document with links that lead to the one file that has each call, definition, edit, test or row file."""
    folder = os.path.dirname(name)

    def places_of(word: str, path: str) -> list[str]:
        if "/must-fail/" in path:
            folder_of = re.compile(rf"(crates/\w+/must-fail|tests/must-fail/\w+)/{word}\.edit")
            paths = [at for at in [*files_below("crates"), *files_below("tests")] if folder_of.fullmatch(at)]
        elif path.endswith(".py"):
            paths = [at for at in files_below("tests") if os.path.basename(at) == word]
        else:
            part = "/specs/" if "/specs/" in path else "/src/"
            paths = [named.path for named in sources.find(word) if part in named.path]
            tests = [at for at in files_below("crates") if at.endswith(".rt") and part in at
                     and re.search(rf"#\[test\]\s+fn {word}\b", text_of(at))]
            paths = sorted(set(paths or tests))
        at = os.path.normpath(os.path.join(folder, path))
        same = [one for one in paths if one.split("/")[:2] == at.split("/")[:2]]
        return [at] if at in paths else same or paths

    def corrected(link: re.Match) -> str:
        paths = places_of(link[1], link[2])
        path = os.path.relpath(paths[0], folder) if len(paths) == 1 else link[2]
        return f"[`{link[1]}`]({path})"

    lines = text.split("\n")
    return "\n".join(re.sub(r"\[`([\w:.]+)`\]\(([^)#]+)\)", corrected, line) if line.startswith("|") else line
                     for line in lines)


def main() -> int:
    """Mends links and examples where the arguments want it, and judges the documents."""
    sources, count = Sources(), Count()
    documents = [word for word in sys.argv[1:] if not word.startswith("--")] or documents_of(sources)
    for name in documents:
        if "--relink" in sys.argv:
            (ROOT / name).write_text(relinked(sources, name, text_of(name)), encoding="utf-8")
        if "--requote" in sys.argv:
            requoted = quoted.requoted if name == QUOTING else callers.requoted
            (ROOT / name).write_text(requoted(name, text_of(name)), encoding="utf-8")
    for name in sorted({figure.page for figure in FIGURES}) if "--recount" in sys.argv else []:
        (ROOT / name).write_text(recounted(sources, name, text_of(name)), encoding="utf-8")
    for part in (self_tests(sources), names(sources, documents), quotations(), figures(sources), promises(),
                 fields(sources), drawing()):
        for case in part:
            judge(case, count, False)
    print(count.lines())
    return 1 if count.failed else 0


if __name__ == "__main__":
    sys.exit(main())
