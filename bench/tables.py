"""Writes what was measured into the tables of docs/performance.md, between a line `<!-- NAME: .. -->` and the next line
`<!-- end -->`."""

import os
import re
import resource
import sys

PAGE = os.path.join(os.path.dirname(os.path.dirname(os.path.abspath(__file__))), "docs", "performance.md")


def environment(program):
    """What a tool runs in, over this program: as where it is installed, Python keeps what it has compiled."""
    env = {**os.environ, "MSEED": os.path.abspath(program)}
    env.pop("PYTHONDONTWRITEBYTECODE", None)
    return env


def processor_seconds():
    """What the processes that this one has waited for have taken of processors."""
    used = resource.getrusage(resource.RUSAGE_CHILDREN)
    return used.ru_utime + used.ru_stime


def table(heads, rows):
    """The lines of a table of texts."""
    first, *others = ["| " + " | ".join(cells) + " |" for cells in [heads, *rows]]
    return [first, "|" + "---|" * len(heads), *others]


def write(name, lines):
    """Puts the lines in the place of those between the marks of this name."""
    with open(PAGE, encoding="utf-8") as file:
        text = file.read()
    marks = re.compile(rf"(^<!-- {re.escape(name)}: [^\n]*-->\n).*?(^<!-- end -->$)", re.MULTILINE | re.DOTALL)
    if len(marks.findall(text)) != 1:
        sys.exit(f"{PAGE} has no place for {name}")
    with open(PAGE, "w", encoding="utf-8") as file:
        file.write(marks.sub(lambda found: found[1] + "\n".join(lines) + "\n" + found[2], text))
