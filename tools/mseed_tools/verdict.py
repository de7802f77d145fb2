"""What `sds` said of an archive last, as it is kept beside what was read of the files."""

from __future__ import annotations

import datetime
import os
import re
from typing import NamedTuple, Optional

from mseed_tools.asking import shown
from mseed_tools.files import content_of, write_whole
from mseed_tools.program import ToolError

NAME = "verdict.txt"
HEAD = re.compile(r"(\d{4}-\d\d-\d\dT\d\d:\d\d:\d\d) status (\d)")
LINE = re.compile(r"(\S+) (?:undecoded )?days \d+ .*")


class Verdict(NamedTuple):
    """When an audit was, its status, its last line, and what it said of each channel, with what is below its line."""

    when: str
    status: int
    total: str
    lines: dict[str, list[str]]

    def of(self, name: str) -> tuple[str, str]:
        """How a channel is drawn, and what was said of it, shortly."""
        line, *below = self.lines.get(name, [""])
        if not line or " undecoded " in line:
            return "unknown", "not decoded" if line else ""
        found = re.search(r" (gaps .*? findings \d+)", line)
        says = [found[1]] if found else []
        kind = "amiss" if below or not says or not says[0].endswith(" findings 0") else "continuous"
        words = [one.strip().partition(" ")[0] for one in below]
        says += [shown(one.strip()) for one in below if one.startswith("  missing ")]
        says += [f"{word} {words.count(word)}" for word in dict.fromkeys(words) if word != "missing"]
        return kind, ", ".join(says)


def keep(folder: str, lines: list[str], status: int) -> None:
    """Keeps what is said of an archive in the folder of what is kept of it."""
    now = datetime.datetime.now(datetime.timezone.utc).strftime("%Y-%m-%dT%H:%M:%S")
    path = os.path.join(folder, NAME)
    try:
        text = "".join(f"{line}\n" for line in [f"{now} status {status}", *lines])
        write_whole(path, text.encode("utf-8", "surrogateescape"))
    except OSError as error:
        raise ToolError(f"{path}: {error.strerror}") from error


def verdict_in(folder: str) -> Optional[Verdict]:
    """What is kept there; nothing where there is none."""
    try:
        head, *lines = content_of(os.path.join(folder, NAME)).decode("utf-8", "replace").splitlines()
    except (OSError, ValueError):
        return None
    found = HEAD.fullmatch(head)
    if found is None or not lines:
        return None
    by_name: dict[str, list[str]] = {}
    name = ""
    for line in lines[:-1]:
        begins = LINE.fullmatch(line)
        name = begins[1] if begins else name if line.startswith("  ") else ""
        if name:
            by_name.setdefault(name, []).append(line)
    return Verdict(found[1].replace("T", " "), int(found[2]), lines[-1], by_name)
