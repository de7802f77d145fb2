"""What a document names, and whether that is there.

What is judged is each text in backticks outside of blocks, and each link:

- `Type::call`, `call`, `Type` and `Definition` are public names of the crates. They are in the crate that begins the
  row of their table, or that stands after them as in `call` of `crate`; and in the file that stands after them in
  parentheses, or to which they link.
- A clause is an `ensures` of a call that stands before it: in `A` and `B`, clause `c`, one of both. Where none stands
  before it, its call stands earlier in the section. In a column of calls its clauses stand after it in parentheses.
- In a table whose columns are a promise, a call, a definition and what fails, no cell is empty, each call stands in the
  file to which it links, each definition in one of `specs`, and what fails is a law, an edit, a test or a row file.
- What stands in a column of notation is no name.
- All else is a file, a word of make, a command, words of the programs' texts, or, outside of the columns for names,
  a private function or a clause that is spoken of without its call.
"""

from __future__ import annotations

import os
import re
from typing import NamedTuple, Optional

from documents.sources import Named, Sources, files_below, rt, text_of
from driver.program import ROOT

# Where the words of the programs' output and of the feed's lines stand, in backticks and blocks.
TEXTS = ["docs/texts.md", "docs/protocol.md", "docs/format.md"]
# Words that stand nowhere else: programs, commands of SeedLink that no server knows, the last line of the tests, types
# of the standard library, a range, and options of prove.py and of the compiler.
OTHERS = ["make", "rt", "mseed", "main", "BATCH", "CAT", "INFO", "TIME", "N passed, M failed",
          "logic=proved functions=", "out", "AllocError", "Vec", "0..u64::MAX", "--keep", "KEEP=--keep", "--statements"]

# Columns of tables in which a single word is no word of a text.
FOR_NAMES = ["contract", "carried by", "call", "definition"]

QUOTED = re.compile(r"`([^`]+)`")
LINK = re.compile(r"\[([^\]]*)\]\(([^)#]+)(#[^)]*)?\)")
# A link to a heading of the page itself.
INNER = re.compile(r"\]\(#([^)]*)\)")
CLAUSES = re.compile(r"\b[Cc]lauses? ((?:`\w+`(?:, and |, | and )?)+)")
# After the path of a call: its clauses.
LISTED = re.compile(r" \(`[^`]+`\) \(((?:`\w+`(?:, )?)+)\)")
FILE = re.compile(r"\.(md|py|sh|rt|antt|edit|c|h|1|mseed|svg|txt)$")
# The line of a toolchain. Those of one logic prove the same.
TOOLCHAIN = re.compile(r"rattle-kit-\w+ (logic \w+)")


class Judged(NamedTuple):
    """Something that a document names, whether it is there, and what is wrong where it isn't."""

    name: str
    is_there: bool
    why: str


# Calls that stand side by side: as they are named, what has the name, and whether `and` stands before.
Group = list[tuple[str, list[Named], bool]]


def parts_of(text: str) -> list[str]:
    """The headings, as a link names them: in small letters, with a hyphen for each space, and no other signs."""
    heads = re.findall(r"^#+ (.*)", text, re.MULTILINE)
    return [re.sub(r"[^\w -]", "", head.lower()).replace(" ", "-") for head in heads]


class Page:
    """What a document names: `judged`."""

    def __init__(self, sources: Sources, name: str, text: str):
        self.sources, self.folder = sources, os.path.dirname(name)
        self.judged: list[Judged] = []
        self.section: Group = []
        self.parts = parts_of(text)
        self.texts = " ".join(quoted for path in TEXTS
                              for quoted in re.findall(r"```.*?```|`[^`]+`", text_of(path), re.DOTALL))
        self.heads: list[str] = []
        is_block = False
        for number, line in enumerate(text.splitlines(), 1):
            self.place = f"{name}:{number}"
            is_block ^= line.startswith("```")
            if not is_block:
                self.read(line)

    def judge(self, named: str, is_there: object, why: str) -> None:
        """Keeps whether something is there."""
        self.judged.append(Judged(f"{self.place}: {named}", bool(is_there), why))

    def read(self, line: str) -> None:
        """Judges a line."""
        if line.startswith("#"):
            self.section = []
        for _, target, part in LINK.findall(line):
            if "://" not in target:
                self.judge(target, self.has_file(target), "no such file")
                self.judge(target + part, not part or self.has_part(target, part[1:]), "no such heading")
        for part in INNER.findall(line):
            self.judge("#" + part, part in self.parts, "no such heading")
        line = LINK.sub(lambda link: f"{link[1]} (`{link[2]}`)" if "`" in link[1] else link[1], line)
        cells = re.split(r"(?<!\\)\|", line) if line.startswith("|") else [line]
        row = re.match(r"\| *`(\w+)`", line)
        crate = row.group(1) if row and row.group(1) in self.sources.crates else None
        is_row = len(cells) > 1
        self.heads = (self.heads or [cell.strip() for cell in cells]) if is_row else []
        for number, cell in enumerate(cells):
            self.head = self.heads[number] if number < len(self.heads) else ""
            self.is_for_names = self.head in FOR_NAMES
            if "fails" in self.heads and self.head:
                self.judge(f"the column `{self.head}`", cell.strip(), "empty")
            if self.head == "fails":
                self.read_fails(cell)
            elif self.head != "notation":
                self.read_cell(cell, crate if number > 1 else None)

    def read_fails(self, cell: str) -> None:
        """`law`, or what its link leads to: an edit or a row file by the name of its file, or a test in its file."""
        for name in cell.split(","):
            linked = re.fullmatch(r" *(test )?`([\w.]+)` \(`([^`]+)`\) *", name)
            if not linked:
                self.judge(f"`{name.strip()}`", name.strip() in ["law", "fails"] or re.fullmatch(r"-+", name.strip()),
                           "neither a law, an edit, a test nor a row file")
                continue
            is_test, name, path = linked.groups()
            if is_test:
                at = os.path.normpath(os.path.join(self.folder, path))
                is_there = self.has_file(path) and re.search(rf"#\[test\]\s+fn {name}\b", text_of(at))
            else:
                is_there = os.path.basename(path) in (name, name + ".edit")
            self.judge(f"`{name}`", is_there, f"nothing of this name in {path}")

    def read_cell(self, cell: str, crate: Optional[str]) -> None:
        """Goes from name to name. `group` are the last calls, each tied to the next one by a comma or `and`."""
        group: Group = []
        end, at = None, 0
        while True:
            quoted, clauses = QUOTED.search(cell, at), CLAUSES.search(cell, at)
            if clauses and clauses.start() < quoted.start():
                self.read_clauses(QUOTED.findall(clauses.group(1)), cell[clauses.end() :], group)
                at, end = clauses.end(), None
            elif quoted:
                at = quoted.end()
                calls = self.read_name(quoted.group(1), cell[at:], group, crate)
                listed = LISTED.match(cell[at:]) if self.head == "call" else None
                if listed:
                    self.read_clauses(QUOTED.findall(listed.group(1)), "", [(quoted.group(1), calls, False)])
                    at += listed.end()
                if calls:
                    tie = None if end is None else re.fullmatch(r"(,| and|, and)? ", cell[end : quoted.start()])
                    group = (group if tie else []) + [(quoted.group(1), calls, bool(tie) and "and" in tie.group())]
                    self.section.append(group[-1])
                    end = at
            else:
                return

    def read_clauses(self, names: list[str], after: str, group: Group) -> None:
        """Each is one of the group's calls', or of the section's where there is no group; and each call of a group
        that ends with `and` has one."""
        of = re.match(r" ?of `(\w+::\w+)`", after)
        if of:
            found = [named for named in self.sources.find(of.group(1)) if named.clauses is not None]
            group = [(of.group(1), found, False)]
        calls = group or self.section
        for name in names:
            is_there = any(name in call.clauses for _, found, _ in calls for call in found)
            of = ", ".join(name for name, _, _ in group) or "a call of this section"
            self.judge(f"clause `{name}`", is_there, f"no such `ensures` of {of}")
        if group and group[-1][2]:
            for of, found, _ in group:
                has_one = any(name in call.clauses for name in names for call in found)
                self.judge(f"`{of}`", has_one, "none of the clauses " + ", ".join(names))

    def read_name(self, name: str, after: str, group: Group, crate: Optional[str]) -> list[Named]:
        """Judges a name that is no clause. The calls that have it."""
        of = re.match(r" of (?:the crate )?`(\w+)`", after)
        if of and of.group(1) in self.sources.crates:
            crate = of.group(1)
        path = re.match(r" \(`([^`]+)`\)", after)
        path = path.group(1) if path and FILE.search(path.group(1)) else None
        name = re.sub(r"\([a-z, ]*\)$", "", name)
        found = self.sources.find(name, crate) if re.fullmatch(r"\w+(::\w+)?", name) else []
        # `next` after `Cutter::new` is one of the same type, where there is such.
        owners = {owner for _, calls, _ in group[-1:] for call in calls for owner in call.owners}
        found = [named for named in found if owners & set(named.owners)] or found
        if path:
            found = [named for named in found if self.is_at(named.path, path)]
        is_word = self.is_for_names and re.fullmatch(r"\w+(::\w+)?", name)
        if is_word and "fails" in self.heads:
            self.judge(f"`{name}`", path, "no link to its file")
        if path and self.head == "definition":
            found = [named for named in found if "/specs/" in named.path]
        is_there = found or name in self.sources.crates \
            or not path and not is_word and (self.has_text(name) or not crate and self.is_other_word(name))
        where = (f" in {crate}" if crate else "") + (f" in {path}" if path else "")
        self.judge(f"`{name}`", is_there, f"nothing of this name{where}")
        return [named for named in found if named.clauses is not None]

    def is_other_word(self, name: str) -> bool:
        """A crate, one of the kit's, a private function, or a clause that is spoken of without its call."""
        return name.split("::")[-1] in self.sources.private \
            or any(name in [made, *used] for made, used in self.sources.crates.items()) \
            or any(name in (named.clauses or ()) for all_of in self.sources.names.values() for named in all_of)

    def is_at(self, path: str, wanted: str) -> bool:
        """Whether a file is the one that is wanted."""
        return path.endswith("/" + wanted) or path in (wanted, os.path.normpath(os.path.join(self.folder, wanted)))

    def has_file(self, path: str) -> bool:
        """Whether there is such a file, beside the document or below the root."""
        paths = [os.path.normpath(os.path.join(ROOT, folder, path)) for folder in (self.folder, "")]
        crates = self.sources.crates if "NAME" in path else ["NAME"]
        return any(os.path.exists(at.replace("NAME", crate)) for at in paths for crate in crates)

    def has_part(self, path: str, part: str) -> bool:
        """Whether a file has such a heading."""
        at = os.path.normpath(os.path.join(self.folder, path))
        return self.has_file(path) and part in parts_of(text_of(at))

    def has_text(self, text: str) -> bool:
        """A file, a command, or words of the programs' texts, in which `<..>` and numbers stand for others."""
        first, *others = text.split()
        if "/" in first or FILE.search(first):
            return "/out/" in first or self.has_file(first) \
                or any(path.endswith("/" + first) for path in files_below("crates"))
        if first == "make" and others:
            return bool(re.search(rf"^{re.escape(others[0])}:", text_of("Makefile"), re.MULTILINE))
        if first == "rt" and others:
            return others[0] in rt("help").split()
        if first == "mseed" and others:
            return f"mseed {others[0]}" in self.texts
        if first == "python3" and others:
            return self.has_file(others[0])
        if first in ["grep", "tail"] or text in OTHERS:
            return True
        toolchain = TOOLCHAIN.fullmatch(text)
        if toolchain:
            return toolchain[1] in rt("version")
        if re.fullmatch(r"[A-Z]+", text) and self.has_file(text):
            return True
        words = [word for word in text.split() if not re.fullmatch(r"<.*>|[0-9]+", word)]
        return all(re.search(rf"(?<![\w-]){re.escape(word)}(?!\w)", self.texts) for word in words)
