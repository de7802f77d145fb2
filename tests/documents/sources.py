"""What there is to name: files, the public names of the crates, and the toolchain's words."""

from __future__ import annotations

import functools
import os
import re
import shutil
import subprocess
from typing import Optional, Sequence

from driver.program import ROOT


def text_of(*path: str) -> str:
    """A file of the repository."""
    with open(os.path.join(ROOT, *path), encoding="utf-8") as file:
        return file.read()


def files_below(*path: str) -> list[str]:
    """The files below a folder, without what was made, in `out`."""
    found = []
    for folder, folders, names in os.walk(os.path.join(ROOT, *path)):
        folders[:] = [name for name in folders if name != "out"]
        found += [os.path.relpath(os.path.join(folder, name), ROOT) for name in names]
    return sorted(found)


class Named:
    """A public name: of a call, or of a type, a part of one or a definition, whose `clauses` are None."""

    def __init__(self, name: str, crate: str, path: str, owners: Sequence[str] = (),
                 clauses: Optional[set[str]] = None, is_law: bool = False):
        self.name, self.crate, self.path, self.owners, self.clauses = name, crate, path, owners, clauses
        self.is_law = is_law


class Sources:
    """The public names of all crates."""

    def __init__(self) -> None:
        lines = [line.split("#")[0].partition(":") for line in text_of("crates.txt").splitlines()]
        self.crates = {made.split()[0]: used.split() for made, colon, used in lines if colon}
        self.names: dict[str, list[Named]] = {}
        self.private: set[str] = set()
        for crate in self.crates:
            for path in files_below("crates", crate, "src"):
                self.read_code(crate, path)
            for path in files_below("crates", crate, "specs"):
                self.read_definitions(crate, path)

    def add(self, named: Named) -> Named:
        """Keeps a name."""
        self.names.setdefault(named.name, []).append(named)
        return named

    def read_code(self, crate: str, path: str) -> None:
        """Keeps the names of a source file."""
        owners, is_of_trait, is_type, call = (), False, False, None
        for line in text_of(path).splitlines():
            block = re.match(r"(?:pub(?:\([a-z]+\))? )?(impl|trait)\b(?:<.*?>+)? *(.*)", line)
            declared = re.match(r"pub (?:struct|enum|trait|type) (\w+)", line)
            constant = re.match(r"    pub const (\w+):", line)
            function = re.match(r"( *)(pub )?(?:pub\([a-z]+\) )?(?:const )?(?:extern \"C\" )?fn (\w+)", line)
            clause = re.match(r" *ensures\*? (\w+) \{", line)
            part = re.match(r"    (?:pub )?(\w+)", line)
            if declared:
                self.add(Named(declared.group(1), crate, path))
                is_type, name = not block, declared.group(1)
            if block:
                heads = block.group(2).split("{")[0].split(" for ")
                owners = tuple(re.match(r"\w*", head.split("::")[-1]).group() for head in heads)
                is_of_trait = block.group(1) == "trait" or len(heads) > 1
            elif line.startswith("}"):
                owners, is_type = (), False
            elif function:
                is_public = function.group(2) or function.group(1) and is_of_trait
                call = Named(function.group(3), crate, path, owners if function.group(1) else (), set(),
                             line.endswith("()"))
                if is_public:
                    self.add(call)
                else:
                    self.private.add(call.name)
            elif clause and call:
                call.clauses.add(clause.group(1))
            elif is_type and part:
                self.add(Named(part.group(1), crate, path, (name,)))
            elif constant:
                self.add(Named(constant.group(1), crate, path, owners))

    def read_definitions(self, crate: str, path: str) -> None:
        """Keeps the names of a specification."""
        self.add(Named(os.path.basename(path).split(".")[0], crate, path))
        for name in re.findall(r"^ *(?:[a-z]+ )*pub (?:record |data )?(\w+)", text_of(path), re.MULTILINE):
            self.add(Named(name, crate, path))

    def find(self, name: str, crate: Optional[str] = None) -> list[Named]:
        """What has this name, as `Type::call` or alone."""
        owner, _, name = name.rpartition("::")
        return [named for named in self.names.get(name, []) if crate in (None, named.crate)
                and (not owner or owner in named.owners)]

    def calls_of(self, crate: str) -> list[Named]:
        """What callers of a library call: its functions, and those of its types and traits, as lib.rt passes them on.
        What a type answers to a trait is called by the trait."""
        lists = re.findall(r"^pub use ([^;]*);", text_of("crates", crate, "src", "lib.rt"), re.MULTILINE)
        passed_on = set(re.findall(r"\w+", " ".join(lists)))
        return [named for all_of in self.names.values() for named in all_of
                if named.crate == crate and named.clauses is not None and "/tests" not in named.path
                and (named.owners or (named.name,))[0] in passed_on and len(named.owners) < 2]


@functools.cache
def rt(word: str) -> str:
    """What the toolchain's command prints; where it isn't installed, those of its words that the documents use."""
    if not shutil.which("rt"):
        return "check ci doc fmt must-fail plant run test tidy try version"
    return subprocess.run(["rt", word], stdout=subprocess.PIPE, stderr=subprocess.STDOUT, text=True).stdout
