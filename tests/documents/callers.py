"""The page for callers of each crate, `crates/NAME/CALLING.md`, and the documentation of fields.

- Each block of code of a page is, line for line, one function of the file of `crates/examples` to which the page links,
  and each function of that file is on the page.
- Each public call of the crate is named, as `Type::call` where it has a type, and is called in one of the examples; a
  law, which has no body, is only named.
- Each public field and each variant of a crate, and each field of a variant, has a line of documentation.
"""

from __future__ import annotations

import os
import re
from typing import Iterator

from documents.page import Judged
from documents.sources import Sources, files_below, text_of
from driver.program import CRATES

# The libraries that nobody calls, and the one that C calls, which its header documents.
WITHOUT_CALLERS = ["examples", "mseed_tests", "slink_tests", "mseed_c"]
BLOCK = re.compile(r"^```rust\n(.*?)^```$", re.MULTILINE | re.DOTALL)
EXAMPLES = re.compile(r"\]\((\.\./examples/src/\w+\.rt)\)")
# Of an enum its variants, and the fields of these, each on a line of its own.
PARTS = {"struct": r"    pub (?:ghost )?(\w+):", "enum": r"    (?:    (?=[a-z]))?(\w+)(?:,|\(|:| \{)"}


def libraries(sources: Sources) -> list[str]:
    """The crates that have callers."""
    return [crate for crate in sources.crates
            if crate not in WITHOUT_CALLERS and (CRATES / crate / "src" / "lib.rt").exists()]


def page_of(crate: str) -> str:
    """The page for callers of a crate."""
    return f"crates/{crate}/CALLING.md"


def codes_of(name: str, text: str) -> list[str]:
    """The code of each file of examples to which a page links."""
    return [text_of(os.path.normpath(os.path.join(os.path.dirname(name), path))) for path in EXAMPLES.findall(text)]


def examples_of(name: str, text: str) -> dict[str, str]:
    """The functions of the files to which a page links, by their names, each with the lines above that belong to it."""
    found = {}
    for code in codes_of(name, text):
        for example in re.finditer(r"^(?:(?:///|#\[).*\n)*pub fn (\w+)(?:.*\n)*?(?:\}|\{\})\n", code, re.MULTILINE):
            found[example.group(1)] = example.group()
    return found


def requoted(name: str, text: str) -> str:
    """The page, with each example as it stands in the code. A block with only the name of one gets it too."""
    examples = examples_of(name, text)

    def quoted(block: re.Match) -> str:
        named = re.search(r"^(?:pub fn )?(\w+)", block.group(1), re.MULTILINE)
        return f"```rust\n{examples.get(named and named.group(1), block.group(1))}```"

    return BLOCK.sub(quoted, text)


def judged_page(sources: Sources, name: str, text: str) -> Iterator[Judged]:
    """What a page for callers has to show, and whether it does."""
    examples, blocks = examples_of(name, text), BLOCK.findall(text)
    prose = BLOCK.sub("", text)
    for block in blocks:
        stands = block in examples.values() or any(f"\n{block}" in code for code in codes_of(name, text))
        yield Judged(f"{name}: {block.strip().splitlines()[0]}", stands,
                     "no example of crates/examples")
    for example, code in examples.items():
        yield Judged(f"{name}: the example `{example}`", code in blocks, "isn't on the page")
    for call in sources.calls_of(name.split("/")[1]):
        whole = "::".join([*call.owners, call.name])
        yield Judged(f"{name}: `{whole}`", f"`{whole}`" in prose, "isn't on the page")
        is_called = any(re.search(rf"\b{call.name}(?:::<.*?>)?\(", re.sub("fn .*", "", block)) for block in blocks)
        yield Judged(f"{name}: a call of `{whole}`", call.is_law or is_called, "in no example")


def judged_fields(sources: Sources) -> Iterator[Judged]:
    """The public fields and variants, with the fields of these, and whether each has a line of documentation."""
    paths = [path for crate in sources.crates for path in files_below("crates", crate, "src")]
    for path in [path for path in paths if "/tests" not in path]:
        kind, is_documented = None, False
        for number, line in enumerate(text_of(path).splitlines(), 1):
            declared = re.match(r"pub (struct|enum) (\w+)", line)
            kind = declared.group(1, 2) if declared else None if line.startswith("}") else kind
            part = kind and re.match(PARTS[kind[0]], line)
            if part and not declared:
                is_so = is_documented and not (kind[0] == "enum" and line.endswith(" },"))
                yield Judged(f"{path}:{number}: {kind[1]}: {part.group(1)}", is_so, "has no documentation")
            is_documented = line.strip().startswith("///") or is_documented and line.startswith("    #[")
