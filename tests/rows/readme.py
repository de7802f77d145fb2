"""Each command that the README and the documents show prints what stands there."""

from __future__ import annotations

from driver.examples import shown_in
from driver.program import ROOT
from driver.rows import Cases

DOCUMENTS = ["README.md", "docs/texts.md", "docs/format.md", "docs/protocol.md", "docs/performance.md"]


def rows() -> Cases:
    """All of them."""
    for document in DOCUMENTS:
        if (ROOT / document).exists():
            yield from shown_in(document)
