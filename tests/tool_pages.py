#!/usr/bin/env python3
"""Writes the manual pages of the tools and their completion for bash, as they follow from what the tools take: to be
run where a tool is new, or takes something else. The row file tools_pages compares them."""

from __future__ import annotations

from documents.tool_pages import written
from documents.tool_words import tools


def main() -> None:
    """Writes each page anew."""
    for path, text in written(tools()).items():
        path.write_text(text, encoding="utf-8")


if __name__ == "__main__":
    main()
