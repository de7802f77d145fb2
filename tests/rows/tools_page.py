"""The page of `tools/fdsnws`: what stands in it, and as Chromium shows it, at two widths, where that is installed."""

from __future__ import annotations

import html.parser
import os
import re
import runpy
import subprocess
import sys
import tempfile
import urllib.parse
from pathlib import Path
from typing import Optional

from driver.browser import Browser, chromium
from driver.program import PROGRAM, ROOT
from driver.rows import Cases, Fact, Skipped, holds
from driver.service import QUERY, Service, serving
from driver.tools import tool

DRAWN = ROOT / "docs" / "fdsnws.py"
WIDTHS = (380, 1280)
REQUEST = "network=XX&station=KILN&channel=BH?&starttime=2024-05-14&endtime=2024-05-15"


class Reader(html.parser.HTMLParser):
    """What stands in a page: the texts of its elements, and all that it would load."""

    def __init__(self) -> None:
        super().__init__()
        self.texts: dict[str, str] = {}
        self.loads: list[tuple[str, Optional[str]]] = []
        self.ids: list[Optional[str]] = []

    def handle_starttag(self, tag: str, attrs: list[tuple[str, Optional[str]]]) -> None:
        """An element begins."""
        values = dict(attrs)
        self.loads += [(tag, value) for name, value in attrs if name in ("src", "srcset", "data", "poster")]
        self.loads += [(tag, values.get("href"))] if tag in ("link", "script", "iframe", "object", "embed") else []
        if tag not in ("meta", "input", "br"):
            self.ids.append(values.get("id") or values.get("class"))

    def handle_endtag(self, tag: str) -> None:
        """An element ends."""
        self.ids.pop()

    def handle_data(self, data: str) -> None:
        """A text."""
        if self.ids and self.ids[-1]:
            self.texts[self.ids[-1]] = self.texts.get(self.ids[-1], "") + data


def read(service: Service, query: str = "") -> Reader:
    """A page."""
    reader = Reader()
    reader.feed(service.get(f"/?{query}" if query else "/").text)
    return reader


def written(folder: Path, root: Path, state: Path) -> Cases:
    """What stands in the page."""
    with serving(root, "--state", str(state)) as service:
        reply = service.get("/")
        yield Fact("the page", (200, "text/html; charset=utf-8"), (reply.status, reply.headers["content-type"]))
        yield holds("nothing is loaded, nor run", "default-src 'none'" in reply.headers["content-security-policy"])
        page = read(service)
        yield Fact("what it would load", [], page.loads)
        yield Fact("its channels", "XX_KILN__BHEXX_KILN__BHNXX_KILN__BHZXX_MOOR__BHZXX_TARN__LOG", page.texts["name"])
        none, says = "gaps 0 0.000000 s", page.texts["says"]
        yield holds("what the audit said", re.match(f"{none} .*findings 0gaps 1 172800.000000 s .*findings 1, missing "
                                                    f"2024-05-13..2024-05-14{none} .*findings 0{none} .*findings 0"
                                                    "not decoded", says), says)
        yield holds("the last line of the audit", "files 29 " in reply.text and ", status 1." in reply.text)
        yield holds("a bar for each run of days", reply.text.count("<rect ") == 7, reply.text.count("<rect "))
        asked = read(service, REQUEST)
        url = f"http://here:1{QUERY}?{REQUEST}"
        yield Fact("a request that was made by the form", (url, f"curl --fail --output data.mseed '{url}'"),
                   (asked.texts["url"], asked.texts["curl"]))
        yield Fact("the channels of a request", "XX_KILN__BHEXX_KILN__BHNXX_KILN__BHZ", asked.texts["name"])
        yield Fact("the address answers it", 200, service.get(f"{QUERY}?{REQUEST}").status)
        wrong = read(service, "network=..&starttime=")
        yield holds("a request that isn't accepted", wrong.texts["error"].startswith("..: no code of letters"))
        hostile = service.get("/?network=%3Cscript%3Ealert(1)%3C/script%3E&station=%22%3E%3Cb%3E").text
        yield holds("what was given stays a text", "<script" not in hostile and "><b>" not in hostile)
    with serving(root, "--state", str(folder)) as service:
        yield holds("a page without an audit", "No audit by" in service.get("/").text)
    (folder / "nothing").mkdir()
    with serving(folder / "nothing") as service:
        yield holds("a page without channels", "No channel is there" in service.get("/").text)


def shown(folder: Path, root: Path, state: Path) -> Cases:
    """The page in a browser: its button, and that nothing reaches over its edge."""
    if chromium() is None:
        yield Skipped("the page in a browser", "chromium")
        return
    words = runpy.run_path(str(DRAWN))
    with serving(root, "--state", str(state)) as service, Browser(folder / "profile") as browser:
        for width in WIDTHS:
            words["pressed"](browser, f"http://127.0.0.1:{service.port}/", width)
            given = urllib.parse.urlencode(words["GIVEN"], safe=":*?,")
            url = f"http://127.0.0.1:{service.port}{QUERY}?{given}"
            yield Fact(f"the button, at a width of {width}", (url, url),
                       (browser.value("document.querySelector('#url').textContent"),
                        browser.value("document.querySelector('#made + p a').href").replace("%3A", ":")))
            wide = browser.value("document.documentElement.scrollWidth")
            yield holds(f"nothing reaches over the edge, at a width of {width}", wide <= width, wide)
            yield holds(f"each bar is seen, at a width of {width}", browser.value(
                "[...document.querySelectorAll('rect')].every(one => one.getBoundingClientRect().width >= 1)"))
            yield holds(f"a picture, at a width of {width}", browser.picture(2000).startswith(b"\x89PNG"))
    drawn = folder / "drawn.png"
    run = subprocess.run([sys.executable, str(DRAWN), str(drawn)], env={**os.environ, "MSEED": str(PROGRAM)},
                         check=False)
    yield Fact("docs/fdsnws.py", (0, True), (run.returncode, drawn.exists() and drawn.read_bytes()[:4] == b"\x89PNG"))


def rows() -> Cases:
    """All of them."""
    with tempfile.TemporaryDirectory() as name:
        folder = Path(name)
        root, state = folder / "archive", folder / "state"
        runpy.run_path(str(DRAWN))["make_tree"](root)
        tool("sds", "--state", str(state), str(root))
        yield from written(folder, root, state)
        yield from shown(folder, root, state)
