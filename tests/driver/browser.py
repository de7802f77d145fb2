"""A browser without a window, Debian's Chromium, which a test looks at pages with."""

from __future__ import annotations

import base64
import contextlib
import json
import os
import re
import secrets
import shutil
import socket
import struct
import subprocess
import time
import urllib.request
from pathlib import Path
from typing import Any, Optional

SECONDS = 60


def chromium() -> Optional[str]:
    """Where it is, if it is installed."""
    return shutil.which("chromium") or shutil.which("chromium-browser")


class Browser:
    """A browser with one page, which it is told by the protocol of its developers' tools."""

    def __init__(self, folder: Path):
        program = chromium()
        if program is None:
            raise FileNotFoundError("chromium")
        self.process = subprocess.Popen(
            [program, "--headless", "--no-sandbox", "--disable-gpu", "--disable-dev-shm-usage", "--hide-scrollbars",
             "--remote-debugging-port=0", f"--user-data-dir={folder}", "about:blank"],
            stdin=subprocess.DEVNULL, stdout=subprocess.DEVNULL, stderr=subprocess.PIPE, start_new_session=True)
        port = self.port()
        with urllib.request.urlopen(f"http://127.0.0.1:{port}/json/list", timeout=SECONDS) as answer:
            page = next(one for one in json.load(answer) if one["type"] == "page")
        self.link = socket.create_connection(("127.0.0.1", port), timeout=SECONDS)
        self.left, self.number = b"", 0
        path = page["webSocketDebuggerUrl"].partition(f":{port}")[2]
        key = base64.b64encode(secrets.token_bytes(16)).decode()
        self.link.sendall(f"GET {path} HTTP/1.1\r\nHost: 127.0.0.1:{port}\r\nUpgrade: websocket\r\n"
                          "Connection: Upgrade\r\n"
                          f"Sec-WebSocket-Key: {key}\r\nSec-WebSocket-Version: 13\r\n\r\n".encode())
        while not (line := self.line()) == b"\r\n":
            if not line:
                raise ConnectionError("no link to the browser")

    def port(self) -> int:
        """The port at which it listens."""
        until = time.monotonic() + SECONDS
        while time.monotonic() < until and (line := self.process.stderr.readline()):
            found = re.search(rb"DevTools listening on ws://[^:]+:(\d+)/", line)
            if found:
                return int(found[1])
        raise ConnectionError("the browser doesn't listen")

    def __enter__(self) -> Browser:
        return self

    def __exit__(self, *_: object) -> None:
        self.link.close()
        os.killpg(self.process.pid, 9)
        self.process.wait()
        self.process.stderr.close()

    def taken(self, size: int) -> bytes:
        """So many bytes of the link."""
        while len(self.left) < size:
            part = self.link.recv(2**16)
            if not part:
                raise ConnectionError("the browser has ended")
            self.left += part
        taken, self.left = self.left[:size], self.left[size:]
        return taken

    def line(self) -> bytes:
        """A line of the link."""
        line = b""
        while not line.endswith(b"\n"):
            line += self.taken(1)
        return line

    def message(self) -> Any:
        """The next message."""
        text = b""
        while True:
            first, second = self.taken(2)
            size = second & 127
            if size > 125:
                size = struct.unpack(">H" if size == 126 else ">Q", self.taken(2 if size == 126 else 8))[0]
            text += self.taken(size)
            if first & 128:
                return json.loads(text)

    def call(self, method: str, **values: object) -> dict[str, Any]:
        """What it answers to a call."""
        self.number += 1
        text = json.dumps({"id": self.number, "method": method, "params": values}).encode()
        mask = secrets.token_bytes(4)
        size = bytes([128 | len(text)]) if len(text) < 126 else bytes([254]) + struct.pack(">H", len(text))
        masked = bytes(byte ^ mask[place % 4] for place, byte in enumerate(text))
        self.link.sendall(bytes([0x81]) + size + mask + masked)
        while True:
            answer = self.message()
            if answer.get("id") == self.number:
                if "error" in answer:
                    raise RuntimeError(f"{method}: {answer['error']}")
                return answer["result"]

    def value(self, expression: str) -> Any:
        """What an expression gives in the page."""
        return self.call("Runtime.evaluate", expression=expression, returnByValue=True)["result"].get("value")

    def come(self, expression: str) -> bool:
        """Whether an expression holds soon."""
        until = time.monotonic() + SECONDS
        while time.monotonic() < until:
            # While one page takes another's place there is nothing in which it would hold.
            with contextlib.suppress(RuntimeError):
                if self.value(expression) is True:
                    return True
            time.sleep(0.05)
        return False

    def open(self, url: str, width: int, height: int = 900) -> None:
        """Opens a page, so wide."""
        self.call("Emulation.setDeviceMetricsOverride", width=width, height=height, deviceScaleFactor=1, mobile=False)
        self.call("Page.navigate", url=url)
        if not self.come(f"document.readyState == 'complete' && location.href.startsWith({json.dumps(url)})"):
            raise RuntimeError(f"{url} doesn't open")

    def picture(self, height: int) -> bytes:
        """The page as a PNG, up to so high."""
        width, whole = self.value("innerWidth"), self.value("document.documentElement.scrollHeight")
        clip = {"x": 0, "y": 0, "width": width, "height": min(height, whole), "scale": 1}
        made = self.call("Page.captureScreenshot", format="png", clip=clip, captureBeyondViewport=True)
        return base64.b64decode(made["data"])
