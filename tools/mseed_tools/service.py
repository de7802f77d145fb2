"""An archive in the SDS layout as an FDSN dataselect service: a WSGI application."""

from __future__ import annotations

import contextlib
import os
import re
import select
import socket
from typing import Any, Callable, Generator, Iterable, NamedTuple, Optional, Union
from wsgiref.util import request_uri

from mseed_tools.asking import shown
from mseed_tools.command import tell
from mseed_tools.extracting import Extraction
from mseed_tools.fdsn import (BASE, MINISEED, MOST_BODY, PLAIN, REASONS, VERSION, XML, Refused, Wanted, error_text,
                              of_body, of_query)
from mseed_tools.lengths import filtered
from mseed_tools.page import HTML, page
from mseed_tools.program import Program, ToolError, find
from mseed_tools.searching import Search
from mseed_tools.selecting import PIPE, Gone
from mseed_tools.wadl import wadl

Environ = dict[str, Any]
# The bytes of an answer, where no other number is given.
LIMIT = 10**10
HOST = re.compile(r"[A-Za-z0-9.:\[\]-]{1,255}", re.ASCII)
# What a server may put into the environment: a call that says whether the client has gone.
IS_GONE = "mseed.is_gone"


class Body:
    """The records of an answer, of which the first have come. Where it is closed, nothing is selected any more. Raises
    Gone where the client has gone meanwhile."""

    def __init__(self, first: bytes, chunks: Generator[bytes, None, None]):
        self.first, self.chunks = first, chunks

    def __iter__(self) -> Body:
        return self

    def __next__(self) -> bytes:
        if self.first:
            first, self.first = self.first, b""
            return first
        return next(self.chunks)

    def close(self) -> None:
        """Ends what is selected."""
        self.chunks.close()


class Answer(NamedTuple):
    """A status, what is sent, and of which kind it is."""

    status: int
    kind: str = ""
    body: Union[bytes, Body] = b""
    more: tuple[tuple[str, str], ...] = ()


def told(line: str) -> None:
    """Reports a line on standard error. Where that can't be written, answers go on without it."""
    with contextlib.suppress(OSError):
        tell(line)


def has_left(connection: socket.socket) -> bool:
    """Whether whoever is at the other end of a connection has closed it."""
    waits = select.poll()
    try:
        waits.register(connection, select.POLLIN)
        return bool(waits.poll(0)) and connection.recv(1, socket.MSG_PEEK) == b""
    except (OSError, ValueError):
        return True


class Service:
    """The application. Requests may come side by side. It raises Gone where the client has gone before the answer: the
    server then cuts the connection, and sends no status."""

    def __init__(self, root: Union[str, "os.PathLike[str]"], *, limit: int = LIMIT, state: Optional[str] = None,
                 program: Optional[Program] = None, tell: Callable[[str], None] = told):
        self.root, self.limit, self.state, self.tell = os.fspath(root), limit, state, tell
        self.program = program or find()
        if not os.path.isdir(self.root):
            raise ToolError(f"{self.root}: no such folder")
        Search(self.root).must_be_root()

    def __call__(self, environ: Environ, start_response: Callable[..., Any]) -> Iterable[bytes]:
        try:
            answer = self.answer(environ)
        except Refused as refused:
            answer = self.refusal(environ, refused)
        except Gone:
            # Whoever closed its half of the connection may still read: the server ends it without an answer.
            raise
        except Exception as error:
            self.tell(f"{type(error).__name__}: {error}")
            answer = self.refusal(environ, Refused(500, "the request could not be carried out"))
        headers = [("Content-Type", answer.kind)] if answer.kind else []
        if isinstance(answer.body, bytes) and answer.status != 204:
            headers.append(("Content-Length", str(len(answer.body))))
        start_response(f"{answer.status} {REASONS[answer.status]}", [*headers, *answer.more])
        is_head = environ["REQUEST_METHOD"] == "HEAD"
        if isinstance(answer.body, bytes):
            return () if is_head or not answer.body else (answer.body,)
        if is_head:
            answer.body.close()
            return ()
        return answer.body

    def answer(self, environ: Environ) -> Answer:
        """The answer to a request. Raises Refused where it isn't carried out."""
        path, base = environ.get("PATH_INFO", ""), base_of(environ)
        if path == f"{BASE}query":
            return self.query(environ)
        texts = {"/": HTML, BASE: HTML, BASE.rstrip("/"): HTML, f"{BASE}version": PLAIN, f"{BASE}application.wadl": XML}
        if path not in texts:
            raise Refused(404, f"nothing is at this address; requests are at {base}query")
        allow(environ, "GET", "HEAD")
        if texts[path] == HTML:
            text, more = page(self.root, self.state, environ.get("QUERY_STRING", ""), base)
        else:
            text, more = f"{VERSION}\n" if texts[path] == PLAIN else wadl(base), ()
        return Answer(200, texts[path], text.encode("utf-8"), more)

    def refusal(self, environ: Environ, refused: Refused) -> Answer:
        """The answer to a request that isn't carried out."""
        uri = request_uri(environ)[:2000].encode("ascii", "replace").decode("ascii")
        what = "".join(character if " " <= character <= "~" else "?" for character in uri)
        text = error_text(refused.status, refused.why, what, base_of(environ))
        return Answer(refused.status, PLAIN, text.encode("utf-8", "replace"), refused.headers)

    def query(self, environ: Environ) -> Answer:
        """The answer to a request for records."""
        allow(environ, "GET", "HEAD", "POST")
        is_post = environ["REQUEST_METHOD"] == "POST"
        wanted = of_body(body_of(environ)) if is_post else of_query(environ.get("QUERY_STRING", ""))
        is_gone = gone_by(environ)
        self.bound(wanted, is_gone)
        chunks = self.chunks(wanted, is_gone)
        first = next(chunks, b"")
        if not first:
            if wanted.nodata == 204:
                return Answer(204)
            raise Refused(404, "no data match the request")
        return Answer(200, MINISEED, Body(first, chunks),
                      (("Content-Disposition", 'attachment; filename="dataselect.mseed"'),))

    def extraction(self, wanted: Wanted, is_gone: Optional[Callable[[], bool]],
                   tell: Callable[[str], None]) -> Extraction:
        """What is asked for out of the tree."""
        return Extraction(self.program, self.root, wanted.requests, tell, at_once=PIPE, is_gone=is_gone)

    def bound(self, wanted: Wanted, is_gone: Optional[Callable[[], bool]]) -> None:
        """Raises Refused where more than the limit is asked for. The files that are read are looked at first: only
        where they are larger, what is asked for is counted."""
        size = 0
        extraction = self.extraction(wanted, is_gone, lambda line: None)
        for source in extraction.sources():
            with contextlib.suppress(OSError):
                size += os.stat(extraction.path_of(source)).st_size
            if size > self.limit:
                break
        else:
            return
        size = 0
        for chunk in self.extraction(wanted, is_gone, lambda line: None).chunks():
            size += len(chunk)
            if size > self.limit:
                raise Refused(413, f"the answer has more than {self.limit} bytes; ask for less at once")

    def chunks(self, wanted: Wanted, is_gone: Optional[Callable[[], bool]]) -> Generator[bytes, None, None]:
        """The records that are asked for, but for those that are taken away."""
        extraction = self.extraction(wanted, is_gone, self.tell)
        if not wanted.is_filtered():
            yield from extraction.chunks()
            return
        for chunks in extraction.channels():
            yield from filtered(self.program, chunks, wanted.quality, wanted.minimum, wanted.is_longest, is_gone)


def allow(environ: Environ, *methods: str) -> None:
    """Raises Refused where a request's method is none of these."""
    if environ["REQUEST_METHOD"] not in methods:
        words = ", ".join(methods)
        raise Refused(405, f"{shown(environ['REQUEST_METHOD'])}: this address takes {words}", (("Allow", words),))


def base_of(environ: Environ) -> str:
    """The address of the service as its clients know it; a proxy before it says by which scheme they came."""
    scheme = environ.get("HTTP_X_FORWARDED_PROTO", "")
    scheme = scheme if scheme in ("http", "https") else environ["wsgi.url_scheme"]
    host = environ.get("HTTP_HOST", "")
    if not HOST.fullmatch(host):
        host = f"{environ['SERVER_NAME']}:{environ['SERVER_PORT']}"
    return f"{scheme}://{host}{environ.get('SCRIPT_NAME', '')}{BASE}"


def body_of(environ: Environ) -> bytes:
    """The body of a request. Raises Refused where it is too long, or isn't there."""
    length = environ.get("CONTENT_LENGTH") or ""
    is_chunked = not length and bool(environ.get("wsgi.input_terminated"))
    if not is_chunked and not re.fullmatch("[0-9]{1,18}", length, re.ASCII):
        raise Refused(400, "a POST says by Content-Length how long its body is")
    size = MOST_BODY + 1 if is_chunked else int(length)
    try:
        body: bytes = environ["wsgi.input"].read(size) if is_chunked or size <= MOST_BODY else b""
    except OSError:
        raise Refused(400, "the body didn't come") from None
    if (len(body) if is_chunked else size) > MOST_BODY:
        raise Refused(413, f"the body has more than {MOST_BODY} bytes")
    if len(body) < size and not is_chunked:
        raise Refused(400, f"the body ended after {len(body)} of {size} bytes")
    return body


def gone_by(environ: Environ) -> Optional[Callable[[], bool]]:
    """What says whether the client has gone, where the server lets one know."""
    connection = environ.get("gunicorn.socket")
    return environ.get(IS_GONE) or (None if connection is None else lambda: has_left(connection))
