"""The service over HTTP by Python's own server: a thread for each client."""

from __future__ import annotations

import contextlib
import functools
import http.client
import io
import socket
import socketserver
import struct
import sys
import threading
import time
from typing import Any, BinaryIO, Callable, Optional
from wsgiref.simple_server import ServerHandler, WSGIRequestHandler, WSGIServer

from mseed_tools.asking import shown
from mseed_tools.fdsn import PLAIN, REASONS, error_text
from mseed_tools.files import open_at_once
from mseed_tools.selecting import Gone
from mseed_tools.service import IS_GONE, Service, has_left, told

# So many clients at once; who comes then is told so. They need fewer files than these.
MOST_CLIENTS, MOST_FILES = 128, 8192
# Seconds that a client may take for its request, for what it reads at once, and to read the end of an answer.
TO_ASK, TO_READ, TO_LEAVE = 30, 600, 2
# The bytes of a request's first line, and those of its headers, all together.
MOST_LINE, MOST_HEADERS = 2**16, 2**16
# What is left of a body that was too long is read so far, so that the answer is read too.
MOST_LEFT = 2**24

# A connection that is closed with this is reset.
RESET = struct.pack("ii", 1, 0)


class Asking(io.RawIOBase):
    """What a client sends: its request has to be whole within some seconds, in whatever pieces it comes."""

    def __init__(self, connection: socket.socket):
        super().__init__()
        self.connection, self.until = connection, time.monotonic() + TO_ASK

    def readable(self) -> bool:
        """It is read."""
        return True

    def readinto(self, buffer: Any) -> int:
        """The next bytes. Raises OSError where the time is up."""
        rest, before = self.until - time.monotonic(), self.connection.gettimeout()
        if rest <= 0:
            raise TimeoutError
        try:
            self.connection.settimeout(rest)
            return self.connection.recv_into(buffer)
        finally:
            self.connection.settimeout(before)


class Headers:
    """The headers of a request, as they are read line by line."""

    def __init__(self, file: BinaryIO):
        self.file, self.left = file, MOST_HEADERS

    def readline(self, size: int) -> bytes:
        """The next line, or so many bytes of it. Raises http.client.LineTooLong where all lines have more bytes than
        are taken."""
        line = self.file.readline(min(size, self.left + 1))
        self.left -= len(line)
        if self.left < 0:
            raise http.client.LineTooLong("headers")
        return line


class Answering(ServerHandler):
    """An answer. Where it ends before all is sent, the connection is reset, so that nobody takes a part for all."""

    server_software = "mseed"
    # What the base class has: the request, the answer's status and its headers, and how much was sent.
    request_handler: Any
    status: Any
    headers: Any
    bytes_sent: int

    def log_exception(self, exc_info: Any) -> None:
        """Reports what ended an answer, unless that is that the client has gone."""
        if not isinstance(exc_info[1], (Gone, OSError)):
            told(f"{exc_info[0].__name__}: {exc_info[1]}")

    def cleanup_headers(self) -> None:
        """The headers as they are sent: an answer without data says no length, and one to HEAD none of what isn't
        sent."""
        super().cleanup_headers()
        is_unknown = self.request_handler.command == "HEAD" and self.headers["Content-Length"] == "0"
        if self.status.startswith("204") or is_unknown:
            del self.headers["Content-Length"]

    def handle_error(self) -> None:
        """Ends an answer that failed."""
        self.log_exception(sys.exc_info())
        with contextlib.suppress(OSError):
            self.request_handler.connection.setsockopt(socket.SOL_SOCKET, socket.SO_LINGER, RESET)


def log(client: str, request: str, status: str, sent: str, seconds: float) -> None:
    """Reports an answer: the client, the first line of its request, the status, the bytes, and how long it took."""
    words = "".join(character if " " <= character <= "~" else "?" for character in request[:500])
    told(f'{client} "{words}" {status} {sent} {seconds:.3f} s')


class Handler(WSGIRequestHandler):
    """A request."""

    timeout = TO_READ
    # A client that asks whether it may send its body is told so.
    protocol_version = "HTTP/1.1"

    def setup(self) -> None:
        """Takes the connection."""
        super().setup()
        self.rfile.close()
        self.rfile = io.BufferedReader(Asking(self.connection))

    def handle(self) -> None:
        """Answers it."""
        self.begun, self.requestline, self.request_version, self.command = time.monotonic(), "", "", ""
        self.is_logged = False
        try:
            self.raw_requestline = self.rfile.readline(MOST_LINE + 1)
            if len(self.raw_requestline) > MOST_LINE:
                self.send_error(414, f"the first line of the request has more than {MOST_LINE} bytes")
            elif self.raw_requestline and not self.raw_requestline.decode("latin-1").split():
                self.send_error(400, "the first line of the request is empty")
            elif self.raw_requestline and self.parse_request():
                self.run()
        except OSError:
            # The client has gone, or doesn't go on.
            self.close_connection = True

    def parse_request(self) -> bool:
        """Reads the headers, and says whether this is a request. Where it is none, that was answered."""
        connection, self.rfile = self.rfile, Headers(self.rfile)  # type: ignore[assignment]
        try:
            return super().parse_request()
        finally:
            self.rfile = connection

    def run(self) -> None:
        """Calls the application."""
        environ: Any = {**self.get_environ(), IS_GONE: functools.partial(has_left, self.connection)}
        handler = Answering(self.rfile, self.wfile, self.get_stderr(), environ, multithread=True)
        handler.request_handler = self
        handler.run(self.server.get_app())  # type: ignore[attr-defined]
        if not self.is_logged:
            self.log_request(handler.status or "-", f"{handler.bytes_sent} bytes cut off after")

    def send_error(self, code: int, message: Optional[str] = None, explain: Optional[str] = None) -> None:
        """Answers what is no request, in the form of the service's other errors."""
        status = code if code in REASONS else 400
        why = f"fewer than 100 headers are taken, of {MOST_HEADERS} bytes in all" if status == 431 else message
        text = error_text(status, why or REASONS[status], shown(self.requestline), "/").encode("ascii", "replace")
        head = f"HTTP/1.0 {status} {REASONS[status]}\r\nContent-Type: {PLAIN}\r\nContent-Length: {len(text)}\r\n\r\n"
        self.wfile.write(head.encode("ascii") + text)
        self.log_request(status, len(text))

    def address_string(self) -> str:
        """The client's address, for which nobody is asked."""
        return str(self.client_address[0])

    def log_request(self, code: Any = "-", size: Any = "-") -> None:
        """A line for each request, on standard error."""
        self.is_logged = True
        sent = size if isinstance(size, str) else f"{size} bytes"
        log(self.address_string(), self.requestline, str(code).partition(" ")[0], sent, time.monotonic() - self.begun)

    def log_message(self, format: str, *args: Any) -> None:
        """Nothing else is reported."""


class Server(socketserver.ThreadingMixIn, WSGIServer):
    """The server."""

    daemon_threads, block_on_close, request_queue_size = True, False, 128

    def __init__(self, address: tuple[str, int], service: Service):
        self.places = threading.BoundedSemaphore(MOST_CLIENTS)
        if ":" in address[0]:
            self.address_family = socket.AF_INET6
        super().__init__(address, Handler)
        self.set_app(service)

    def server_bind(self) -> None:
        """Takes the address, without asking anybody for its name."""
        socketserver.TCPServer.server_bind(self)
        self.server_name, self.server_port = str(self.server_address[0]), int(self.server_address[1])
        self.setup_environ()

    def process_request(self, request: Any, client_address: Any) -> None:
        """Begins to answer a client, or says that too many are being answered."""
        if not self.places.acquire(blocking=False):
            self.refuse(request, client_address, f"{MOST_CLIENTS} requests are being answered")
            return
        try:
            super().process_request(request, client_address)
        except RuntimeError:
            self.places.release()
            self.refuse(request, client_address, "the system gives no further thread")
        except BaseException:
            self.places.release()
            raise

    def refuse(self, request: Any, client_address: Any, why: str) -> None:
        """Says to a client why it isn't answered, and ends its connection at once. What it requests isn't read."""
        begun = time.monotonic()
        text = error_text(503, why, "", "/").encode("ascii")
        with contextlib.suppress(OSError):
            request.settimeout(0)
            request.send(f"HTTP/1.0 503 {REASONS[503]}\r\nContent-Type: {PLAIN}\r\n"
                         f"Content-Length: {len(text)}\r\n\r\n".encode("ascii") + text)
        socketserver.TCPServer.shutdown_request(self, request)
        log(str(client_address[0]), "", "503", f"{len(text)} bytes", time.monotonic() - begun)

    def process_request_thread(self, request: Any, client_address: Any) -> None:
        """Answers a client, in a thread of its own."""
        try:
            super().process_request_thread(request, client_address)
        finally:
            self.places.release()

    def shutdown_request(self, request: Any) -> None:
        """Ends a connection, once the client has had time to read all, and to send what nobody reads."""
        left, until = MOST_LEFT, time.monotonic() + TO_LEAVE
        with contextlib.suppress(OSError):
            if request.getsockopt(socket.SOL_SOCKET, socket.SO_LINGER, len(RESET)) == RESET:
                # An answer that was cut off ends at once.
                left = 0
            else:
                request.shutdown(socket.SHUT_WR)
            while left > 0 and (rest := until - time.monotonic()) > 0:
                request.settimeout(rest)
                came = len(request.recv(2**16))
                left -= came if came else left
        self.close_request(request)

    def handle_error(self, request: Any, client_address: Any) -> None:
        """Reports what ended a thread."""
        error = sys.exc_info()[1]
        if not isinstance(error, OSError):
            told(f"{type(error).__name__}: {error}")


def served(address: str, port: int, service: Service, is_ready: Callable[[str], None]) -> None:
    """Serves until it is stopped. Raises OSError where the address can't be had."""
    open_at_once(MOST_FILES)
    with Server((address, port), service) as server:
        host = f"[{server.server_name}]" if ":" in server.server_name else server.server_name
        is_ready(f"http://{host}:{server.server_port}/")
        server.serve_forever()
