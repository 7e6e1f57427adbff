"""The server of ``play``: one page and its questions, for the browser of this machine's user and nobody else.

It listens on 127.0.0.1 alone. An address is served only with the token in its path, which the printed link has. ``Host`` must be this server's own, so that no
name of another leads here; a question must come from the page itself, by its ``Origin``. There is one page, whose parts are in it, and no file is read for a
request. A request is bounded in length and in time, and so many are answered at once.
"""

from __future__ import annotations

import hmac
import io
import json
import secrets
import socket
import sys
import threading
import time
from collections.abc import Callable
from http import HTTPStatus
from http.client import HTTP_PORT
from http.server import BaseHTTPRequestHandler, ThreadingHTTPServer
from typing import Any, Final

from .errors import BenchError
from .played import Played

#: The only address that is listened on.
LOOPBACK: Final = "127.0.0.1"
#: The longest question, in bytes.
MOST_BYTES: Final = 1 << 19
#: Seconds that a connection may be silent, that a request may take to come and its answer to go, and how many are served at once.
SILENT: Final = 30.0
AT_ONCE: Final = 16

_HEADERS: Final = {
    "Cache-Control": "no-store",
    "Referrer-Policy": "no-referrer",
    "X-Content-Type-Options": "nosniff",
    "X-Frame-Options": "DENY",
    "Cross-Origin-Opener-Policy": "same-origin",
    "Cross-Origin-Resource-Policy": "same-origin",
}


class Server(ThreadingHTTPServer):
    """Serves the page of a run and answers its questions."""

    # A connection ends with the process.
    daemon_threads = True
    block_on_close = False

    def __init__(self, port: int, played: Played, page: str) -> None:
        self.played = played
        self.page = page.encode("utf-8")
        self.token = secrets.token_urlsafe(24)
        self._free = threading.Semaphore(AT_ONCE)
        super().__init__((LOOPBACK, port), Handler)
        #: What `Host` may be.
        self.hosts = tuple(name if self.server_port == HTTP_PORT else f"{name}:{self.server_port}" for name in (LOOPBACK, "localhost"))

    @property
    def link(self) -> str:
        """The address of the page."""
        return f"http://{self.hosts[0]}/{self.token}/"

    def process_request(self, request: Any, client_address: Any) -> None:
        """Serves a connection in a thread of its own; one too many is closed."""
        if not self._free.acquire(blocking=False):
            self.shutdown_request(request)
            return
        super().process_request(request, client_address)

    def process_request_thread(self, request: Any, client_address: Any) -> None:
        """Serves a connection."""
        try:
            super().process_request_thread(request, client_address)
        finally:
            self._free.release()

    def handle_error(self, request: Any, client_address: Any) -> None:
        """A connection that breaks off is nobody's concern."""
        if not isinstance(sys.exception(), OSError):
            super().handle_error(request, client_address)


class _Reader(socket.SocketIO):
    """The bytes of a connection. It may be silent for so long, and what then comes has as long until it is whole."""

    def __init__(self, connection: socket.socket, seconds: float) -> None:
        super().__init__(connection, "r")
        self._connection = connection
        self._seconds = seconds
        self._until: float | None = None

    def wait(self) -> None:
        """The next byte begins another request."""
        self._until = None

    def readinto(self, buffer: Any) -> int | None:
        """Reads what there is."""
        self._connection.settimeout(self._seconds if self._until is None else max(0.001, self._until - time.monotonic()))
        count = super().readinto(buffer)
        if self._until is None:
            self._until = time.monotonic() + self._seconds
        return count


class _Stop(Exception):
    """A request that is refused: the status, and why."""

    def __init__(self, status: HTTPStatus, why: str) -> None:
        super().__init__(why)
        self.status = status
        self.why = why


class Handler(BaseHTTPRequestHandler):
    """A connection: its requests are checked, and answered one after the other."""

    server: Server
    protocol_version = "HTTP/1.1"
    server_version = "lock-bench"
    sys_version = ""
    timeout = SILENT

    def setup(self) -> None:
        super().setup()
        # Answers are small, and waited for.
        self.connection.setsockopt(socket.IPPROTO_TCP, socket.TCP_NODELAY, 1)
        self._reader = _Reader(self.connection, self.timeout)
        self.rfile = io.BufferedReader(self._reader)

    def handle_one_request(self) -> None:
        self._reader.wait()
        super().handle_one_request()

    def do_GET(self) -> None:
        self._serve(self._page)

    def do_HEAD(self) -> None:
        self._serve(self._page)

    def do_POST(self) -> None:
        self._serve(self._answer)

    def _serve(self, serve: Callable[[], tuple[str, bytes]]) -> None:
        try:
            self._check_host()
            kind, body = serve()
            status = HTTPStatus.OK
        except _Stop as stop:
            # What is left of the request is not read.
            self.close_connection = True
            status, kind, body = stop.status, "application/json", _json({"error": stop.why})
        except BenchError as error:
            status, kind, body = HTTPStatus.BAD_REQUEST, "application/json", _json({"error": str(error)})
        self._send(status, kind, body)

    def _send(self, status: HTTPStatus, kind: str, body: bytes) -> None:
        self.connection.settimeout(self.timeout)
        self.send_response(status)
        for name, value in _HEADERS.items():
            self.send_header(name, value)
        self.send_header("Content-Type", f"{kind}; charset=utf-8")
        self.send_header("Content-Length", str(len(body)))
        if self.close_connection:
            self.send_header("Connection", "close")
        self.end_headers()
        if self.command != "HEAD":
            self.wfile.write(body)

    def _check_host(self) -> None:
        if self.headers.get_all("Host") not in ([host] for host in self.server.hosts):
            raise _Stop(HTTPStatus.MISDIRECTED_REQUEST, "this is not the server of that name")

    def _place(self) -> str:
        """What the path has behind the token."""
        token, slash, place = self.path.removeprefix("/").partition("/")
        if not slash or not hmac.compare_digest(token.encode("utf-8", "replace"), self.server.token.encode("ascii")):
            raise _Stop(HTTPStatus.FORBIDDEN, "the link has another token: take the one that ./bench play printed last")
        return place

    def _page(self) -> tuple[str, bytes]:
        if self._place() != "":
            raise _Stop(HTTPStatus.NOT_FOUND, "there is no such page")
        return "text/html", self.server.page

    def _answer(self) -> tuple[str, bytes]:
        name = self._place()
        origin = self.headers.get_all("Origin")
        if origin != [f"http://{self.headers['Host']}"] or self.headers.get("Sec-Fetch-Site", "same-origin") != "same-origin":
            raise _Stop(HTTPStatus.FORBIDDEN, "a question comes from the page itself")
        if name not in self.server.played.names():
            raise _Stop(HTTPStatus.NOT_FOUND, "there is no such question")
        if self.headers.get_content_type() != "application/json":
            raise _Stop(HTTPStatus.UNSUPPORTED_MEDIA_TYPE, "a question is JSON")
        return "application/json", _json(self.server.played.answer(name, self._question()))

    def _question(self) -> dict[str, Any]:
        length = self.headers.get("Content-Length", "")
        if not (length.isascii() and length.isdigit() and len(length) < 10):
            raise _Stop(HTTPStatus.LENGTH_REQUIRED, "a question has a Content-Length")
        if int(length) > MOST_BYTES:
            raise _Stop(HTTPStatus.REQUEST_ENTITY_TOO_LARGE, f"a question has at most {MOST_BYTES:,} bytes")
        body = self.rfile.read(int(length))
        if len(body) < int(length):
            raise _Stop(HTTPStatus.BAD_REQUEST, "the question ends early")
        try:
            question = json.loads(body)
        except (ValueError, RecursionError):
            raise BenchError("the question is not JSON") from None
        if not isinstance(question, dict):
            raise BenchError("the question is not a JSON object")
        return question

    def log_message(self, format: str, *args: Any) -> None:
        """Says nothing: the link has the token in it."""


def _json(value: dict[str, Any]) -> bytes:
    return json.dumps(value, separators=(",", ":")).encode("ascii")
