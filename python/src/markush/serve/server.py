"""Requests of the page: their limits, a table of names, and nothing else of the network.

The server listens at 127.0.0.1 alone. The shell of the page is some constant bytes, which anybody who can reach the port
may have; every other request needs the token. A path is looked up among names and never becomes a path of the machine.
"""
from __future__ import annotations

import json
import select
import socket
import socketserver
import sys
import threading
import time
import traceback
from dataclasses import dataclass
from http import HTTPStatus
from http.server import BaseHTTPRequestHandler
from typing import Any, Callable, Dict, Mapping, Optional, Tuple

from ..errors import MarkushError
from .gate import HEADERS, TOKEN_HEADER, Gate

__all__ = ["BenchServer", "Raw", "MOST_BODY"]

MOST_BODY = 64 << 20
IDLE = 10.0  # seconds in which nothing comes, or in which the head of a request doesn't come to its end
LONGEST = 600.0  # seconds of a request, all in all
MOST_AT_ONCE = 256
MOST_LARGE = 2  # bodies of more than a megabyte that are read at once
LARGE = 1 << 20
_MOST_LEFT = 1 << 20  # bytes of a refused body that are read, so that the answer arrives


@dataclass(frozen=True)
class Raw:
    """An answer that isn't JSON.

    Examples
    --------
    >>> Raw(b"a,b", "text/csv").kind
    'text/csv'
    """

    data: bytes
    kind: str


Route = Callable[[bytes, str], Any]


class _Ends(Exception):
    """A request ends with a status and no content."""

    def __init__(self, status: int) -> None:
        super().__init__(status)
        self.status = status


class BenchServer(socketserver.ThreadingMixIn, socketserver.TCPServer):
    """The server of a bench.

    Parameters
    ----------
    port : int
        0 for a port that is free.
    shell : mapping of path to (bytes, type)
        What is answered without the token.
    routes : mapping of path to function
        What a POST with the token may ask for: each is given the body and the words of the request's one further header.
    hosts : sequence of str
        Further hosts by which the page is reached, as that of a tunnel.

    Examples
    --------
    >>> with BenchServer(0, {"/": (b"hello", "text/plain")}, {}) as server:
    ...     server.link.startswith("http://127.0.0.1:")
    True
    """

    daemon_threads = True
    block_on_close = False
    allow_reuse_address = True
    request_queue_size = MOST_AT_ONCE

    def __init__(
        self, port: int, shell: Mapping[str, Tuple[bytes, str]], routes: Mapping[str, Route], hosts: Tuple[str, ...] = ()
    ) -> None:
        self.shell, self.routes = dict(shell), dict(routes)
        self.idle, self.longest = IDLE, LONGEST
        self._places = threading.BoundedSemaphore(MOST_AT_ONCE)
        self.large = threading.BoundedSemaphore(MOST_LARGE)
        self._ends: Dict[socket.socket, float] = {}
        self._lock = threading.Lock()
        self._closing = threading.Event()
        super().__init__(("127.0.0.1", port), _Handler)
        self.port = int(self.server_address[1])
        self.gate = Gate.made(self.port, hosts)
        threading.Thread(target=self._sweep, name="sweeper", daemon=True).start()

    @property
    def link(self) -> str:
        """The link that lets in: the token stands behind `#`, and so is sent to nobody."""
        return f"http://127.0.0.1:{self.port}/#{self.gate.token}"

    def server_close(self) -> None:
        """Let the port go."""
        self._closing.set()
        super().server_close()

    # ---- places and times

    def process_request(self, request: Any, client_address: Any) -> None:
        """Give a request a thread, or close it where there are as many as there may be."""
        if not self._places.acquire(blocking=False):
            self.shutdown_request(request)
            return
        try:
            super().process_request(request, client_address)
        except BaseException:
            self._places.release()
            raise

    def process_request_thread(self, request: Any, client_address: Any) -> None:
        """One request, from its first byte to its last."""
        try:
            self.ends(request, self.idle)
            super().process_request_thread(request, client_address)
        finally:
            with self._lock:
                self._ends.pop(request, None)
            self._places.release()

    def ends(self, request: socket.socket, seconds: float) -> None:
        """Have a connection cut after so many seconds from now."""
        with self._lock:
            self._ends[request] = time.monotonic() + seconds

    def _sweep(self) -> None:
        while not self._closing.wait(0.5):
            now = time.monotonic()
            with self._lock:
                late = [request for request, end in self._ends.items() if end < now]
            for request in late:
                try:
                    request.shutdown(socket.SHUT_RDWR)
                except OSError:
                    continue

    def handle_error(self, request: Any, client_address: Any) -> None:
        """What a cut connection raises is nobody's fault; the rest is told at the terminal."""
        kind = sys.exc_info()[0]
        if kind is not None and not issubclass(kind, (OSError, ValueError)):
            traceback.print_exc(file=sys.stderr)


class _Handler(BaseHTTPRequestHandler):
    server: BenchServer

    command = ""
    disable_nagle_algorithm = True
    keeps = False  # whether the connection stays for the next request

    def setup(self) -> None:
        self.request.settimeout(self.server.idle)
        super().setup()

    def log_message(self, format: str, *args: Any) -> None:
        pass

    def handle_expect_100(self) -> bool:
        return True  # nothing is said before it is known who asks

    def send_error(self, code: int, message: Optional[str] = None, explain: Optional[str] = None) -> None:
        self._answer(int(code))

    def handle_one_request(self) -> None:
        self.close_connection, self.keeps = True, False
        try:
            self.raw_requestline = self.rfile.readline(65537)
            if not self.raw_requestline:
                return
            if len(self.raw_requestline) > 65536:
                self.requestline = self.request_version = self.command = ""
                self._answer(414)
            elif self.parse_request():
                self._answer_request()
                self.close_connection = not self.keeps
            if self.close_connection:
                self._let_rest_come()
            else:
                self.server.ends(self.connection, self.server.idle)
        except (socket.timeout, ConnectionError):
            return

    def _answer_request(self) -> None:
        try:
            data, kind = self._asked()
        except _Ends as ends:
            self._answer(ends.status)
            return
        except (socket.timeout, ConnectionError):
            raise
        except Exception:
            traceback.print_exc(file=sys.stderr)
            self.keeps = False
            self._answer(500)
            return
        self._answer(200, data, kind)

    def _asked(self) -> Tuple[bytes, str]:
        headers, gate = self.headers, self.server.gate
        if self.request_version not in ("HTTP/1.1", "HTTP/1.0"):
            raise _Ends(505)
        if not gate.lets_in(headers.get_all("Host") or [], headers.get_all("Origin") or []):
            raise _Ends(403)
        if headers.get_all("Transfer-Encoding"):
            raise _Ends(501)
        if self.command == "GET" and self.path in self.server.shell:
            return self.server.shell[self.path]
        if not gate.knows(headers.get_all(TOKEN_HEADER) or []):
            raise _Ends(403)
        route = self.server.routes.get(self.path)
        if route is None:
            raise _Ends(405 if self.path in self.server.shell else 404)
        if self.command != "POST":
            raise _Ends(405)
        words = headers.get_all("X-Markush-Words") or [""]
        body = self._body()
        # what is whole and bears the token may be followed by another request, so that a page needn't come in anew for each
        self.keeps = self.request_version == "HTTP/1.1" and (headers.get("Connection") or "").lower() == "keep-alive"
        found = _answered(route, body, words[0])
        if isinstance(found, Raw):
            return found.data, found.kind
        text = json.dumps(found, ensure_ascii=True, separators=(",", ":"))
        return text.encode("ascii"), "application/json"

    def _body(self) -> bytes:
        lengths = self.headers.get_all("Content-Length") or []
        if len(lengths) != 1:
            raise _Ends(411 if not lengths else 400)
        if not (lengths[0].isascii() and lengths[0].isdigit() and len(lengths[0]) < 20):
            raise _Ends(400)
        size = int(lengths[0])
        if size > MOST_BODY:
            raise _Ends(413)
        self.server.ends(self.connection, self.server.longest)
        if size <= LARGE:
            return self._read(size)
        if not self.server.large.acquire(timeout=self.server.idle):
            raise _Ends(503)
        try:
            return self._read(size)
        finally:
            self.server.large.release()

    def _read(self, size: int) -> bytes:
        found = bytearray()
        while len(found) < size:
            piece = self.rfile.read1(min(size - len(found), 1 << 18))  # type: ignore[attr-defined]
            if not piece:
                raise ConnectionError("the body was cut off")
            found += piece
        return bytes(found)

    def _answer(self, status: int, data: bytes = b"", kind: str = "") -> None:
        try:
            phrase = HTTPStatus(status).phrase
        except ValueError:
            phrase = "Error"
        lines = [f"HTTP/1.1 {status} {phrase}", f"Content-Length: {len(data)}", f"Connection: {'keep-alive' if self.keeps else 'close'}"]
        lines += [f"{name}: {value}" for name, value in HEADERS]
        if kind:
            lines.append(f"Content-Type: {kind}")
        self.wfile.write(("\r\n".join(lines) + "\r\n\r\n").encode("latin-1") + (b"" if self.command == "HEAD" else data))
        self.wfile.flush()

    def _let_rest_come(self) -> None:
        """Take what still comes of a refused body, for a moment, since an answer is lost where the connection is reset."""
        try:
            self.connection.shutdown(socket.SHUT_WR)
            left, end = _MOST_LEFT, time.monotonic() + 1
            while left > 0 and time.monotonic() < end:
                if not select.select([self.connection], [], [], max(0.0, end - time.monotonic()))[0]:
                    return
                piece = self.connection.recv(1 << 16)
                if not piece:
                    return
                left -= len(piece)
        except (OSError, ValueError):
            return


def _answered(route: Route, body: bytes, words: str) -> Any:
    """What a route says; what it refuses is told in words."""
    try:
        return route(body, words)
    except MarkushError as fault:
        return {"fault": str(fault), "line": getattr(fault, "line", None)}
