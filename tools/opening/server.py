"""Serves the page and its questions to this machine alone, and only to who knows the secret of the address."""
from __future__ import annotations

import hmac
import http.server
import json
import re
import socket
import socketserver
import threading
from typing import Any, Union

from .page import Page, Stopped

MOST_BODY = 4 << 20
MOST_CONNECTIONS = 48
SECONDS_A_REQUEST = 15  # between two reads; what is still open then is closed
RULES = {
    "Content-Security-Policy": "default-src 'none'; script-src 'self'; style-src 'self'; connect-src 'self'; img-src 'self' data:; "
                               "base-uri 'none'; form-action 'none'; frame-ancestors 'none'; require-trusted-types-for 'script'",
    "X-Content-Type-Options": "nosniff",
    "X-Frame-Options": "DENY",
    "Referrer-Policy": "no-referrer",
    "Cross-Origin-Opener-Policy": "same-origin",
    "Cross-Origin-Resource-Policy": "same-origin",
    "Cache-Control": "no-store",
}
PLAIN = "text/plain; charset=utf-8"
Request = Union[socket.socket, tuple[bytes, socket.socket]]


class Handler(http.server.BaseHTTPRequestHandler):
    """Answers one connection."""

    protocol_version = "HTTP/1.1"
    server_version, sys_version = "propane", ""
    timeout = SECONDS_A_REQUEST
    server: Server

    def version_string(self) -> str:
        return self.server_version

    def log_message(self, *_: object) -> None:
        pass

    def answer(self, status: int, kind: str, body: bytes) -> None:
        self.send_response(status)
        for name, value in RULES.items():
            self.send_header(name, value)
        self.send_header("Content-Type", kind)
        self.send_header("Content-Length", str(len(body)))
        if status >= 400:
            self.close_connection = True
            self.send_header("Connection", "close")
        self.end_headers()
        if self.command != "HEAD":
            self.wfile.write(body)

    def send_error(self, code: int, message: str | None = None, explain: str | None = None) -> None:
        """What the library itself refuses, told as shortly as all else."""
        self.answer(code, PLAIN, b"no\n")

    def told(self, value: object) -> None:
        self.answer(200, "application/json", json.dumps(value).encode())

    def part(self) -> str:
        """What is asked for, where the request is one of this page's: the rest of the path behind the secret."""
        if self.headers.get_all("Host") != [self.server.host]:
            raise Stopped(421)  # a name that was made to lead here (DNS rebinding) isn't ours
        found = re.fullmatch(r"/([A-Za-z0-9_-]{1,128})/([a-z.-]{0,32})", self.path)
        if not found or not hmac.compare_digest(found[1].encode(), self.server.page.secret.encode()):
            raise Stopped(404)
        if self.headers.get("Sec-Fetch-Site", "none") not in ("none", "same-origin"):
            raise Stopped(403)
        return found[2]

    def body(self) -> object:
        """The value that is sent, where the page itself sends it."""
        if self.headers.get("Origin") != f"http://{self.server.host}" or self.headers.get("Content-Type") != "application/json":
            raise Stopped(403)  # a form of another page has another origin, and can't send this kind
        given = self.headers.get("Content-Length", "")
        if self.headers.get("Transfer-Encoding") or not re.fullmatch(r"[0-9]{1,9}", given):
            raise Stopped(411)
        length = int(given)
        if length > MOST_BODY:
            raise Stopped(413)
        held = self.rfile.read(length)
        if len(held) < length:
            raise Stopped(400)
        return json.loads(held)

    def do_GET(self) -> None:
        try:
            part = self.part() or "index.html"
            if part == "start":
                self.told(self.server.page.start())
            elif part in self.server.page.files:
                self.answer(200, *self.server.page.files[part])
            else:
                raise Stopped(404)
        except Stopped as stopped:
            self.answer(stopped.status, PLAIN, b"no\n")

    do_HEAD = do_GET

    def do_POST(self) -> None:
        try:
            part = self.part()
            self.told(self.server.page.asked(part, self.body()))
        except Stopped as stopped:
            self.answer(stopped.status, PLAIN, (stopped.line or "no").encode() + b"\n")
        except (ValueError, TypeError, KeyError, RecursionError):
            self.answer(400, PLAIN, b"no\n")


class Server(socketserver.ThreadingMixIn, http.server.HTTPServer):
    """Listens on 127.0.0.1, on a port that the system chooses."""

    daemon_threads = True
    block_on_close = False
    request_queue_size = 32
    allow_reuse_address = False

    def __init__(self, page: Page) -> None:
        self.page, self.free = page, threading.Semaphore(MOST_CONNECTIONS)
        super().__init__(("127.0.0.1", 0), Handler)
        self.host = f"127.0.0.1:{self.server_port}"

    def server_bind(self) -> None:
        socketserver.TCPServer.server_bind(self)  # without a look-up of the host's name
        self.server_name, self.server_port = "127.0.0.1", int(self.socket.getsockname()[1])

    def process_request(self, request: Request, client_address: Any) -> None:
        """Takes a connection, or closes it where there are too many."""
        if not self.free.acquire(blocking=False):
            self.shutdown_request(request)
            return
        super().process_request(request, client_address)

    def process_request_thread(self, request: Request, client_address: Any) -> None:
        try:
            super().process_request_thread(request, client_address)
        finally:
            self.free.release()

    def handle_error(self, request: Request, client_address: Any) -> None:
        pass  # a client that goes away harms nobody
