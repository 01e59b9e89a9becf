"""A server on loopback, for a browser of this machine: it reads stores, and changes none."""

from __future__ import annotations

import secrets
import socket
import socketserver
import sys
import time
from http.server import BaseHTTPRequestHandler
from urllib.parse import parse_qs

from .actions import put
from .errors import Misused, tell
from .views import View, Views

TYPE_CHECKING = False
if TYPE_CHECKING:
    from .commands import Given

LOOPBACK = "127.0.0.1"
NAMES = (LOOPBACK, "localhost", "[::1]")  # Another name may be one that leads here since a moment.
SITES = {"none", "same-origin"}  # From where a browser may ask: an address that was typed, or here.
IDLE, LONGEST = 10, 30  # Seconds for which a client may say nothing, and take for a request.
CLIENTS = 256  # As many at once; more are turned away.
FIELDS = 8  # Fields of a request, of which two mean something.
LARGEST_PORT = 65_535
HEADERS = {
    "Content-Security-Policy": "default-src 'none'; style-src 'self'; form-action 'self'; "
                               "base-uri 'none'; frame-ancestors 'none'",
    "X-Content-Type-Options": "nosniff", "X-Frame-Options": "DENY",
    "Referrer-Policy": "no-referrer", "Cache-Control": "no-store",
    "Cross-Origin-Opener-Policy": "same-origin", "Cross-Origin-Resource-Policy": "same-origin"}


class Server(socketserver.ThreadingTCPServer):
    """Stores, a secret, and the clients of the moment, with when they came."""

    daemon_threads, allow_reuse_address, request_queue_size = True, True, CLIENTS

    def __init__(self, stores: list[str], port: int) -> None:
        super().__init__((LOOPBACK, port), Handler)
        self.port, self.secret = self.server_address[1], secrets.token_urlsafe(16)
        self.top = f"/{self.secret}/"
        # A browser leaves the port of the web out.
        ends = (f":{self.port}", "") if self.port == 80 else (f":{self.port}",)
        self.hosts = {name + end for name in NAMES for end in ends}
        self.views = Views(stores, self.top)
        self._clients: dict[socket.socket, float] = {}

    def verify_request(self, request: socket.socket, _: object) -> bool:
        """Whether there is room for one more client."""
        if len(self._clients) >= CLIENTS:
            return False
        self._clients[request] = time.monotonic()
        return True

    def shutdown_request(self, request: socket.socket) -> None:
        """Ends with a client."""
        self._clients.pop(request, None)
        super().shutdown_request(request)

    def service_actions(self) -> None:
        """Twice a second: hears no more of clients that take too long; ends sessions that nobody
        uses."""
        self.views.end_idle()
        late = time.monotonic() - LONGEST
        for request, came in [*self._clients.items()]:
            if came < late:
                try:
                    request.shutdown(socket.SHUT_RD)
                except OSError:
                    pass  # It has gone.

    def handle_error(self, *_: object) -> None:
        """Tells of a fault, but not of a client that went; and nothing of what was asked."""
        fault = sys.exc_info()[1]
        if not isinstance(fault, OSError):
            tell(f"a request met a fault: {type(fault).__name__}")


class Handler(BaseHTTPRequestHandler):
    """One request, after which the line is closed."""

    timeout, default_request_version = IDLE, "HTTP/1.0"  # Before it there were no headers.
    server: Server

    def do_GET(self) -> None:
        """Answers, unless the request is refused."""
        path, _, given = self.path.partition("?")
        hosts = self.headers.get_all("Host", [])
        if len(hosts) != 1 or hosts[0] not in self.server.hosts:
            return self._tell(421, "this address is not served here")
        if not SITES.issuperset(self.headers.get_all("Sec-Fetch-Site", [])):
            return self._tell(403, "another site asked")
        top, rest = path[:len(self.server.top)], path[len(self.server.top):]
        if not secrets.compare_digest(top.encode(), self.server.top.encode()):
            return self._tell(404, "nothing is here")
        try:
            fields = parse_qs(given, max_num_fields=FIELDS)
        except ValueError:
            return self._tell(400, "too many fields")
        return self._send(self._view(rest, fields))

    do_HEAD = do_GET

    def _view(self, rest: str, fields: dict[str, list[str]]) -> View:
        """What is answered."""
        query, start = (fields.get(name, [""])[0] for name in ("q", "start"))
        is_number = start.isascii() and start.isdecimal() and len(start) < 10
        return self.server.views.view(rest, query, int(start) if is_number else 0)

    def send_error(self, code: int, *_: object) -> None:
        """Refuses what is no request, or one of another method."""
        self._tell(405 if code == 501 else code, "this is no request for a page")

    def _tell(self, status: int, text: str) -> None:
        self._send(View(status, f"{text}\n", "text/plain; charset=utf-8"))

    def _send(self, view: View) -> None:
        data = view.text.encode("utf-8", "replace")
        self.send_response(view.status)
        headers = {**HEADERS, "Content-Type": view.kind, "Content-Length": str(len(data)),
                   **{405: {"Allow": "GET, HEAD"}, 503: {"Retry-After": "2"}}.get(view.status, {})}
        for name, value in headers.items():
            self.send_header(name, value)
        self.end_headers()
        if self.command != "HEAD":
            self.wfile.write(data)

    def version_string(self) -> str:
        """What the server calls itself: no version."""
        return "rubewola"

    def log_message(self, *_: object) -> None:
        """Nothing: a log would have the queries and the secret."""


def serve(given: Given) -> int:
    """Serves a page until it is interrupted."""
    port = given.options.get("port", 0)
    if port > LARGEST_PORT:
        raise Misused(f"--port is at most {LARGEST_PORT}")
    with Server(given.stores, port) as server:
        server.views.open()  # A wrong path is told at once.
        tell("open this address; whoever has it can read the stores; an interrupt ends the page")
        put([f"http://{LOOPBACK}:{server.port}{server.top}"])
        sys.stdout.flush()
        server.serve_forever()
    return 0
