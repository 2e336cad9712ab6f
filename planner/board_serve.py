"""The server of a board on 127.0.0.1: the page, the state, what changes of it, what a window asks for, and downloads.

Each address begins with the token of the board. Whoever doesn't know it gets the status 403, and so does what names another host
or comes from the page of another one.
"""
import hmac
import json
import sys
from http.server import BaseHTTPRequestHandler, ThreadingHTTPServer
from pathlib import Path
from urllib.parse import parse_qs, urlsplit

from .cells import Refusal

PAGE = Path(__file__).parent / "page"
TYPES = {".html": "text/html; charset=utf-8", ".css": "text/css; charset=utf-8", ".js": "text/javascript; charset=utf-8",
         ".svg": "image/svg+xml", ".csv": "text/csv; charset=utf-8"}
POLICY = ("default-src 'none'; script-src 'self'; style-src 'self'; img-src 'self' data:; connect-src 'self'; base-uri 'none'; "
          "form-action 'none'")
# What a window may send at once, in bytes, and how often a window that waits is told that the board is there, in seconds.
MOST_SENT, BEAT = 1 << 16, 10


class Server(ThreadingHTTPServer):
    """`board` has a `hub`, and does what it is asked: `do(dict) -> dict` and `file(name) -> bytes` raise Refusal."""

    daemon_threads = True

    def __init__(self, board, token: str, port: int = 0):
        self.board, self.token, self.is_ended = board, token, False
        super().__init__(("127.0.0.1", port), Handler)
        self.hosts = {f"{host}:{self.server_port}" for host in ("127.0.0.1", "localhost")}

    def handle_error(self, request, client_address):
        """A window that went away is no fault."""
        if not isinstance(sys.exc_info()[1], ConnectionError):
            super().handle_error(request, client_address)


class Handler(BaseHTTPRequestHandler):
    protocol_version = "HTTP/1.1"
    timeout = 60

    def log_message(self, *_):
        """Nothing is logged: the address has the token."""

    def path_within(self) -> tuple[str | None, dict]:
        """The words behind the token, and what stands behind the question mark; nothing where it isn't allowed."""
        asked = urlsplit(self.path)
        token, _, rest = asked.path.removeprefix("/").partition("/")
        origin = self.headers.get("Origin")
        is_ours = self.headers.get("Host") in self.server.hosts and (origin is None or origin.removeprefix("http://") in self.server.hosts)
        if is_ours and hmac.compare_digest(token.encode(), self.server.token.encode()):
            return rest, parse_qs(asked.query)
        self.send(403, b"403: this isn't the address that the board printed\n", "text/plain")
        return None, {}

    def send(self, status: int, body: bytes, kind: str, **headers: str) -> None:
        self.send_response(status)
        fixed = {"Content-Type": kind, "Content-Length": str(len(body)), "Cache-Control": "no-store", "Content-Security-Policy": POLICY,
                 "X-Content-Type-Options": "nosniff", "Referrer-Policy": "no-referrer"}
        for name, value in (fixed | headers).items():
            self.send_header(name, value)
        self.end_headers()
        self.wfile.write(body)

    def send_json(self, status: int, text: str) -> None:
        self.send(status, text.encode(), "application/json")

    def refuse(self, status: int, why: object) -> None:
        self.send_json(status, json.dumps({"refused": str(why)}))

    def do_GET(self) -> None:
        path, query = self.path_within()
        if path is None:
            return
        folder, _, name = path.rpartition("/")
        if path == "":
            self.send_page("index.html")
        elif folder == "page":
            self.send_page(name)
        elif path == "state":
            self.send_json(200, self.server.board.hub.whole())
        elif path == "events":
            self.send_events(self.headers.get("Last-Event-ID") or query.get("after", ["0"])[0])
        elif folder == "files":
            self.send_file(name)
        else:
            self.refuse(404, "there is no such page")

    def send_page(self, name: str) -> None:
        found = {it.name: it for it in PAGE.iterdir() if it.suffix in TYPES}.get(name)
        if not found:
            return self.refuse(404, "there is no such page")
        self.send(200, found.read_bytes(), TYPES[found.suffix])

    def send_file(self, name: str) -> None:
        try:
            body = self.server.board.file(name)
        except (Refusal, OSError) as why:
            return self.refuse(409, why)
        kind = TYPES.get(Path(name).suffix, "application/octet-stream")
        # The picture of a curve stands in the page; all else is for the disk.
        how = "inline" if name == "curve.svg" else "attachment"
        # A report has its styles within.
        more = {"Content-Security-Policy": "sandbox; default-src 'none'; style-src 'unsafe-inline'; img-src data:"}
        self.send(200, body, kind, **{"Content-Disposition": f'{how}; filename="{name}"'}, **more)

    def send_events(self, after: str) -> None:
        """What changes, as it changes, until the window goes."""
        version = int(after) if after.isascii() and after.isdigit() else 0
        self.send_response(200)
        self.send_header("Content-Type", "text/event-stream")
        self.send_header("Cache-Control", "no-store")
        self.end_headers()
        self.close_connection = True
        while not self.server.is_ended:
            found = self.server.board.hub.since(version, BEAT)
            if found is None:
                version = self.server.board.hub.version
                self.wfile.write(f"id: {version}\nevent: whole\ndata: 0\n\n".encode())
            elif not found:
                self.wfile.write(b": here\n\n")
            for version, change in found or ():
                self.wfile.write(f"id: {version}\ndata: {change}\n\n".encode())
            self.wfile.flush()

    def do_POST(self) -> None:
        path, _ = self.path_within()
        if path is None:
            return
        length = self.headers.get("Content-Length", "")
        if path != "do" or self.headers.get("Content-Type") != "application/json" or not length.isdigit() or int(length) > MOST_SENT:
            self.close_connection = True
            return self.refuse(400, "this is nothing that a window asks for")
        try:
            asked = json.loads(self.rfile.read(int(length)))
            self.send_json(200, json.dumps(self.server.board.do(asked)))
        except json.JSONDecodeError:
            self.refuse(400, "this is no JSON")
        except (Refusal, OSError) as why:
            self.refuse(409, why)
