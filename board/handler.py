"""The server's side of a request: whose it is, what it wants, and its answer. README.md has the table of requests."""

import io
import json
import re
import secrets
import socket
import socketserver
import sys
import time
from http.server import BaseHTTPRequestHandler, ThreadingHTTPServer
from pathlib import Path

import connections
import hexd
import settings
import tokens
import troubles
from sessions import Refusal

# This machine alone, and each of its addresses.
HERE, EVERY = "127.0.0.1", ("0.0.0.0", "::")
MOST_BYTES = 1_048_576
# Who was sent a link meets this, and a page of an earlier start whose token isn't kept.
NO_TOKEN = "the token is missing: open the address that bin/hexd-board printed, and paste a link into its page"
# What is left of a refused body is read up to here, so that the client reads the refusal before the connection closes.
MOST_DROPPED_BYTES = 16 * MOST_BYTES
# A connection over which no request begins for so long is closed; and so long a head may take, a body, and an answer.
QUIET_SECONDS, HEAD_SECONDS, BODY_SECONDS, ANSWER_SECONDS = 60, 10, 60, 60
# If no file is left for a connection, another one is dropped, and the next try is so much later.
PAUSE_SECONDS = 0.05
PAGE = Path(__file__).resolve().with_name("page")
KINDS = {".html": "text/html", ".css": "text/css", ".js": "text/javascript", ".svg": "image/svg+xml"}
TEXT, JSON = "text/plain", "application/json"
HEADERS = {
    # The page runs its own files alone; its pictures are made in it (blob:), and it talks to nobody but this server.
    "Content-Security-Policy": "default-src 'none'; script-src 'self'; style-src 'self'; img-src 'self' blob: data:; "
    "connect-src 'self'; base-uri 'none'; form-action 'none'; frame-ancestors 'none'",
    "Cache-Control": "no-store",
    "Cross-Origin-Opener-Policy": "same-origin",
    "Cross-Origin-Resource-Policy": "same-origin",
    # The address has the token in it.
    "Referrer-Policy": "no-referrer",
    "X-Content-Type-Options": "nosniff",
}


def taken_line(body):
    """A line as hexd is sent it, from the body of a request; Refusal where it isn't one that the server sends on."""
    if b"\n" in body:
        raise Refusal(400, "a request has one line, without a line feed")
    if not all(32 <= byte <= 126 for byte in body):
        raise Refusal(400, "a line is of printable ASCII characters")
    line = body.decode("ascii")
    name = hexd.command_name(line)
    if name is None:
        raise Refusal(400, "there is no command in the line")
    if name == "quit":
        raise Refusal(400, "quit is for the server: DELETE ends a session")
    if name == "loadsgf":
        raise Refusal(400, "loadsgf by name is refused: the bytes of a record are sent to /record")
    return line


def taken_options(body):
    """The options of a new session's hexd, from the body of a request; None where it doesn't say."""
    try:
        return settings.asked_of(body.decode("latin-1")) if body else None
    except ValueError as why:
        raise Refusal(400, str(why)) from None


class Handler(BaseHTTPRequestHandler):
    """One request: is it ours, what does it want, and its answer as text."""

    protocol_version = "HTTP/1.1"
    server_version = "hexd-board"
    sys_version = ""
    # What Python's own part refuses, as an unknown method, is a line too.
    error_message_format, error_content_type = "%(message)s\n", "text/plain; charset=utf-8"

    def setup(self):
        super().setup()
        self.line = connections.Line(self.connection)
        self.rfile = io.BufferedReader(self.line, connections.PIECE_BYTES)

    def handle_one_request(self):
        self.close_connection = True
        self.server.connections.set_waiting(self.connection, True)
        self.line.within(QUIET_SECONDS)
        try:
            self.rfile.peek(1)
        except TimeoutError:
            return
        self.line.within(HEAD_SECONDS, connections.MOST_HEAD_BYTES + connections.PIECE_BYTES)
        super().handle_one_request()

    def do_GET(self):
        self.serve(self.get)

    def do_POST(self):
        self.serve(self.post)

    def do_DELETE(self):
        self.serve(self.delete)

    def serve(self, method):
        """Answers by a method, which has the path behind the token; a Refusal is answered by its status and line."""
        self.left = 0
        # Until it is known that the request is the page's and where its body ends, nothing behind it is read as another one.
        self.close_connection, persists = True, self.close_connection
        try:
            self.needs_whole_head()
            self.left = self.length()
            self.admit()
            self.close_connection = persists
            self.server.connections.set_waiting(self.connection, False)
            self.answer(200, *method(*self.path.split("?")[0].split("/")[2:]))
        except Refusal as refusal:
            self.answer(refusal.status, refusal.why + "\n", TEXT)
        except (ConnectionError, TimeoutError):
            raise
        except Exception as fault:
            name = type(fault).__name__
            self.answer(500, f"the server has a fault, {name}, of which its terminal says more. {troubles.KEPT}\n", TEXT)
            raise
        self.drop_rest()

    def needs_whole_head(self):
        """Refuses a head that breaks off, and one of which a part can't be read: a length may stand there."""
        if self.line.is_ended:
            raise Refusal(400, "the head of the request breaks off")
        if self.headers.defects:
            raise Refusal(400, "a line of the head is none of a name, a colon and a value")

    def admit(self):
        """Refuses who isn't this server's page: neither a page elsewhere nor another user of the machine may drive it."""
        hosts = self.server.hosts(self.connection.getsockname()[0])
        if self.headers.get_all("Host", []) not in [[host] for host in hosts]:
            raise Refusal(403, f"the Host of the request is not this server, which is {hosts[0]}")
        if self.headers.get("Origin") not in [None, *("http://" + host for host in hosts)]:
            raise Refusal(403, "the Origin of the request is not this server")
        given = self.path.split("/")[1] if self.path.startswith("/") else ""
        if not secrets.compare_digest(given.encode(), self.server.token.encode()):
            raise Refusal(403, NO_TOKEN)

    def length(self):
        given = self.headers.get_all("Content-Length", ["0"])
        if "Transfer-Encoding" in self.headers or len(given) > 1 or not re.fullmatch("[0-9]{1,18}", given[0]):
            raise Refusal(411, "a request tells the length of its body")
        return int(given[0])

    def body(self):
        if self.left > MOST_BYTES:
            raise Refusal(413, f"a body has at most {MOST_BYTES} bytes")
        self.line.within(BODY_SECONDS)
        body, left = self.rfile.read(self.left), self.left
        self.left = 0
        if len(body) < left:
            raise Refusal(400, "the body of the request breaks off")
        return body

    def get(self, *path):
        match path:
            case (name,) if (name or "index.html") in self.server.files:
                file = PAGE / (name or "index.html")
                return file.read_bytes(), KINDS[file.suffix]
            case ("settings",):
                return json.dumps(self.server.sessions.told()), JSON
            case ("openings", opening) if found := re.fullmatch("([1-9]|1[01])(?:-([a-k][1-9][0-9]?))?", opening):
                size, vertex, openings = int(found[1]), found[2], self.server.openings
                return json.dumps(openings.winner(size, vertex) if vertex else openings.winners(size)), JSON
            case ("openings", opening, "certificate") if found := re.fullmatch("([1-9]|1[01])-([a-k][1-9][0-9]?)", opening):
                certificate = self.server.openings.certificate(int(found[1]), found[2])
                if certificate is None:
                    raise Refusal(404, "of this opening there is no certificate")
                return certificate, TEXT
        raise Refusal(404, "there is no such file")

    def post(self, *path):
        sessions, body = self.server.sessions, self.body()
        match path:
            case ("session",):
                return sessions.make(taken_options(body)), TEXT
            case ("room",):
                return sessions.make_room(), TEXT
            case ("session", name, "htp"):
                return sessions.ask(name, taken_line(body)), TEXT
            case ("session", name, "record"):
                return sessions.load(name, body), TEXT
            case ("session", name, "check"):
                return sessions.check(name, body), TEXT
            case ("session", name, "solve", budget) if re.fullmatch("[1-9][0-9]{0,17}", budget):
                return sessions.solve(name, body, int(budget), self.connection), TEXT
        raise Refusal(404, "there is no such request")

    def delete(self, *path):
        match path:
            case ("session", name) if self.server.sessions.end(name):
                return "ended", TEXT
        raise Refusal(404, "there is no such session")

    def answer(self, status, body, kind):
        body = body if isinstance(body, bytes) else body.encode()
        self.connection.settimeout(ANSWER_SECONDS)
        self.send_response(status)
        self.send_header("Content-Type", f"{kind}; charset=utf-8")
        self.send_header("Content-Length", str(len(body)))
        for name, value in HEADERS.items():
            self.send_header(name, value)
        if self.close_connection or self.left:
            self.send_header("Connection", "close")
        self.end_headers()
        self.wfile.write(body)

    def drop_rest(self):
        """Reads what is left of a body that was refused, up to a limit, and closes the connection after it."""
        if not self.left:
            return
        self.close_connection = True
        self.server.connections.set_waiting(self.connection, True)
        self.line.within(HEAD_SECONDS)
        self.wfile.flush()
        left = min(self.left, MOST_DROPPED_BYTES)
        while left > 0 and (got := self.rfile.read(min(left, 65_536))):
            left -= len(got)

    def log_message(self, *_):
        pass


class Server(ThreadingHTTPServer):
    """The server on one port, with its token, sessions and openings."""

    daemon_threads = True
    # So many connections wait until they are taken.
    request_queue_size = 128

    def __init__(self, address, port, sessions, openings):
        self.sessions, self.openings = sessions, openings
        self.connections = connections.Connections(connections.most())
        self.files = {file.name for file in PAGE.iterdir() if file.suffix in KINDS}
        self.address_family, _, _, _, place = socket.getaddrinfo(address, port, type=socket.SOCK_STREAM)[0]
        super().__init__(place[:2], Handler)
        # Whose line isn't encrypted, or whose port comes by chance, has a new one at each start.
        self.token = tokens.kept(port) if port and self.is_local() else tokens.made()

    def server_bind(self):
        # The one of HTTPServer asks the system for the host's full name, which may take long.
        socketserver.TCPServer.server_bind(self)
        self.server_name, self.server_port = self.server_address[:2]

    def get_request(self):
        try:
            return super().get_request()
        except OSError:
            # The system has no file left for it.
            self.connections.drop()
            time.sleep(PAUSE_SECONDS)
            raise

    def process_request(self, request, client_address):
        if self.connections.begin(request):
            super().process_request(request, client_address)
        else:
            self.shutdown_request(request)

    def close_request(self, request):
        self.connections.end(request)
        super().close_request(request)

    def handle_error(self, request, client_address):
        if not isinstance(sys.exc_info()[1], (ConnectionError, TimeoutError)):
            super().handle_error(request, client_address)

    def is_local(self):
        """Whether this machine alone can reach it."""
        return self.server_name.startswith("127.") or self.server_name == "::1"

    def hosts(self, reached):
        """The names by which a request may call it that has reached it at this address; the first is told."""
        names = [reached.removeprefix("::ffff:") if self.server_name in EVERY else self.server_name]
        if self.is_local():
            names.append("localhost")
        elif self.server_name in EVERY:
            names += ["localhost", socket.gethostname()]
        # A browser sends a name in small letters, and no port if that is the one of HTTP.
        names = [f"[{name}]" if ":" in name else name.lower() for name in names]
        return [f"{name}:{self.server_port}" for name in names] + (names if self.server_port == 80 else [])

    def address(self):
        name = socket.gethostname() if self.server_name in EVERY else self.server_name
        return f"http://{self.hosts(name)[0]}/{self.token}/"
