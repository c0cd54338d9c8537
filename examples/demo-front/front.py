"""The demo's front: it stands where nginx stands in an office (deploy/nginx.conf), says who a caller is, and bounds what comes.

Only it takes the caller from a menu, and asks for no password. So it is for the example alone. Who may do harm:

- A web site that is open in the same browser. A request has to name this address in Host, so a name that is made to lead here serves
  nothing; a POST has to come from a page of this origin; other sites can neither read what is served nor frame it. The office, which
  tests none of this, listens at a random address of 127.0.0.0/8.
- Another user of this machine. It may connect, to the office too, and be any caller: there is nothing here but the example.
"""

import errno
import http.client
import http.server
import json
import os
import re
import secrets
import socketserver
import subprocess
import sys
import threading
import urllib.parse

from office import TOP, Refusal

HERE = os.path.dirname(os.path.abspath(__file__))
CALLERS = "phys", "lib", "med", "admin"
LONGEST_HEAD = 16384
LONGEST_BODY = 65536
MOST_CONNECTIONS = 64
LOST = 3  # how many replies are lost when it is asked for

# as deploy/nginx.conf has them, but for Strict-Transport-Security
FIELDS = {
    "Content-Security-Policy": "default-src 'none'; script-src 'self'; style-src 'self'; connect-src 'self'; img-src 'self'; "
    "form-action 'none'; frame-ancestors 'none'; base-uri 'none'; require-trusted-types-for 'script'; trusted-types 'none'",
    "X-Content-Type-Options": "nosniff",
    "Cross-Origin-Resource-Policy": "same-origin",
    "Referrer-Policy": "no-referrer",
}
# The tour has forms and frames. With no-referrer a browser would send a form without its origin.
TOUR_FIELDS = {
    "Content-Security-Policy": "default-src 'none'; style-src 'self'; img-src 'self'; frame-src 'self'; form-action 'self'; "
    "frame-ancestors 'none'; base-uri 'none'",
    "Referrer-Policy": "same-origin",
}
FRAME_FIELDS = {"Content-Security-Policy": "default-src 'none'; frame-ancestors 'self'"}
TEXT = "text/plain; charset=utf-8"
KINDS = {".html": "text/html; charset=utf-8", ".css": "text/css", ".js": "application/javascript", ".json": "application/json",
         ".svg": "image/svg+xml"}
WARNING = b"""<p class="demo"><strong>A demo without passwords:</strong> whoever uses this machine may be any caller.
What you change goes when the demo ends. <a href="/demo">Callers and tour</a></p>
"""


class Denial(Exception):
    """Why a request is not served: a status and a reason."""


def read_files():
    """Returns the page's files and the tour's by their paths: type, content and fields."""
    files = {}
    for folder, place in (os.path.join(TOP, "web"), "/page/"), (HERE, "/demo/"):
        for name in os.listdir(folder):
            kind = KINDS.get(os.path.splitext(name)[1])
            if kind:
                with open(os.path.join(folder, name), "rb") as it:
                    files[place + name] = kind, it.read(), {}
    with open(os.path.join(TOP, "docs/openapi.yaml"), "rb") as it:
        files["/page/openapi.yaml"] = "application/yaml", it.read(), {}
    kind, page, _ = files.pop("/page/index.html")
    files["/"] = kind, with_warning(page), {}
    kind, tour, _ = files.pop("/demo/tour.html")
    files["/demo"] = kind, tour, TOUR_FIELDS
    return files


def with_warning(page):
    """Returns the page with the warning at its top."""
    for mark, added in (b"</head>", b'<link rel="stylesheet" href="/demo/demo.css">\n'), (b"<header>", WARNING):
        if page.count(mark) != 1:
            raise Refusal(f"the page in web has no place for the warning: {mark.decode()}")
        page = page.replace(mark, added + mark)
    return page


class Head:
    """The stream of a request. What is read of it by lines, its head, is bounded."""

    def __init__(self, stream):
        self.stream, self.left = stream, LONGEST_HEAD
        self.read, self.close = stream.read, stream.close

    def readline(self, _=-1):
        line = self.stream.readline(self.left + 1)
        self.left -= len(line)
        if self.left < 0:
            raise http.client.HTTPException("the head is too large")
        return line


class Front(socketserver.ThreadingTCPServer):
    """Listens on 127.0.0.1, with a thread for each connection, up to a bound. The others are closed."""

    allow_reuse_address = True
    daemon_threads = True
    request_queue_size = 128

    def __init__(self, port, office):
        self.office = office
        self.files = read_files()
        self.key = secrets.token_hex(8)  # a cookie of another demo names no caller here
        self.to_lose = 0
        self.room = threading.BoundedSemaphore(MOST_CONNECTIONS)
        try:
            super().__init__(("127.0.0.1", port), Desk)
        except OSError as fault:
            why = "is taken" if fault.errno == errno.EADDRINUSE else f"cannot be had ({fault.strerror})"
            raise Refusal(f"port {port} of 127.0.0.1 {why}: name another, or leave --port out") from None
        self.port = self.server_address[1]
        self.hosts = f"127.0.0.1:{self.port}", f"localhost:{self.port}"

    def start(self):
        threading.Thread(target=self.serve_forever, daemon=True).start()

    def process_request(self, request, client_address):
        if self.room.acquire(blocking=False):
            super().process_request(request, client_address)
        else:
            self.shutdown_request(request)

    def process_request_thread(self, request, client_address):
        try:
            super().process_request_thread(request, client_address)
        finally:
            self.room.release()

    def handle_error(self, request, client_address):
        if not isinstance(sys.exc_info()[1], (OSError, http.client.HTTPException)):  # those are the client's
            super().handle_error(request, client_address)


class Desk(http.server.BaseHTTPRequestHandler):
    """Answers the one request of a connection: itself, or by the office."""

    timeout = 10
    server_version, sys_version = "zoneoffice-demo", ""

    def setup(self):
        super().setup()
        self.rfile = Head(self.rfile)

    def do_GET(self):
        self.answer(self.get)

    def do_POST(self):
        self.answer(self.post)

    def answer(self, serve):
        try:
            self.test_origin()
            if not re.fullmatch(r"/[\x21-\x7e]*", self.path):
                raise Denial(400, "the path is malformed")
            serve()
        except Denial as denial:
            self.send_error(*denial.args)

    def test_origin(self):
        """Refuses what the page of another site can make a browser send. A link from there to the page is followed."""
        hosts = self.headers.get_all("Host", [])
        if len(hosts) != 1 or hosts[0] not in self.server.hosts:
            raise Denial(421, "this is a demo on 127.0.0.1, and not the host that was asked for")
        is_get = self.command == "GET"
        origins = self.headers.get_all("Origin", [] if is_get else [""])
        sites = self.headers.get_all("Sec-Fetch-Site", [])
        is_own = all(origin == f"http://{hosts[0]}" for origin in origins) and set(sites) <= {"same-origin", "none"}
        if not is_own and not (is_get and self.path in ("/", "/demo")):
            raise Denial(403, "the page of another site sent this request")

    def get(self):
        if self.path == "/" and self.caller() is None:
            self.reply(303, TEXT, b"", Location="/demo")
        elif self.path in self.server.files:
            kind, text, fields = self.server.files[self.path]
            # what the page of an earlier demo left in the browser goes before the first step
            fresh = {"Clear_Site_Data": '"storage"'} if self.path == "/demo" and self.caller() is None else {}
            self.reply(200, kind, text, **fields, **fresh)
        elif re.match(r"/(page|demo)(/|$)", self.path):
            raise Denial(404, "there is nothing here")
        else:
            self.hand_over(None)

    def post(self):
        body = self.body()
        field = urllib.parse.parse_qs(body.decode("latin-1")) if self.path.startswith("/demo/") else {}
        if self.path == "/demo/caller":
            self.choose(field.get("caller", [""])[0])
        elif self.path == "/demo/lose":
            self.server.to_lose = LOST
            self.reply(200, TEXT, f"The next {LOST} replies to changes will be lost.\n".encode(), **FRAME_FIELDS)
        elif self.path == "/demo/plan":
            items = field.get("items", [""])[0].replace("\r\n", "\n").encode()
            said = self.of_office(self.server.office.plan, self.known_caller(), items)
            self.reply(200, TEXT, said, **FRAME_FIELDS)
        else:
            self.hand_over(body)

    def body(self):
        """Returns the body of a POST, all of it."""
        lengths = self.headers.get_all("Content-Length", [])
        if len(lengths) != 1 or "Transfer-Encoding" in self.headers:
            raise Denial(411, "a POST has one Content-Length, and no Transfer-Encoding")
        if not re.fullmatch(r"[0-9]{1,9}", lengths[0]):
            raise Denial(400, "the length is not a number")
        if int(lengths[0]) > LONGEST_BODY:
            raise Denial(413, "the body has more than 65536 octets")
        body = self.rfile.read(int(lengths[0]))
        if len(body) < int(lengths[0]):
            raise Denial(400, "the body ends early")
        return body

    def cookie(self):
        """Returns how the cookie of the caller begins. A browser sends the cookies of all ports, so its name has this one."""
        return f"zoneoffice_demo_{self.server.port}={self.server.key}."

    def choose(self, caller):
        if caller not in CALLERS:
            raise Denial(400, "no caller of the menu has this name")
        self.reply(303, TEXT, b"", Location="/", Set_Cookie=f"{self.cookie()}{caller}; Path=/; HttpOnly; SameSite=Strict")

    def caller(self):
        """Returns the caller that the cookie names, or None."""
        found = re.search(rf"(?:^|; ){self.cookie()}([a-z]+)(?:;|$)", self.headers.get("Cookie", ""))
        return found[1] if found and found[1] in CALLERS else None

    def known_caller(self):
        caller = self.caller()
        if caller is None:
            raise Denial(401, "no caller is chosen: choose one at /demo")
        return caller

    def hand_over(self, body):
        """Hands a request over as one of the chosen caller, without the client's fields, and answers what the office says."""
        status, kind, text = self.of_office(self.server.office.ask, self.known_caller(), self.command, self.path, body)
        if body is not None and self.server.to_lose > 0:
            self.server.to_lose -= 1  # the connection ends without a reply
        else:
            self.reply(status, kind if kind == "application/json" else TEXT, text, Cache_Control="no-store")

    def of_office(self, call, *words):
        try:
            return call(*words)
        except (TimeoutError, subprocess.TimeoutExpired):
            raise Denial(504, "the office did not answer in time: send it again, under the same identifier") from None
        except (OSError, http.client.HTTPException):
            raise Denial(502, "the office is down: send it again, under the same identifier") from None

    def reply(self, status, kind, body, **fields):
        """Sends a response. In the names of fields `_` stands for `-`."""
        caller = self.caller() if hasattr(self, "headers") else None
        own = {"Content-Type": kind, "Content-Length": len(body), "Cache-Control": "no-cache", "X-Office-Caller": caller or ""}
        given = {name.replace("_", "-"): value for name, value in fields.items()}
        self.send_response(status)
        for name, value in {**FIELDS, **own, **given}.items():
            self.send_header(name, value)
        self.end_headers()
        self.wfile.write(body)

    def send_error(self, code, message=None, explain=None):
        """Answers as nginx does what the office is not asked for: {"front":STATUS,"reason":REASON}."""
        said = json.dumps({"front": code, "reason": message or http.HTTPStatus(code).phrase})
        self.reply(code, "application/json", said.encode(), **({"Retry_After": "1"} if code in (502, 504) else {}))

    def log_message(self, *_):
        pass
