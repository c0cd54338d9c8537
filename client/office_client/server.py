"""The office's server: connections to it, who asks, and replies, none of which is trusted."""

import base64
import contextlib
import getpass
import http.client
import json
import netrc
import os
import signal
import socket
import ssl
import time
import urllib.parse
from collections.abc import Callable, Iterator
from typing import Any

from . import names, refusals
from .options import Options
from .telling import Bad, Lost, clean
from .update import path

SECONDS = 70  # how long a reply is waited for to begin; the front server gives up after 60
# octets of a reply: of a list or a file, and of any other
LONGEST, LONG = 64 << 20, 64 << 10

# What the office answers: a type, a list of one shape, or fields with shapes, of which those with a question mark may be missing
SHAPES: dict[str, Any] = {
    "records": {"records": [str]},
    "changes": {"changes": [{"number": int, "removed": [str], "added": [str]}]},
    "delegations": {"delegations": [{"child": str, "servers": [{"name": str, "glue": str}]}]},
    "rights": {"granted": bool, "by": str},
    "update": {"code": int, "name": str},
    "refusal": {"code?": int, "name?": str, "refusal?": int, "by?": str, "item?": int, "list?": str},
}


def fits(value: Any, shape: Any) -> bool:
    """Whether a value of JSON has a shape."""
    if isinstance(shape, list):
        return type(value) is list and all(fits(one, shape[0]) for one in value)  # pylint: disable=unidiomatic-typecheck
    if isinstance(shape, dict):
        if type(value) is not dict:  # pylint: disable=unidiomatic-typecheck
            return False
        named = {name.rstrip("?"): (one, name.endswith("?")) for name, one in shape.items()}
        return all(fits(value[name], one) if name in value else optional for name, (one, optional) in named.items())
    return type(value) is shape and (shape is not int or 0 <= value < 1 << 63)  # pylint: disable=unidiomatic-typecheck


@contextlib.contextmanager
def within(limit: float) -> Iterator[None]:
    """Gives up what takes longer than so many seconds in all, however little comes at a time."""
    def give_up(*_: object) -> None:
        raise TimeoutError(f"it took more than {limit} seconds")

    before = signal.signal(signal.SIGALRM, give_up)
    signal.setitimer(signal.ITIMER_REAL, limit)
    try:
        yield
    finally:
        signal.setitimer(signal.ITIMER_REAL, 0)
        signal.signal(signal.SIGALRM, before)


def body_of(response: http.client.HTTPResponse, most: int) -> str:
    """The body of a response, in pieces, so that no more than the limit is ever held."""
    wanted, text = response.length, bytearray()
    while (wanted is None or len(text) < wanted) and (piece := response.read1(65536)):
        text += piece
        if len(text) > most:
            raise Lost(f"the reply has more than {most} octets")
    if wanted is not None and len(text) < wanted:
        raise Lost("the reply is cut short")
    return text.decode("utf-8", "replace")


class UnixConnection(http.client.HTTPConnection):
    """A connection to a socket on this machine."""

    def __init__(self, place: str) -> None:
        super().__init__("office", timeout=SECONDS)
        self.place = place

    def connect(self) -> None:
        """Connects to the socket."""
        self.sock = socket.socket(socket.AF_UNIX)
        self.sock.settimeout(self.timeout)
        self.sock.connect(self.place)


class Reply:
    """What came back, of the office or of a server before it."""

    def __init__(self, status: int, text: str, kind: str) -> None:
        self.status = status
        self.text = text
        try:
            value = json.loads(text)
        except (ValueError, RecursionError):
            value = None
        self.fields: dict[str, Any] = value if isinstance(value, dict) else {}
        if status != 200:
            self.has_its_form = fits(value, SHAPES["refusal"]) and not {"name", "refusal"}.isdisjoint(self.fields)
        elif kind == "file":
            self.has_its_form = text.startswith("$ORIGIN ")
        else:
            self.has_its_form = fits(value, SHAPES[kind])

    def is_of_office(self) -> bool:
        """Whether the office gave it, and not a server before it."""
        return "front" not in self.fields and self.has_its_form

    def is_settled(self) -> bool:
        """Whether the office has decided on it, for good."""
        return self.is_of_office() and self.status != 500

    def may_be_made(self) -> bool:
        """Whether the office may have made an update, though the reply does not say so."""
        return not self.is_of_office() and self.fields.get("front", 502) in (502, 504)

    def reason(self) -> str:
        """What the front server says, in some printable words."""
        if 300 <= self.status < 400:
            return f"{self.status}: it sends on to another place, and the client does not follow"
        reason = self.fields.get("reason")
        return f"{self.status}: {clean(reason[:200]) if isinstance(reason, str) and reason else ascii(self.text[:100])}"

    def wants_another_try(self) -> bool:
        """Whether the same request may get another reply."""
        return self.status in (429, 500) or self.may_be_made()


class Server:  # pylint: disable=too-many-instance-attributes
    """The office's server, and who asks it."""

    def __init__(self, options: Options) -> None:
        self.options = options
        url = options.url or os.environ.get("OFFICE_URL")
        if not url:
            raise Bad("which office? use --url or $OFFICE_URL")
        self.socket = url.removeprefix("unix:") if url.startswith("unix:") else None
        try:
            self.url = urllib.parse.urlsplit("http://office" if self.socket else url if "//" in url else "https://" + url)
            self.port = self.url.port
        except ValueError as error:
            raise Bad(f"{url} is not a URL: {error}") from None
        if self.url.scheme not in ("http", "https") or not self.url.hostname:
            raise Bad(f"{url} is not a URL of http or https, or unix: and the path of a socket")
        self.host: str = self.url.hostname
        self.base = url if self.socket else f"{self.url.scheme}://{self.url.netloc}{self.url.path.rstrip('/')}"
        self.caller = options.caller
        self.certificate = options.cert or os.environ.get("OFFICE_CERT")
        self.user, self.password = (None, None) if self.caller or self.socket else self.login()
        self.context: ssl.SSLContext | None = None
        self.kept: http.client.HTTPConnection | None = None
        self.rights: dict[tuple[str, str, str], tuple[bool, str]] = {}
        if self.password and self.url.scheme == "http" and self.host not in ("127.0.0.1", "::1", "localhost"):
            raise Bad("a password is sent over https only")

    def who(self) -> str:
        """Who asks, as far as the client knows."""
        return self.caller or self.user or self.certificate or ""

    def login(self) -> tuple[str | None, str | None]:
        """The user and the password, by the options, the environment, netrc or the terminal."""
        user = self.options.user or os.environ.get("OFFICE_USER")
        if self.options.password_file is not None:
            with open(self.options.password_file, encoding="utf-8") as file:
                return known(user), file.readline().rstrip("\n")
        if "OFFICE_PASSWORD" in os.environ:
            return known(user), os.environ["OFFICE_PASSWORD"]
        file_name = self.options.netrc or os.environ.get("NETRC") or os.path.expanduser("~/.netrc")
        if self.options.netrc is not None or os.path.exists(file_name):
            try:
                entry = netrc.netrc(file_name).authenticators(self.host)
            except netrc.NetrcParseError as error:
                raise Bad(f"{file_name}: {error}") from None
            if entry and (not user or user == entry[0]):
                return entry[0], entry[2]
        if user and not self.certificate:
            if not os.isatty(2):
                raise Bad(f"the password of {user} is missing: use --password-file, $OFFICE_PASSWORD or netrc")
            return user, getpass.getpass(f"password of {user}: ")
        return None, None

    def secure(self) -> ssl.SSLContext:
        """What a connection over TLS trusts and shows."""
        if self.context is None:
            self.context = ssl.create_default_context(cafile=self.options.ca or os.environ.get("OFFICE_CA"))
            if self.certificate:
                self.context.load_cert_chain(self.certificate, self.options.key or os.environ.get("OFFICE_KEY"))
        return self.context

    def connect(self) -> http.client.HTTPConnection:
        """A new connection."""
        connection: http.client.HTTPConnection
        if self.socket:
            connection = UnixConnection(self.socket)
        elif self.url.scheme == "http":
            connection = http.client.HTTPConnection(self.host, self.port, timeout=SECONDS)
        else:
            connection = http.client.HTTPSConnection(self.host, self.port, timeout=SECONDS, context=self.secure())
        try:
            with within(min(SECONDS, self.options.seconds)):
                connection.connect()
        except (OSError, UnicodeError) as error:
            raise Bad(f"cannot reach {self.base}: {error}") from None
        return connection

    def head(self) -> dict[str, str]:
        """The fields of a request. Only a front server is asked to keep the connection: the office serves one after the other."""
        fields = {"Connection": "keep-alive" if self.url.scheme == "https" else "close"}
        if self.caller:
            fields["X-Office-Caller"] = self.caller
        elif self.user is not None:
            pair = f"{self.user}:{self.password}".encode()
            fields["Authorization"] = "Basic " + base64.b64encode(pair).decode()
        return fields

    # pylint: disable-next=too-many-arguments
    def talk(self, connection: http.client.HTTPConnection, method: str, target: str, kind: str, body: str | None) -> Reply:
        """Sends a request on a connection that is open, and gives its reply, which is of a kind."""
        keep = False
        try:
            with within(min(SECONDS, self.options.seconds)):
                connection.request(method, ("" if self.socket else self.url.path.rstrip("/")) + target, body, self.head())
                response = connection.getresponse()
            with within(self.options.seconds):
                long = response.status == 200 and kind in ("records", "changes", "delegations", "file")
                reply = Reply(response.status, body_of(response, LONGEST if long else LONG), kind)
            keep = self.url.scheme == "https" and not response.will_close
            response.close()
            return reply
        finally:
            if keep:
                self.kept = connection
            else:
                connection.close()

    # pylint: disable-next=too-many-arguments
    def ask(self, method: str, target: str, kind: str, body: str | None = None, before: Callable[[], None] = lambda: None) -> Reply:
        """Sends a request, on the connection that was kept or on a new one, and gives its reply, which is of a kind. What is to be
        done once there is a connection, and before anything is sent, is done then."""
        kept, self.kept = self.kept, None
        if kept is not None:
            before()
            try:
                return self.talk(kept, method, target, kind, body)
            except (http.client.RemoteDisconnected, ConnectionResetError, BrokenPipeError):
                pass  # the server has ended the connection meanwhile
            except (OSError, http.client.HTTPException) as error:
                raise no_reply(error) from None
        connection = self.connect()
        before()
        try:
            return self.talk(connection, method, target, kind, body)
        except (OSError, http.client.HTTPException) as error:
            raise no_reply(error) from None

    def get(self, kind: str, *parts: str) -> Reply:
        """The reply of a kind to a question, which is asked again where there is none."""
        for left in reversed(range(self.options.tries)):
            try:
                reply = self.ask("GET", path(*parts), kind)
                if not left or not reply.wants_another_try():
                    break
            except (Bad, Lost):
                if not left:
                    raise
            time.sleep(1)
        return checked(reply)

    def zone_of(self, name: str) -> str:
        """The zone that has a name: the nearest one at or above it."""
        place = name
        while place != ".":
            reply = self.get("records", "zones", place, "records", name)
            if reply.status != 404:
                return place
            place = names.parent(place)
        raise Bad(f"the office has no zone of {name}")

    def may(self, name: str, kind: str, action: str) -> tuple[bool, str]:
        """Whether the policy grants an action, and the rule that decides. It is asked once."""
        point = name, kind, action
        if point not in self.rights:
            reply = self.get("rights", "rights", *point)
            if reply.status != 200:
                raise Bad(f"no answer on the right to {action} {kind} at {name}: {refusals.words(reply.fields)}")
            self.rights[point] = reply.fields["granted"], clean(reply.fields["by"][:200])
        return self.rights[point]


def no_reply(error: Exception) -> Lost:
    """Why there is no reply."""
    return Lost(f"no reply came: {clean(str(error).strip()[:200]) or type(error).__name__}")


def known(user: str | None) -> str:
    """The user whose password there is."""
    if not user:
        raise Bad("whose password is it? use --user or $OFFICE_USER")
    return user


def checked(reply: Reply) -> Reply:
    """The reply, unless the office did not give it."""
    if reply.is_settled():
        return reply
    if reply.is_of_office():
        raise Bad(f"SERVFAIL: {refusals.text_of('SERVFAIL') or 'the office failed, and nothing has changed'}")
    raise Bad(f"the front server answered {reply.reason()}")
