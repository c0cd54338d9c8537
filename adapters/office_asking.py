"""What an adapter needs to ask an office: requests that are sent again under one identifier, replies, and small state on disk.

An adapter speaks another protocol to its clients, and HTTP to the office (docs/api.md). Nothing here knows the other protocol."""

import base64
import contextlib
import dataclasses
import hashlib
import http.client
import io
import ipaddress
import json
import os
import re
import secrets
import socket
import ssl
import stat
import time
import urllib.parse
from collections.abc import Iterator
from typing import Any

LONG = 64 << 10  # octets of a reply, with its head
LONGEST = 64 << 20  # octets of a reply that lists records or changes
KEPT = 16 << 20  # octets of a file of state
PAUSE = 0.2  # seconds before the second try, twice that before the third, and so on
LONGEST_PAUSE = 5.0
PIECE = 64 << 10
IDENTIFIER = re.compile(r"[A-Za-z0-9._-]{1,64}")  # of an update, and of a caller
FILE = re.compile(r"[A-Za-z0-9_-][A-Za-z0-9._-]{0,99}")
AGAIN = {429, 502, 503, 504}  # the front server's: the request may be sent again


class NoReply(Exception):
    """No reply came in all tries. An update may have been made, or not: send it again under the same identifier."""


class TooLong(Exception):
    """A reply has more octets than it may have. It is not asked for again."""


class NotGiven(Exception):
    """The office or its front server refused what was asked for."""

    def __init__(self, reply: "Reply") -> None:
        super().__init__(reply.cause())
        self.reply = reply


class Unsafe(Exception):
    """A file or a folder that another user may have made, or can change."""


def printable(text: str, most: int = 200) -> str:
    """The text, cut, with an escape for each character that is not printable ASCII: logs and terminals act on some of them."""
    cut = text[:most] + ("..." if len(text) > most else "")
    return re.sub(r"[^ -~]", lambda found: found[0].encode("unicode_escape").decode("ascii"), cut)


def identifier_of(*parts: bytes) -> str:
    """An identifier for the update that these octets ask for: equal octets have the same one, others have another."""
    digest = hashlib.sha256()
    for part in parts:
        digest.update(len(part).to_bytes(8, "big") + part)
    return digest.hexdigest()


@dataclasses.dataclass(frozen=True)
class Reply:
    """What came back: of the office, or of a front server that answered in its place."""
    status: int
    text: str
    body: Any  # the parsed body, or None if it is not JSON

    def field(self, name: str, kind: type) -> Any:
        """A field of the body, if it is there and of this type."""
        value = self.body.get(name) if isinstance(self.body, dict) else None
        return value if type(value) is kind else None  # pylint: disable=unidiomatic-typecheck

    @property
    def code(self) -> str:
        """The name of the DNS code (NOERROR, REFUSED, ..), or nothing if the reply has none."""
        name = self.field("name", str)
        return str(name) if name and re.fullmatch("[A-Z]{1,16}", name) else "" if name or self.status != 200 else "NOERROR"

    @property
    def rule(self) -> str | None:
        """The rule that denies."""
        rule = self.field("by", str)
        return str(rule) if rule and IDENTIFIER.fullmatch(rule) else None

    @property
    def refusal(self) -> int | None:
        """The number of a refusal (docs/formats.md)."""
        number: int | None = self.field("refusal", int)
        return number

    @property
    def place(self) -> tuple[str, int] | None:
        """The prerequisite or operation that the reply points at: its list, and its number there, from 0."""
        name, item = self.field("list", str), self.field("item", int)
        return (name, item) if name in ("prerequisites", "operations") and item is not None else None

    @property
    def is_of_office(self) -> bool:
        """Whether the office gave it, and not a server before it."""
        return bool(self.status == 200 or self.code or self.refusal) and self.field("front", int) is None

    def cause(self) -> str:
        """Why it is not NOERROR, in some printable words."""
        if not self.is_of_office:
            return f"front {self.status}"
        item = f" {self.place[0]} {self.place[1]}" if self.place else ""
        why = f" by {self.rule}" if self.rule else f" refusal {self.refusal}" if self.refusal else ""
        return f"{self.code or self.status}{item}{why}"


@dataclasses.dataclass(frozen=True)
class Change:
    """A change of a zone, as the caller sees it."""
    number: int
    removed: list[str]
    added: list[str]


@dataclasses.dataclass(frozen=True)
class Right:
    """What the policy decides, and by which rule."""
    granted: bool
    rule: str


class _Received:  # pylint: disable=too-few-public-methods
    """Octets of a response as the socket that http.client reads them from."""

    def __init__(self, octets: bytes) -> None:
        self.octets = octets

    def makefile(self, *_: Any) -> io.BytesIO:
        """The octets as a file."""
        return io.BytesIO(self.octets)


class Office:  # pylint: disable=too-many-instance-attributes
    """An office, and who asks it. It may be used by several threads: each request has a connection of its own."""

    def __init__(self, url: str, *, caller: str | None = None, user: str | None = None, password: str | None = None,
                 cert: str | None = None, key: str | None = None, ca: str | None = None,  # pylint: disable=invalid-name
                 tries: int = 3, seconds: float = 30) -> None:
        self.url, self.caller, self.tries, self.seconds = url, caller, tries, seconds
        self.name = caller or user or "the caller of the certificate"
        self.fields = {"Connection": "close", "Host": "office"}
        self.context: ssl.SSLContext | None = None
        self.path = ""
        self._set_place(url)
        if self.context:
            self.context = _context(cert, key, ca)
            if (user is None) != (password is None):
                raise ValueError("a user has a password")
            if user is not None:
                pair = f"{_identifier(user, 'user')}:{password}".encode()
                self.fields["Authorization"] = "Basic " + base64.b64encode(pair).decode()
            if caller is not None:
                raise ValueError("a caller is named by a user and a password or a certificate over https")
        elif (user, password, cert, key, ca) != (None,) * 5:
            raise ValueError("a password or a certificate is sent over https only")
        if caller is not None:
            self.fields["X-Office-Caller"] = _identifier(caller, "caller")

    def _set_place(self, url: str) -> None:
        self.socket = url.removeprefix("unix:") if url.startswith("unix:") else None
        if self.socket is not None:
            if not self.socket.startswith("/"):
                raise ValueError("unix: has an absolute path after it")
            return
        parts = urllib.parse.urlsplit(url)
        self.host, self.port = parts.hostname or "", parts.port or (443 if parts.scheme == "https" else 80)
        if parts.scheme == "https":
            self.context = ssl.create_default_context()
        elif parts.scheme != "http" or not _is_loopback(self.host):
            raise ValueError("the office is at unix:PATH, https://.., or http://.. on loopback")
        if not self.host or parts.query or parts.fragment or parts.username:
            raise ValueError("the URL has a host, perhaps a port and a path, and nothing else")
        self.fields["Host"] = parts.netloc
        self.path = parts.path.rstrip("/")

    def as_caller(self, name: str) -> "Office":
        """The same office for another caller: for adapters that may name callers."""
        return Office(self.url, caller=name, tries=self.tries, seconds=self.seconds)

    def get(self, zone: str, *parts: str, most: int = LONGEST) -> Reply:
        """The reply to GET /zones/ZONE/PARTS, if it has no more than so many octets."""
        return self._ask("GET", ("zones", zone, *parts), None, most)

    def list_records(self, zone: str, within: str | None = None, most: int = LONGEST) -> list[str]:
        """The record lines that the caller may list, all or within a name; NotGiven if the zone is not there."""
        reply = _given(self.get(zone, "records", *([] if within is None else [within]), most=most))
        return _texts(reply, reply.field("records", list))

    def changes(self, zone: str, first: int, most: int = LONGEST) -> list[Change]:
        """What the caller sees of the zone's changes from a number on, the oldest first; NotGiven if the zone is not there, TooLong
        if the reply has more than so many octets."""
        reply = _given(self.get(zone, "changes", str(first), most=most))
        found = []
        for one in reply.field("changes", list) or []:
            number = one.get("number") if isinstance(one, dict) else None
            if not isinstance(number, int):
                raise NotGiven(reply)
            found.append(Change(number, _texts(reply, one.get("removed")), _texts(reply, one.get("added"))))
        return found

    def rights(self, name: str, kind: str, action: str) -> Right:
        """What the policy decides on an action of the caller with records of a type at a name."""
        reply = _given(self._ask("GET", ("rights", name, kind, action), None, LONG))
        granted = reply.field("granted", bool)
        if granted is None or reply.rule is None:
            raise NotGiven(reply)
        return Right(granted, reply.rule)

    def update(self, zone: str, body: dict[str, Any], identifier: str) -> Reply:
        """Sends an update, again under the same identifier while no reply comes; NoReply if none came in all tries."""
        text = json.dumps({"id": _identifier(identifier, "identifier"), **body}).encode()
        return self._ask("POST", ("zones", zone, "updates"), text, LONG)

    def _ask(self, method: str, parts: tuple[str, ...], body: bytes | None, most: int) -> Reply:
        cause = "it was not tried"
        for number in range(self.tries):
            if number:
                time.sleep(min(LONGEST_PAUSE, PAUSE * 2 ** (number - 1)))
            try:
                reply = self._ask_once(method, parts, body, most)
            except (OSError, http.client.HTTPException, EOFError) as error:
                cause = printable(str(error) or type(error).__name__)
                continue
            if reply.status not in AGAIN:
                return reply
            cause = reply.cause()
        raise NoReply(cause)

    def _ask_once(self, method: str, parts: tuple[str, ...], body: bytes | None, most: int) -> Reply:
        target = self.path + "/" + "/".join(urllib.parse.quote(part, safe="") for part in parts)
        fields = {**self.fields, **({"Content-Length": str(len(body))} if body is not None else {})}
        head = f"{method} {target} HTTP/1.1\r\n" + "".join(f"{name}: {value}\r\n" for name, value in fields.items()) + "\r\n"
        until = time.monotonic() + self.seconds
        with contextlib.closing(self._connect(until)) as connection:
            connection.sendall(head.encode("ascii") + (body or b""))
            octets = _receive(connection, until, most)
        return _parse(octets, method)

    def _connect(self, until: float) -> socket.socket:
        if self.socket is None:
            connection = socket.create_connection((self.host, self.port), _left(until))
        else:
            connection = socket.socket(socket.AF_UNIX)
        try:
            connection.settimeout(_left(until))
            if self.socket is not None:
                connection.connect(self.socket)
            return self.context.wrap_socket(connection, server_hostname=self.host) if self.context else connection
        except BaseException:
            connection.close()
            raise


def _context(cert: str | None, key: str | None, authorities: str | None) -> ssl.SSLContext:
    context = ssl.create_default_context(cafile=authorities)
    context.minimum_version = ssl.TLSVersion.TLSv1_2
    if cert is not None:
        context.load_cert_chain(cert, key)
    return context


def _identifier(word: str, what: str) -> str:
    if not IDENTIFIER.fullmatch(word):
        raise ValueError(f"{printable(repr(word))} is not a {what}: 1 to 64 of a-z A-Z 0-9 - _ .")
    return word


def _is_loopback(host: str) -> bool:
    try:
        return host == "localhost" or ipaddress.ip_address(host).is_loopback
    except ValueError:
        return False


def _left(until: float) -> float:
    left = until - time.monotonic()
    if left <= 0:
        raise TimeoutError("the reply takes too long")
    return left


def _receive(connection: socket.socket, until: float, most: int) -> bytes:
    """All that comes until the peer closes: in time, however little comes at once, and not above the bound."""
    octets = bytearray()
    while True:
        connection.settimeout(_left(until))
        piece = connection.recv(PIECE)
        if not piece:
            return bytes(octets)
        octets += piece
        if len(octets) > most:
            raise TooLong(f"the reply has more than {most} octets")


def _parse(octets: bytes, method: str) -> Reply:
    response = http.client.HTTPResponse(_Received(octets), method=method)  # type: ignore[arg-type]
    response.begin()
    if response.length is None and not response.chunked:
        raise EOFError("the reply does not say how long it is")
    text = response.read().decode("utf-8", "replace")
    try:
        body = json.loads(text)
    except (ValueError, RecursionError):
        body = None
    return Reply(response.status, text, body)


def _given(reply: Reply) -> Reply:
    if reply.status != 200 or not isinstance(reply.body, dict):
        raise NotGiven(reply)
    return reply


def _texts(reply: Reply, value: Any) -> list[str]:
    if not isinstance(value, list) or not all(isinstance(one, str) for one in value):
        raise NotGiven(reply)
    return value


class Kept:
    """Small files of state in a folder of this user's own, each of which is its old or its new octets, whole."""

    def __init__(self, folder: str) -> None:
        with contextlib.suppress(FileExistsError):
            os.mkdir(folder, 0o700)
        try:
            self.folder = os.open(folder, os.O_RDONLY | os.O_DIRECTORY | os.O_NOFOLLOW | os.O_CLOEXEC)
        except NotADirectoryError:
            raise Unsafe(f"{printable(folder)} is a link, or no folder") from None
        found = os.fstat(self.folder)
        if found.st_uid != os.geteuid() or stat.S_IMODE(found.st_mode) & 0o077:
            os.close(self.folder)
            raise Unsafe(f"{printable(folder)} is another user's, or others may enter it: its mode has to be 0700")
        self._drop_broken()

    def _drop_broken(self) -> None:
        """Removes what killed writers left: files without a whole content are older than any write takes."""
        for name in os.listdir(self.folder):
            with contextlib.suppress(FileNotFoundError):
                if name.startswith(".new-") and time.time() - os.stat(name, dir_fd=self.folder, follow_symlinks=False).st_mtime > 3600:
                    os.unlink(name, dir_fd=self.folder)

    def close(self) -> None:
        """Gives the folder back."""
        os.close(self.folder)

    def names(self) -> list[str]:
        """The names of all files."""
        return sorted(name for name in os.listdir(self.folder) if FILE.fullmatch(name))

    def read(self, name: str) -> bytes | None:
        """The octets of a file, or None if it is not there."""
        try:
            file = os.open(_file(name), os.O_RDONLY | os.O_NOFOLLOW | os.O_NONBLOCK | os.O_CLOEXEC, dir_fd=self.folder)
        except FileNotFoundError:
            return None
        except OSError as error:
            raise Unsafe(f"{name} cannot be read: {error.strerror}") from None
        found = os.fstat(file)
        if not stat.S_ISREG(found.st_mode) or found.st_uid != os.geteuid() or found.st_nlink != 1 or found.st_size > KEPT:
            os.close(file)
            raise Unsafe(f"{name} is not a file of this user's, has another name too, or is too large")
        with os.fdopen(file, "rb") as opened:
            return opened.read(KEPT)

    def write(self, name: str, octets: bytes) -> None:
        """Puts octets in the place of a file's: when it returns they are on the disk, and if it is killed the old ones are."""
        if len(octets) > KEPT:
            raise ValueError(f"{name} would have more than {KEPT} octets")
        new = f".new-{secrets.token_hex(16)}"
        with self._made(new) as file:
            view = memoryview(octets)
            while view:
                view = view[os.write(file, view):]
            os.fsync(file)
            os.rename(new, _file(name), src_dir_fd=self.folder, dst_dir_fd=self.folder)
        os.fsync(self.folder)

    @contextlib.contextmanager
    def _made(self, new: str) -> Iterator[int]:
        file = os.open(new, os.O_WRONLY | os.O_CREAT | os.O_EXCL | os.O_NOFOLLOW | os.O_CLOEXEC, 0o600, dir_fd=self.folder)
        try:
            yield file
        except BaseException:
            with contextlib.suppress(FileNotFoundError):
                os.unlink(new, dir_fd=self.folder)
            raise
        finally:
            os.close(file)

    def remove(self, name: str) -> None:
        """Removes a file, if it is there."""
        with contextlib.suppress(FileNotFoundError):
            os.unlink(_file(name), dir_fd=self.folder)
            os.fsync(self.folder)


def _file(name: str) -> str:
    if not FILE.fullmatch(name):
        raise ValueError(f"{printable(repr(name))} is not the name of a file of state")
    return name
