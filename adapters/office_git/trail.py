"""The front server's audit trail (docs/operations.md): which request made a change, and when.

The trail has a line for each request, in the order in which they ended, and changes are in the order in which they were made. So the
request of a change is the first that would have made it, and that did not end before the request of the change before it began. A
request without effect has no change: once the changes were asked for after its line was read, none can come."""

import collections
import contextlib
import dataclasses
import datetime
import gzip
import itertools
import json
import os
import re
import stat
import urllib.parse
from typing import Any, BinaryIO

import dns.exception
import dns.name
import dns.rdata
import dns.rdataclass
import dns.rdatatype

from office_asking import IDENTIFIER, Change
from office_records import is_within, record_of

LONGEST = 1 << 20  # octets of a line
AHEAD = 1000  # requests among which that of a change is looked for
NEAR = 64 << 10  # octets within which the place of a time is found
PATH = re.compile(r"/zones/([^/]{1,1100})/(updates|delegations)")


@dataclasses.dataclass(frozen=True)
class Item:
    """A record, or what an operation names: an owner, perhaps a type, perhaps data."""
    name: str
    kind: str = ""
    data: bytes = b""


@dataclasses.dataclass(frozen=True)
class Request:
    """A request that the office answered NOERROR. It was made between two times."""
    zone: str
    caller: str
    identifier: str
    began: float
    ended: float
    operations: tuple[tuple[str, Item], ...]

    @property
    def mark(self) -> tuple[str, str]:
        """What it is known by, each time it is sent."""
        return self.caller, self.identifier

    def removes(self, one: Item, is_again: bool) -> bool:
        """Whether it may have removed a record; `is_again` if the record came back with another TTL."""
        return any(op == "delete-name" and item.name == one.name
                   or op == "delete-rrset" and (item.name, item.kind) == (one.name, one.kind)
                   or op == "delete-record" and item == one
                   or op == "add" and (item.name, item.kind) == (one.name, one.kind) and (is_again or one.kind == "CNAME")
                   or op == "delegate" and _is_of_child(one, item.name) for op, item in self.operations)

    def adds(self, one: Item, is_again: bool) -> bool:
        """Whether it may have added a record; `is_again` if the record was there with another TTL."""
        return any(op == "add" and (item == one or is_again and (item.name, item.kind) == (one.name, one.kind))
                   or op == "delegate" and _is_of_child(one, item.name) for op, item in self.operations)

    def explains(self, removed: set[Item], added: set[Item]) -> bool:
        """Whether it may have made a change. The serial grows by itself."""
        others = [one for one in removed | added if one.kind != "SOA"]
        if not others:
            return any(op == "add" and item.kind == "SOA" for op, item in self.operations)
        return all((one not in removed or self.removes(one, one in added)) and (one not in added or self.adds(one, one in removed))
                   for one in others)


def _is_of_child(one: Item, child: str) -> bool:
    return one.kind == "NS" and one.name == child or one.kind in ("A", "AAAA") and is_within(one.name, child)


def name_of(text: str) -> str:
    """A name in the one spelling that names are compared in."""
    try:
        return str(dns.name.from_text(text).canonicalize().to_text())
    except dns.exception.DNSException:
        return text


def data_of(kind: str, text: str) -> bytes:
    """Data in the form that data are compared in: as in a message, with names in lower case."""
    try:
        found = dns.rdata.from_text(dns.rdataclass.IN, dns.rdatatype.from_text(kind), text, dns.name.root, False)
        return found.to_digestable(dns.name.root)
    except (dns.exception.DNSException, ValueError):
        return text.encode("utf-8", "replace")


def item_of(line: str) -> Item:
    """The record of a line."""
    one = record_of(line)
    return Item(name_of(one.name), one.type, data_of(one.type, one.data))


def operations_of(kind: str, body: dict[str, Any]) -> tuple[tuple[str, Item], ...]:
    """The operations of a body."""
    if kind == "delegations":
        return (("delegate", Item(name_of(body["child"]))),)
    found = []
    for one in body["operations"]:
        type_of = str(one.get("type", "")).upper()
        found.append((str(one["op"]), Item(name_of(one["name"]), type_of, data_of(type_of, one["data"]) if "data" in one else b"")))
    return tuple(found)


def time_of(line: bytes) -> float | None:
    """The time of a line, if it is whole and has one."""
    try:
        return datetime.datetime.fromisoformat(json.loads(line)["time"]).timestamp()
    except (ValueError, KeyError, TypeError, RecursionError):
        return None


def request_of(line: bytes) -> Request | None:
    """The request of a line, if it may have made a change."""
    if b'"method":"POST"' not in line or b'"office":"200"' not in line:
        return None
    try:
        one = json.loads(line)
        path = PATH.fullmatch(one["path"])
        caller, body, ended = one["caller"], json.loads(one["body"]), datetime.datetime.fromisoformat(one["time"]).timestamp()
        if not path or not IDENTIFIER.fullmatch(caller) or not IDENTIFIER.fullmatch(body["id"]):
            return None
        return Request(name_of(urllib.parse.unquote(path[1])), caller, body["id"], ended - float(one["seconds"]), ended + 1,
                       operations_of(path[2], body))
    except (ValueError, KeyError, TypeError, AttributeError, RecursionError):
        return None


@dataclasses.dataclass
class Queue:
    """The requests for a zone that may have made a change, with the numbers in which they were read: those that are still to come, and
    those that were passed over."""
    waiting: collections.deque[tuple[int, Request]] = dataclasses.field(default_factory=collections.deque)
    passed: list[tuple[int, Request]] = dataclasses.field(default_factory=list)
    made: collections.deque[tuple[str, str]] = dataclasses.field(default_factory=lambda: collections.deque(maxlen=100))

    def take(self, place: int) -> None:
        """Takes a request, and forgets those that ended before it began."""
        before = [self.waiting.popleft() for _ in range(place)]
        _, found = self.waiting.popleft()
        self.passed = [one for one in (*self.passed, *before) if one[1].ended > found.began]
        self.made.append(found.mark)

    def may_be(self, found: Request, removed: set[Item], added: set[Item]) -> bool:
        """Whether a request may have made a change. One that was sent again makes no other."""
        return found.mark not in self.made and found.explains(removed, added)


class Trail:
    """The trail from a time on, over its rotations, and the requests that may still have made a change, by zone."""

    def __init__(self, path: str, zones: list[str], since: float | None) -> None:
        self.path = path
        self.queues = {name_of(zone): Queue() for zone in zones}
        self.number = 0  # of requests that were read
        self.files: list[BinaryIO] = []  # the current one is the last; nginx may go on with the one before it for a while
        for older in self._older(since):
            if older.endswith(".gz"):
                with gzip.GzipFile(older) as packed:
                    self._read_lines(packed)
            else:
                with open(older, "rb") as file:
                    seek(file, since)
                    self._read_lines(file)
        self._open(since)

    def _older(self, since: float | None) -> list[str]:
        """The files of before the last rotations that may have lines of this time, the oldest first."""
        folder, base = os.path.split(os.path.abspath(self.path))
        paths = [os.path.join(folder, name) for name in os.listdir(folder) if name.startswith(base) and name != base]
        times = {path: os.path.getmtime(path) for path in paths}
        return sorted((path for path in paths if since is None or times[path] >= since), key=times.__getitem__)

    def close(self) -> None:
        """Closes its files."""
        for file in self.files:
            file.close()

    def read(self) -> int:
        """Reads what is new; how many requests were read until now."""
        for file in self.files:
            self._read_lines(file)
        current = self.files[-1]
        with contextlib.suppress(FileNotFoundError):
            found = os.stat(self.path)
            if found.st_size and found.st_ino != os.fstat(current.fileno()).st_ino:
                self._read_lines(current)
                self._open(None)
                self._read_lines(self.files[-1])
        return self.number

    def request(self, zone: str, change: Change, is_late: bool) -> Request | None:
        """The request that made the next change of a zone. Of those before the one of the last change, which can only be if both were
        made at once, it is one only if it is late: if the line of another would have come."""
        queue = self.queues[name_of(zone)]
        removed, added = ({item_of(line) for line in lines} for lines in (change.removed, change.added))
        for place, (_, found) in enumerate(itertools.islice(queue.waiting, AHEAD)):
            if queue.may_be(found, removed, added):
                queue.take(place)
                return found
        for place, (_, found) in enumerate(queue.passed if is_late else []):
            if queue.may_be(found, removed, added):
                del queue.passed[place]
                return found
        return None

    def resume(self, zone: str, caller: str, identifier: str) -> None:
        """Forgets the request of the last change that is known, and those before it."""
        queue = self.queues[name_of(zone)]
        for place, (_, found) in enumerate(queue.waiting):
            if found.mark == (caller, identifier):
                queue.take(place)
                queue.passed.clear()
                return

    def forget(self, zone: str, number: int) -> None:
        """Forgets the requests of a zone that were among the first so many: all changes of theirs are known."""
        queue = self.queues[name_of(zone)]
        queue.passed = [one for one in queue.passed if one[0] > number]
        while queue.waiting and queue.waiting[0][0] <= number:
            queue.waiting.popleft()

    def _open(self, since: float | None) -> None:
        file = open(self.path, "rb")  # pylint: disable=consider-using-with
        if not stat.S_ISREG(os.fstat(file.fileno()).st_mode):
            raise OSError(0, "it is not an ordinary file")
        seek(file, since)
        for old in self.files[:-1]:
            old.close()
        self.files = [*self.files[-1:], file]

    def _read_lines(self, file: BinaryIO | gzip.GzipFile) -> None:
        """Reads whole lines. One that nginx still writes is read the next time; of one that is too long nothing is taken."""
        while True:
            place = file.tell()
            line = file.readline(LONGEST)
            if not line.endswith(b"\n") and len(line) < LONGEST:
                file.seek(place)
                return
            found = request_of(line)
            if found and found.zone in self.queues:
                self.number += 1
                self.queues[found.zone].waiting.append((self.number, found))


def seek(file: BinaryIO, since: float | None) -> None:
    """Goes to a line not far before the first one of a time, if one is given."""
    if since is None:
        return
    low, high = 0, os.fstat(file.fileno()).st_size
    while high - low > NEAR:
        middle = (low + high) // 2
        file.seek(middle)
        file.readline(LONGEST)
        time = time_of(file.readline(LONGEST))
        low, high = (low, middle) if time is None or time >= since else (middle, high)
    file.seek(low)
    if low:
        file.readline(LONGEST)
