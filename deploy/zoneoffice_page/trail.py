"""The front server's audit trail: who asked for which update, and when."""

import dataclasses
import datetime
import hashlib
import json
import os
import re
import time
import urllib.parse
from typing import Any

from .files import open_file
from .names import IDENTIFIER, Labels, labels

LONGEST = 1 << 20  # octets of a line; nginx writes some 500,000 at most
HEAD = 1024
RUN = 20  # seconds of a run
WAITING = 900  # seconds for which an update waits for its change
MOST = 20000  # updates that wait
OPERATIONS = 256
MADE = b'"office":"200"', b'"office":"502"', b'"office":"504"'  # the last two may have been made
PATH = re.compile(rb'"path":"(?:/as/[^/"]{1,64})?/zones/([^/"]{1,3000})/')
ROUTE = re.compile(r"(?:/as/[^/]+)?/zones/([^/]+)/(updates|delegations)")


@dataclasses.dataclass
class Operation:  # pylint: disable=invalid-name
    """An operation of an update. What it leaves out is empty."""
    op: str
    name: str
    type: str = ""
    data: str = ""


@dataclasses.dataclass
class Update:  # pylint: disable=invalid-name
    """A line of the trail that asks for an update, as it came first. Its operations are None where the trail has no bodies."""
    zone: str
    when: float
    caller: str
    person: str
    id: str
    operations: list[Operation] | None
    read: float = 0.0


def text_of(value: Any, most: int) -> str:
    """A text of a line, cut; nothing if it is none."""
    return value[:most] if isinstance(value, str) else ""


def operations_of(body: Any, route: str) -> list[Operation]:
    """What an update asks for. A delegation is one operation, with its servers."""
    if route == "delegations":
        servers = " ".join(str(one["name"]) for one in body["servers"][:OPERATIONS])
        return [Operation("delegate", str(body["child"]), "NS", servers)]
    return [Operation(str(one["op"]), str(one["name"]), str(one.get("type", "")).upper(), str(one.get("data", "")))
            for one in body["operations"][:OPERATIONS]]


def update_of(line: bytes) -> Update | None:
    """The update that a line asks for, if it does."""
    try:
        fields = json.loads(line.decode("utf-8", "replace"))
        found = ROUTE.fullmatch(fields["path"])
        when = datetime.datetime.fromisoformat(fields["time"]).timestamp()
        if not found or not IDENTIFIER.fullmatch(fields["caller"]) or fields["method"] != "POST":
            return None
        zone = printed(urllib.parse.unquote(found[1]))
        person = text_of(fields.get("person"), 128)
        if "person" in fields and not fields["body"]:
            return Update(zone, when, fields["caller"], person, "", None)
        body = json.loads(fields["body"])
        return Update(zone, when, fields["caller"], person, text_of(body["id"], 64), operations_of(body, found[2]))
    except (ValueError, LookupError, TypeError, AttributeError, OverflowError, RecursionError):
        return None


def printed(name: str) -> str:
    """A name as the office prints it; ValueError if it is none."""
    return text_of_name(labels(name))


def text_of_name(name: Labels) -> str:
    """The text of a name."""
    def octet(one: int) -> str:
        if one in b'.\\"();@$':
            return "\\" + chr(one)
        return chr(one) if 32 < one < 127 else f"\\{one:03d}"
    return "".join("".join(map(octet, label)) + "." for label in reversed(name)) or "."


class Trail:
    """The files of the trail, how far each was read, and the updates that wait for their changes."""

    def __init__(self, kept: Any) -> None:
        self.offsets: dict[str, list[Any]] = {}
        self.updates: list[Update] = []
        self.zones: set[str] = set()
        try:
            self.offsets = {str(inode): [int(offset), str(head)] for inode, (offset, head) in kept["offsets"].items()}
            for zone, when, caller, person, name, operations, moment in kept["updates"]:
                found = None if operations is None else [Operation(*one) for one in operations]
                self.updates.append(Update(zone, when, caller, person, name, found, moment))
        except (ValueError, LookupError, TypeError, AttributeError):
            pass

    def kept(self) -> Any:
        """It for the next run."""
        return {"offsets": self.offsets,
                "updates": [[one.zone, one.when, one.caller, one.person, one.id, None if one.operations is None else
                             [list(dataclasses.astuple(it)) for it in one.operations], one.read] for one in self.updates]}

    def read_on(self, path: str) -> None:
        """Reads what came into the trail, also into a file that was rotated meanwhile, the oldest first."""
        until, folder, base = time.monotonic() + RUN, *os.path.split(path)
        named = re.compile(re.escape(base) + r"(?:[.-][0-9-]+)?")
        found = []
        for name in os.listdir(folder):
            if named.fullmatch(name):
                descriptor = open_file(os.path.join(folder, name))
                if descriptor is not None:
                    found.append((os.fstat(descriptor).st_mtime_ns if name != base else 1 << 63, descriptor))
        offsets = {}
        for _, descriptor in sorted(found):
            inode = str(os.fstat(descriptor).st_ino)
            offsets[inode] = self.read_file(descriptor, inode, until)
        self.offsets = offsets
        self.forget_some()

    def forget_some(self) -> None:
        """Lets go of updates that waited for long, and of those that were sent again."""
        first = {(one.caller, one.id): one for one in reversed(self.updates) if one.id}
        now = time.time()
        self.updates = [one for one in self.updates
                        if 0 <= now - one.read < WAITING and (not one.id or first[one.caller, one.id] is one)][-MOST:]

    def read_file(self, descriptor: int, inode: str, until: float) -> list[Any]:
        """Reads on in a file, and gives how far."""
        with open(descriptor, "rb") as file:
            offset, head = self.offsets.get(inode, [0, ""])
            if os.fstat(descriptor).st_size < offset or head_of(file, offset) != head:
                offset = 0
            file.seek(offset)
            while time.monotonic() < until and (line := file.readline(LONGEST)):
                if not line.endswith(b"\n") and len(line) < LONGEST:
                    break  # nginx still writes it
                offset += len(line)
                self.take(line)
            return [offset, head_of(file, offset)]

    def take(self, line: bytes) -> None:
        """Takes a line: the zone that it asks for, and the update."""
        path = PATH.search(line)
        if not path or not any(one in line for one in MADE):
            return
        try:
            if MADE[0] in line:
                self.zones.add(printed(urllib.parse.unquote(path[1].decode())))
        except (ValueError, UnicodeError):
            return
        update = update_of(line) if b'"method":"POST"' in line else None
        if update:
            update.read = time.time()
            self.updates.append(update)
            if len(self.updates) > 2 * MOST:
                del self.updates[:-MOST]


def head_of(file: Any, length: int) -> str:
    """What tells a file from another one with its inode: a digest of its beginning."""
    file.seek(0)
    return hashlib.sha256(file.read(min(length, HEAD))).hexdigest()
