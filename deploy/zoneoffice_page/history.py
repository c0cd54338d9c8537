"""What is kept of a zone's changes: which record sets each touched, which callers see it, and who made it.

Numbers of changes differ from caller to caller: each counts those of which it sees something. So the record sets that each change touched
are kept in a file for good, a line a change, and are counted anew when the policy is another one; the office is asked for new
changes only."""

import dataclasses
import hashlib
import itertools
import json
import os
import time
import zlib
from collections.abc import Iterable, Iterator
from typing import Any

from .files import Folder
from .names import is_within, labels, mailbox, record_of
from .office import Change, Office
from .policy import Policy

KEPT = 1000  # changes of which it is kept who made them
PENDING = 600  # seconds in which it is looked for who made a change
COMPARED = 600  # seconds after which it is tested that the store is the same
STATE = 64 << 20  # octets of the file of a zone
LINES = 200  # records of a change that are kept for finding who made it; of more, one of each set
SETS = 2000

Pair = tuple[str, str]  # an owner and a type


class Damaged(Exception):
    """What was kept is not what was written."""


@dataclasses.dataclass
class Made:  # pylint: disable=invalid-name
    """Who made a change and when, as far as the audit trail says."""
    caller: str
    person: str
    time: str
    id: str


@dataclasses.dataclass
class Entry:
    """A change of the last ones."""
    number: int
    mark: str  # a digest of the change
    seen_by: list[str]
    made: Made | None = None


@dataclasses.dataclass
class Pending:
    """A change of which it is not known who made it."""
    number: int
    since: float
    removed: list[str]
    added: list[str]


def mark_of(change: Change) -> str:
    """A digest of a change."""
    return hashlib.sha256(json.dumps([change.removed, change.added]).encode()).hexdigest()[:32]


def some_of(lines: list[str]) -> list[str]:
    """The lines by which it is found who made a change."""
    if len(lines) <= LINES:
        return lines
    firsts: dict[Pair, str] = {}
    for line in lines:
        record = record_of(line)
        firsts.setdefault((record.name, record.type), line)
    return list(firsts.values())[:SETS]


def pairs_of(change: Change) -> list[Pair]:
    """The record sets that a change touched, each once. A serial that moved is one of the SOA."""
    found = {}
    for line in change.removed + change.added:
        record = record_of(line)
        found[record.name, record.type] = True
    return list(found)


class History:  # pylint: disable=too-many-instance-attributes,attribute-defined-outside-init
    """The changes of a zone."""

    def __init__(self, folder: Folder, zone: str) -> None:
        self.folder, self.zone, self.origin = folder, zone, labels(zone)
        self.name = hashlib.sha256(zone.encode()).hexdigest()[:32]
        self.forget()
        self.load()

    def forget(self) -> None:
        """Nothing is known of the zone."""
        self.number, self.length, self.compared, self.policy, self.serial, self.moved = 0, 0, 0, "", 0, 0
        self.counts: dict[str, int] = {}
        self.entries: list[Entry] = []
        self.pending: list[Pending] = []
        self.children: dict[str, Any] | None = None
        self.contact: str | None = None  # who answers for the zone; "" if its SOA names nobody to whom one could write
        self.reached = 0.0  # when the last update came of which the change is known
        self.is_new = True

    def load(self) -> None:
        """Reads what the last run kept. What is damaged is read anew from the office."""
        octets = self.folder.read(f"{self.name}.json", STATE)
        try:
            kept = json.loads(octets or b"null")
            if kept and kept["zone"] == self.zone:
                self.number, self.length, self.compared = int(kept["number"]), int(kept["length"]), int(kept["compared"])
                self.policy, self.counts = str(kept["policy"]), dict(kept["counts"])
                self.serial, self.moved = int(kept["serial"]), int(kept["moved"])
                self.entries = [Entry(one[0], one[1], kept["sets"][one[2]], Made(*one[3]) if one[3] else None) for one in kept["entries"]]
                self.pending = [Pending(*one) for one in kept["pending"]]
                self.children, self.reached, self.is_new = kept["children"], float(kept["reached"]), False
                self.contact = None if kept.get("contact") is None else str(kept["contact"])
        except (ValueError, LookupError, TypeError, RecursionError):
            self.forget()

    def save(self) -> None:
        """Keeps it for the next run. The record sets are on the disk already: what is longer than the kept length is not counted."""
        sets: dict[tuple[str, ...], int] = {}
        entries = [[one.number, one.mark, sets.setdefault(tuple(one.seen_by), len(sets)),
                    list(dataclasses.astuple(one.made)) if one.made else None] for one in self.entries]
        kept = {"zone": self.zone, "number": self.number, "length": self.length, "compared": self.compared, "policy": self.policy,
                "serial": self.serial, "moved": self.moved, "counts": self.counts, "sets": [list(one) for one in sets], "entries": entries,
                "pending": [list(dataclasses.astuple(one)) for one in self.pending], "children": self.children, "reached": self.reached,
                "contact": self.contact}
        self.folder.put(f"{self.name}.json", json.dumps(kept, separators=(",", ":")).encode(), 0o600)

    # The record sets of all changes, a line a change: OWNER TYPE OWNER TYPE ..

    def append(self, lines: Iterable[str]) -> None:
        """Adds lines after the kept length."""
        name = f"{self.name}.sets"
        opened = os.open(name, os.O_RDWR | os.O_CREAT | os.O_NOFOLLOW | os.O_CLOEXEC, 0o600, dir_fd=self.folder.descriptor)
        with open(opened, "r+b") as file:
            file.truncate(self.length)
            file.seek(self.length)
            for line in lines:
                file.write(line.encode() + b"\n")
            file.flush()
            os.fsync(file.fileno())
            self.length = file.tell()

    def all_pairs(self) -> Iterator[list[Pair]]:
        """The record sets of each change, the oldest first."""
        opened = os.open(f"{self.name}.sets", os.O_RDONLY | os.O_NOFOLLOW | os.O_CLOEXEC, dir_fd=self.folder.descriptor)
        with open(opened, "rb") as file:
            left = self.length
            for line in file:
                left -= len(line)
                if left < 0:
                    raise Damaged
                words = line.decode().split()
                yield list(zip(words[::2], words[1::2]))

    # Reading on

    def recount(self, policy: Policy, digest: str) -> None:
        """Counts all changes anew if the policy is another one. What is damaged is read anew from the office."""
        try:
            if self.policy != digest and self.number:
                self.count_anew(policy)
        except (Damaged, FileNotFoundError, ValueError):
            self.forget()
        self.policy = digest

    def follow(self, office: Office, policy: Policy) -> None:
        """Reads the changes that are new, or all if the store is another one; NoZone if the office has no such zone."""
        old = {}
        if self.is_due() and not self.is_same(office):
            old = {one.mark: one.made for one in self.entries if one.made}
            digest = self.policy
            self.forget()
            self.policy = digest
        self.read_new(office, policy)
        for entry in self.entries:
            entry.made = entry.made or old.get(entry.mark)
        now = time.time()
        self.pending = [one for one in self.pending if 0 <= now - one.since < PENDING]

    def is_due(self) -> bool:
        """Is it time to test whether the store is the same? The zones of a store come at different times."""
        return not 0 <= time.time() - self.compared < COMPARED + zlib.crc32(self.zone.encode()) % COMPARED

    def is_same(self, office: Office) -> bool:
        """Whether the last change that was read is in the office."""
        self.compared = int(time.time())
        if not self.number or not self.entries:
            return self.number == 0
        first = next(office.changes(self.zone, self.number), None)
        return first is not None and first.number == self.number and mark_of(first) == self.entries[-1].mark

    def read_new(self, office: Office, policy: Policy) -> None:
        """Reads the changes after the last one."""
        if self.number == 0:
            self.compared = int(time.time())
        changes = office.changes(self.zone, self.number + 1)
        first = next(changes, None)
        if first is not None:
            self.append(self.take(change, policy) for change in itertools.chain([first], changes))

    def take(self, change: Change, policy: Policy) -> str:
        """Counts a change, and gives its line."""
        pairs = pairs_of(change)
        self.number += 1
        self.moved = int(time.time())
        self.count(self.number, mark_of(change), pairs, policy)
        self.pending.append(Pending(self.number, time.time(), some_of(change.removed), some_of(change.added)))
        del self.pending[:-KEPT]
        for line in change.added:
            record = record_of(line)
            if record.type == "SOA":
                self.serial = int(record.data.split(" ")[2])
                self.contact = mailbox(record.data)
        if self.children is not None and any(self.concerns_children(*pair) for pair in pairs):
            self.children = None
        return " ".join(f"{owner} {kind}" for owner, kind in pairs)

    def count(self, number: int, mark: str, pairs: list[Pair], policy: Policy) -> None:
        """Counts a change for each caller that sees something of it."""
        callers = sorted(frozenset[str]().union(*(policy.listers(labels(owner), kind) for owner, kind in pairs)))
        for caller in callers:
            self.counts[caller] = self.counts.get(caller, 0) + 1
        self.entries.append(Entry(number, mark, callers))
        if len(self.entries) >= 2 * KEPT:
            del self.entries[:-KEPT]

    def count_anew(self, policy: Policy) -> None:
        """Counts all changes by another policy."""
        old = {one.number: one for one in self.entries}
        self.counts, self.entries, number = {}, [], 0
        for number, pairs in enumerate(self.all_pairs() if self.length else (), 1):
            before = old.get(number)
            self.count(number, before.mark if before else "", pairs, policy)
            self.entries[-1].made = before.made if before else None
        if number != self.number:
            raise Damaged

    def concerns_children(self, owner: str, kind: str) -> bool:
        """Whether a record set may be of a delegation."""
        name = labels(owner)
        if kind in ("NS", "DS"):
            return name != self.origin
        return kind in ("A", "AAAA") and any(is_within(name, labels(child)) for child in self.children or {})

    # What each caller sees

    def numbers_of(self, caller: str) -> Iterator[tuple[int, Entry]]:
        """The last changes that a caller sees, with their numbers in the caller's own list, the last first."""
        number = self.counts.get(caller, 0)
        for entry in reversed(self.entries[-KEPT:]):
            if caller in entry.seen_by:
                yield number, entry
                number -= 1

    def own_number(self, caller: str, number: int) -> int | None:
        """The number that a change has in a caller's own list, if the caller sees it and it is one of the last."""
        return next((own for own, entry in self.numbers_of(caller) if entry.number == number), None)

    def attribute(self, found: dict[int, Made]) -> None:
        """Notes who made the changes of which it was not known."""
        for entry in self.entries:
            entry.made = entry.made or found.get(entry.number)
        self.pending = [one for one in self.pending if one.number not in found]


def gone(folder: Folder, zone: str) -> None:
    """Removes what is kept of a zone that the office no longer has."""
    name = hashlib.sha256(zone.encode()).hexdigest()[:32]
    for end in "json", "sets":
        folder.remove(f"{name}.{end}")
