"""Follows zones: each change that the office lists becomes a commit, in order, from where the branch is."""

import dataclasses
import json
import threading
import time
from collections.abc import Callable, Iterator
from typing import Any

from office_asking import Change, Kept, NoReply, NotGiven, Office, TooLong
from office_records import record_of

from .repository import Author, Commit, Found, Repository
from .trail import Request, Trail
from .zone import Diverged, Zone, file_of

BATCH = 100  # commits that are added at once
PATIENCE = 3.0  # seconds in which the line of a change comes into the trail
LATE = 60  # seconds that the trail is read before what is known of it
TIDY = 500  # commits after which the repository is tidied
NOTED = 600  # seconds after which it is noted that there was nothing new
SEEN = "seen"  # the file of state: what the branch has, so that it need not be read to its beginning


@dataclasses.dataclass
class Feed:
    """A zone: the number of its last change in the branch, if it has one, caller and identifier of the last request that is known, and
    the zone, if it was read."""
    zone: str
    number: int | None = None
    request: tuple[str, str] = ("", "")
    text: Zone | None = None
    look_at: float = 0.0
    trouble: str | None = None

    @property
    def file(self) -> str:
        """The name of the zone's file."""
        return file_of(self.zone)


@dataclasses.dataclass
class Batch:
    """Changes that are added at once: the number of the last one that was, and why the next one was not."""
    changes: list[Change]
    made: int | None = None
    problem: Diverged | None = None


def message_of(zone: str, number: int, subject: str, request: Request | None = None) -> str:
    """The message of a commit."""
    trailers = [f"Office-Zone: {zone}", f"Office-Change: {number}"]
    if request:
        trailers += [f"Office-Caller: {request.caller}", f"Office-Update: {request.identifier}"]
    return f"{subject}\n\n" + "\n".join(trailers) + "\n"


def subject_of(zone: str, change: Change) -> str:
    """The names that a change is about, as far as a line goes."""
    names = dict.fromkeys(one.name for one in map(record_of, change.removed + change.added) if one.type != "SOA")
    words, shown = "", 0
    for name in names:
        if shown and len(words) + len(name) > 70:
            break
        words, shown = f"{words} {name[:200]}", shown + 1
    more = f" and {len(names) - shown} more" if shown < len(names) else ""
    return f"{zone}:{words or ' SOA'}{more}"


def place_of(zone: Zone, changes: list[Change]) -> int:
    """After how many of these changes a zone is as it was read: each change has another SOA record."""
    if zone.soa is None:
        raise Diverged("the caller does not see the SOA record")
    found = next((at for at in range(len(changes), 0, -1) if zone.soa in changes[at - 1].added), 0)
    if changes and not found and zone.soa not in changes[0].removed:
        raise Diverged("the zone is not that of these changes")
    return found


@dataclasses.dataclass
class Follower:  # pylint: disable=too-many-instance-attributes
    """Reads the changes of zones, each so many seconds, and adds them to the branch."""
    office: Office
    repository: Repository
    kept: Kept
    feeds: list[Feed]
    first: int
    every: int
    say: Callable[[str], None]
    trail: Trail | None = None
    since: float | None = None  # when the trail was last read for all zones
    added: int = 0
    ending: threading.Event = dataclasses.field(default_factory=threading.Event)

    def begin(self, trail: str | None) -> None:
        """Finds where the branch is, and opens the trail there."""
        self.repository.begin()
        octets = self.kept.read(SEEN)
        seen = json.loads(octets) if octets else {}
        zones: dict[str, list[Any]] = seen.get("zones", {})
        if all(feed.zone in zones for feed in self.feeds) and self.repository.has(seen["head"]):
            self.since = seen["since"]
            for feed in self.feeds:
                feed.number, *request = zones[feed.zone]
                feed.request = request[0], request[1]
            found = self._newest(seen["head"])
        else:
            found = self._newest(None)
            if len(found) == len(self.feeds):
                self.since = min(one.time for one in found.values())
        for feed in self.feeds:
            if feed.zone in found:
                one = found[feed.zone]
                feed.number, feed.request = one.number, (one.caller, one.update) if one.caller else feed.request
        if trail:
            self.trail = self._trail(trail)

    def _trail(self, path: str) -> Trail:
        """The trail after the requests that are known."""
        found = Trail(path, [feed.zone for feed in self.feeds], None if self.since is None else self.since - LATE)
        found.read()
        for feed in self.feeds:
            found.resume(feed.zone, *feed.request)
        return found

    def _newest(self, since: str | None) -> dict[str, Found]:
        """The last commit of each zone that has one, after one of the branch."""
        zones, found = {feed.zone for feed in self.feeds}, dict[str, Found]()
        for one in self.repository.commits(since):
            if one.zone in zones:
                found.setdefault(one.zone, one)
            if len(found) == len(zones):
                break
        return found

    def look(self, feed: Feed) -> bool:
        """Adds what is new in a zone. Whether the zone could be read, and fits the branch."""
        feed.look_at = time.monotonic() + self.every
        read = self.trail.read() if self.trail else 0
        try:
            changes = self._news(feed)
            self._add(feed, changes)
        except (NotGiven, NoReply, TooLong, Diverged) as error:
            self._report(feed, str(error))
            feed.text = None
            return False
        if self.trail:
            self.trail.forget(feed.zone, read)
        self._report(feed, None)
        return True

    def _report(self, feed: Feed, trouble: str | None) -> None:
        """Tells what hinders a zone, once, and that it goes on."""
        if trouble != feed.trouble:
            self.say(f"{feed.zone}: {trouble or 'goes on'}")
        feed.trouble = trouble

    def _news(self, feed: Feed) -> list[Change]:
        """The changes of a zone that the branch does not have, after a first commit if it has nothing just before them."""
        if feed.number is None or self.first > feed.number + 1:
            return self._first(feed)
        if feed.text is not None:
            return self.office.changes(feed.zone, feed.number + 1)
        zone = self._read(feed)
        changes = self.office.changes(feed.zone, max(feed.number, 1))
        if feed.number:
            if not changes or changes[0].number != feed.number or zone.soa not in changes[0].added:
                raise Diverged(f"change {feed.number} of the branch is not the office's: that has another history")
            changes = changes[1:]
        feed.text = zone
        return changes

    def _read(self, feed: Feed) -> Zone:
        octets = self.repository.blob(self.repository.ref, feed.file)
        if octets is None:
            raise Diverged(f"the branch has no {feed.file}")
        return Zone(octets.decode())

    def _first(self, feed: Feed) -> list[Change]:
        """Adds the zone before the first change that is followed, as the changes since then lead back to it; and gives them."""
        before = self.first - 1
        changes = self.office.changes(feed.zone, max(before, 1))
        reply = self.office.get(feed.zone, "file")
        if reply.status != 200:
            raise NotGiven(reply)
        zone = Zone(reply.text)
        changes += self.office.changes(feed.zone, changes[-1].number + 1 if changes else max(before, 1))
        if before and (not changes or changes[0].number != before):
            raise Diverged(f"there is no change {before}")
        made = place_of(zone, changes)
        if made < min(before, 1):
            raise Diverged(f"the zone is that of before change {before}")
        for change in reversed(changes[1 if before else 0:made]):
            zone.undo(change)
        message = message_of(feed.zone, before, f"{feed.zone}: as after change {before}" if before else f"{feed.zone}: as imported")
        self.repository.add([self._commit_of(feed, zone, message, None)], int(time.time()))
        feed.number, feed.text = before, zone
        self.added += 1
        return changes[1:] if before else changes

    def _commit_of(self, feed: Feed, zone: Zone, message: str, request: Request | None) -> Commit:
        if request:
            author = Author(request.caller, f"{request.caller}@{self.repository.office}", int(request.ended) - 1)
        else:
            author = Author(self.repository.office, self.repository.email, int(time.time()))
        return Commit(author, message, feed.file, zone.text())

    def _add(self, feed: Feed, changes: list[Change]) -> None:
        """Adds a commit for each change."""
        until = time.monotonic() + PATIENCE
        for start in range(0, len(changes), BATCH):
            batch = Batch(changes[start:start + BATCH])
            self.repository.add(self._made(feed, batch, until), int(time.time()))
            feed.number = batch.made or feed.number
            self.added += len(batch.changes)
            if batch.problem:
                raise batch.problem
            if self.ending.is_set():
                break
        if changes:
            self._note()

    def _made(self, feed: Feed, batch: Batch, until: float) -> Iterator[Commit]:
        """The commits of changes, as far as they fit the zone."""
        assert feed.text is not None and feed.number is not None
        for number, change in enumerate(batch.changes, feed.number + 1):
            try:
                if change.number != number:
                    raise Diverged(f"it comes where {number} is to come")
                feed.text.apply(change)
            except Diverged as problem:
                batch.problem = Diverged(f"change {change.number} does not fit the branch: {problem}")
                return
            request = self._request(feed, change, until)
            yield self._commit_of(feed, feed.text, message_of(feed.zone, number, subject_of(feed.zone, change), request), request)
            batch.made = number
            if request:
                feed.request = request.caller, request.identifier

    def _request(self, feed: Feed, change: Change, until: float) -> Request | None:
        """The request that made a change, by the trail, whose line may come a moment later."""
        while self.trail:
            is_late = time.monotonic() > until
            found = self.trail.request(feed.zone, change, is_late)
            if found or is_late:
                return found
            time.sleep(0.05)
            self.trail.read()
        return None

    def _note(self) -> None:
        """Keeps what the branch has, so that the next start need not read it back."""
        self.kept.write(SEEN, json.dumps({
            "head": self.repository.commit_of(self.repository.ref), "since": self.since,
            "zones": {feed.zone: [feed.number, *feed.request] for feed in self.feeds if feed.number is not None}}).encode())
        if self.added >= TIDY:
            self.added = 0
            self.repository.tidy()

    def follow(self) -> None:
        """Does in each zone what is due, until it is to end."""
        note_at = 0.0
        while not self.ending.is_set():
            began = time.time()
            looked = [self.look(feed) for feed in self.feeds if time.monotonic() >= feed.look_at and not self.ending.is_set()]
            if len(looked) == len(self.feeds) and all(looked) and not self.ending.is_set():
                self.since = began
                if time.monotonic() >= note_at:
                    self._note()
                    note_at = time.monotonic() + NOTED
            self.ending.wait(max(0.0, min(feed.look_at for feed in self.feeds) - time.monotonic()))

    def once(self) -> int:
        """Adds what there is. The status."""
        began = time.time()
        if not all([self.look(feed) for feed in self.feeds]):  # pylint: disable=use-a-generator
            return 1
        self.since = began
        self._note()
        return 0
