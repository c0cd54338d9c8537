"""Which update of the audit trail made which change. The trail does not say it: an update that was repeated, or had nothing to do, has a
line like others. So a change is given to the last update before it in the trail that asks for all of it. The line of an update may come
after its change was seen: one that asks for other data of the same record sets is taken in a later run only."""

import contextlib
import datetime
import ipaddress

from .history import History, Made, Pending
from .names import Labels, is_within, labels, record_of
from .policy import Policy
from .trail import Operation, Update

SLACK = 20  # updates by which the trail's order may differ from that of the changes
MOST = 200  # updates that are looked at for a change
EARLY_SECONDS = 2.0  # by which an update may be in the trail before one whose change came first
EARLY = 75.0  # seconds that an update without a body may be in the trail before the run that saw its change

Key = tuple[Labels, str]


def when_of(moment: float) -> str:
    """A time as RFC 3339 writes it."""
    return datetime.datetime.fromtimestamp(moment, datetime.timezone.utc).strftime("%Y-%m-%dT%H:%M:%SZ")


def made_by(update: Update) -> Made:
    """Who made a change, by its update."""
    return Made(update.caller, update.person, when_of(update.when), update.id)


def same_data(kind: str, one: str, other: str) -> bool:
    """Whether two texts may be the same data. Of character-strings that have several forms only their kind is compared."""
    if kind == "TXT":
        return True
    with contextlib.suppress(ValueError):
        if kind == "AAAA":
            return ipaddress.ip_address(one) == ipaddress.ip_address(other)
        return [normal(word) for word in one.split()] == [normal(word) for word in other.split()]
    return False


def normal(word: str) -> Labels | str:
    """A word of data in one form."""
    if word.endswith("."):
        return labels(word)
    return str(int(word)) if word.isascii() and word.isdigit() else word.lower()


class Asked:
    """What an update asks for, by record set."""

    def __init__(self, operations: list[Operation]) -> None:
        self.adds: dict[Key, list[str]] = {}
        self.deletes: dict[Key, list[str]] = {}
        self.children: list[Labels] = []
        for one in operations:
            with contextlib.suppress(ValueError):
                key = labels(one.name), one.type
                if one.op == "add":
                    self.adds.setdefault(key, []).append(one.data)
                elif one.op == "delegate":
                    self.children.append(key[0])
                elif one.op.startswith("delete-"):
                    self.deletes.setdefault(key, []).append(one.data)

    def explains(self, change: "Seen", exactly: bool) -> bool:
        """Whether it asks for all of a change, also for its data if that is wanted."""
        return all(self.adds_one(*one, change, exactly) for one in change.added) \
            and all(self.removes_one(*one, exactly) for one in change.removed)

    def delegates(self, key: Key) -> bool:
        """Whether a record set is of a delegation that it makes."""
        return key[1] in ("NS", "A", "AAAA") and any(is_within(key[0], child) for child in self.children)

    def adds_one(self, key: Key, data: str, change: "Seen", exactly: bool) -> bool:
        """Whether it adds a record, or gives its set another TTL."""
        if key not in self.adds:
            return self.delegates(key)
        return not exactly or (key, data) in change.removed or any(same_data(key[1], one, data) for one in self.adds[key])

    def removes_one(self, key: Key, data: str, exactly: bool) -> bool:
        """Whether it deletes a record, or what has it: its set, its name; or puts another in its place."""
        if key in self.adds or (key[0], "") in self.deletes or self.delegates(key):
            return True
        return any(not exactly or not one or same_data(key[1], one, data) for one in self.deletes.get(key, []))


class Seen:  # pylint: disable=too-few-public-methods
    """A change as it is compared with updates: without the SOA of which only the serial moved."""

    def __init__(self, change: Pending) -> None:
        self.number, self.since = change.number, change.since
        self.removed, self.added = ([((labels(one.name), one.type), one.data) for one in map(record_of, lines)]
                                    for lines in (change.removed, change.added))
        if any(key[1] != "SOA" for key, _ in self.removed + self.added):
            self.removed = [one for one in self.removed if one[0][1] != "SOA"]
            self.added = [one for one in self.added if one[0][1] != "SOA"]


def may_make(policy: Policy, caller: str, origin: Labels, change: Seen) -> bool:
    """Whether the policy lets a caller make a change."""
    def granted(key: Key, action: str) -> bool:
        name, kind = key
        delegates = kind == "DS" or (kind == "NS" and name != origin)
        return policy.may(caller, name, kind, "delegate" if delegates else action)
    return all(granted(key, "delete") or granted(key, "add") for key, _ in change.removed) \
        and all(granted(key, "add") for key, _ in change.added)


class Waiting:
    """The updates of a zone that wait for their changes."""

    def __init__(self, updates: list[Update]) -> None:
        self.updates = updates
        self.asked = [None if one.operations is None else Asked(one.operations) for one in updates]
        self.free = set(range(len(updates)))
        self.places: dict[Key, list[int]] = {}
        self.delegating: list[int] = []
        for place, asked in enumerate(self.asked):
            for key in {*asked.adds, *asked.deletes} if asked else ():
                self.places.setdefault(key, []).append(place)
            if asked and asked.children:
                self.delegating.append(place)

    def near(self, change: Seen) -> list[int]:
        """The free updates that may ask for a change, in order."""
        (name, kind), _ = (change.added + change.removed)[0]
        return sorted({*self.places.get((name, kind), ()), *self.places.get((name, ""), ()), *self.delegating} & self.free)

    def explains(self, place: int, change: Seen, exactly: bool) -> bool:
        """Whether an update asks for a change."""
        asked = self.asked[place]
        return asked is not None and asked.explains(change, exactly)

    def last(self, change: Seen, before: int, trailed: float) -> int | None:
        """The last update, about before a place, that asks for a change: with its data, or else for its record sets, if the change was seen
        before the trail was read; else the one with its data may come with the next run."""
        near = [place for place in self.near(change) if place < before + SLACK][-MOST:]
        ways = (True, False) if change.since < trailed else (True,)
        found = [place for exactly in ways for place in reversed(near) if self.explains(place, change, exactly)][:1]
        return found[0] if found else None

    def first(self, change: Seen, after: int, last: int) -> int:
        """The first update after a place and before the last that asks for a change, if the last is not the first."""
        exactly = self.explains(last, change, True)
        near = [place for place in self.near(change) if after < place < last][:MOST]
        return next((place for place in near if self.explains(place, change, exactly)), last)

    def last_of_one(self, change: Seen, policy: Policy, origin: Labels) -> int | None:
        """Without bodies: the last update of the only one who may have made a change."""
        could = [place for place in self.free if self.asked[place] is None and self.updates[place].when > change.since - EARLY
                 and may_make(policy, self.updates[place].caller, origin, change)]
        who = {(self.updates[place].caller, self.updates[place].person) for place in could}
        return max(could) if len(who) == 1 else None


def find(history: History, updates: list[Update], policy: Policy, trailed: float) -> tuple[dict[int, Made], list[Update]]:
    """Who made the pending changes of a zone, as far as it is found, and the updates that wait further; the trail was read at this time.
    From the last change on, each
    gets the last update that asks for it; and then, from the first on, the first one after the update of the change before. Where a
    zone's history is read for the first time, the trail may begin long before, and the last ones stay."""
    known = {(one.made.caller, one.made.id) for one in history.entries if one.made and one.made.id}
    waiting = Waiting([one for one in updates if (one.caller, one.id) not in known and one.when >= history.reached - EARLY_SECONDS])
    changes = [Seen(one) for one in history.pending]
    places: dict[int, int] = {}
    before = len(waiting.updates)
    for change in reversed(changes):
        place = waiting.last(change, before, trailed)
        if place is None:
            place = waiting.last_of_one(change, policy, history.origin)
        if place is not None:
            places[change.number] = place
            waiting.free.discard(place)
            before = min(before, place)
    if not history.is_new:
        move_forward(waiting, changes, places)
    found = {number: made_by(waiting.updates[place]) for number, place in places.items()}
    history.reached = max([history.reached, *(waiting.updates[place].when for place in places.values())])
    return found, [waiting.updates[place] for place in sorted(waiting.free)]


def move_forward(waiting: Waiting, changes: list[Seen], places: dict[int, int]) -> None:
    """Gives each change the first update that asks for it, after that of the change before: what asks for the same later has nothing to
    do."""
    after = -1
    for change in changes:
        last = places.get(change.number)
        if last is not None and waiting.asked[last] is not None:
            place = waiting.first(change, after, last)
            waiting.free.add(last)
            waiting.free.discard(place)
            places[change.number] = place
            after = max(after, place)
