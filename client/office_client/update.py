"""Updates: prerequisites and operations in a zone, what each asks of the policy, and how many fit into one request."""

import json
from collections.abc import Iterable
from dataclasses import dataclass, field
from typing import Any, NamedTuple
from urllib.parse import quote

from . import names
from .tables import OCTETS_MAX, OPERATIONS_MAX, PREREQUISITES_MAX, TYPES
from .telling import Bad

Request = tuple[str, dict[str, Any]]  # a path of the office, and the body without its identifier
Point = tuple[str, str, str]  # a name, a type and an action, of which the policy decides
ROOM = 120  # octets of a body for the identifier and what is around the lists


class Part(NamedTuple):
    """An item of an update: a prerequisite or an operation, by its word."""
    word: str
    name: str
    kind: str | None = None
    data: str | None = None
    ttl: int | None = None

    def fields(self, key: str) -> dict[str, Any]:
        """As the body of a request has it."""
        every = {key: self.word, "name": self.name, "ttl": self.ttl, "type": self.kind, "data": self.data}
        return {name: value for name, value in every.items() if value is not None}

    def line(self) -> str:
        """As an item line of the office."""
        return " ".join(str(one) for one in (self.word, self.name, self.ttl, self.kind, self.data) if one is not None)


@dataclass
class Update:
    """Prerequisites and operations in a zone, and the line that each was asked for by."""
    zone: str | None = None
    prerequisites: list[Part] = field(default_factory=list)
    operations: list[Part] = field(default_factory=list)
    sources: dict[str, list[str | None]] = field(default_factory=lambda: {"prerequisites": [], "operations": []})

    def require(self, source: str | None, part: Part) -> None:
        """Appends a prerequisite."""
        self.prerequisites.append(part)
        self.sources["prerequisites"].append(source)

    def change(self, source: str | None, part: Part) -> None:
        """Appends an operation."""
        self.operations.append(part)
        self.sources["operations"].append(source)

    def __bool__(self) -> bool:
        return bool(self.prerequisites or self.operations)

    def first_name(self) -> str:
        """The name by which its zone is found."""
        return (self.operations + self.prerequisites)[0].name

    def lines(self) -> list[str]:
        """As item lines of the office."""
        return [part.line() for part in self.prerequisites + self.operations]

    def origin(self) -> str:
        """Its zone."""
        if self.zone is None:
            raise Bad("which zone? use --zone, $OFFICE_ZONE or a zone statement")
        return self.zone

    def request(self) -> Request:
        """The path and the body that it is sent by."""
        tests = [part.fields("test") for part in self.prerequisites]
        body = {"prerequisites": tests} if tests else {}
        return path("zones", self.origin(), "updates"), {**body, "operations": [part.fields("op") for part in self.operations]}

    def copy(self) -> "Update":
        """The same update, which does not change with this one."""
        return Update(self.zone, list(self.prerequisites), list(self.operations), {key: list(one) for key, one in self.sources.items()})


@dataclass
class Delegation(Update):
    """A delegation. Its operations are those that the office makes of it."""
    child: str = ""
    ttl: int = 0
    servers: list[tuple[str, list[str]]] = field(default_factory=list)

    def first_name(self) -> str:
        """The zone above the child has the delegation."""
        return names.parent(self.child)

    def request(self) -> Request:
        servers = [{"name": name, "addresses": addresses} for name, addresses in self.servers]
        return path("zones", self.origin(), "delegations"), {"child": self.child, "ttl": self.ttl, "servers": servers}


def delegation(child: str, ttl: int, servers: list[tuple[str, list[str]]]) -> Delegation:
    """The delegation of a child to servers, of which those within it have addresses."""
    made = Delegation(child=child, ttl=ttl, servers=servers)
    inside = [(name, addresses) for name, addresses in servers if names.is_within(name, child)]
    for name, addresses in inside:
        if not addresses:
            raise Bad(f"{name} is within {child} and has no address, so that no one could find it: write {name}=ADDRESS")
    made.change(None, Part("delete-rrset", child, "NS"))
    for name, _ in inside:
        made.change(None, Part("delete-rrset", name, "A"))
        made.change(None, Part("delete-rrset", name, "AAAA"))
    for name, _ in servers:
        made.change(None, Part("add", child, "NS", name, ttl))
    for name, addresses in inside:
        for address in addresses:
            made.change(None, Part("add", name, "AAAA" if ":" in address else "A", address, ttl))
    return made


def compact(value: Any) -> str:
    """A value as JSON without white space."""
    return json.dumps(value, separators=(",", ":"))


def path(*parts: str) -> str:
    """A path of the office."""
    return "/" + "/".join(quote(part, safe="") for part in parts)


def points(part: Part, is_operation: bool, origin: str) -> list[Point]:
    """What an item asks of the policy, by type number: prerequisites to check; operations to add and delete, and to delegate where
    the records make a delegation."""
    if not is_operation:
        kinds = [part.kind] if part.kind else [kind for kind in TYPES if kind != "SOA"]
        return [(part.name, kind, "check") for kind in kinds]
    if part.kind:
        kinds = [part.kind]
    else:
        kinds = [kind for kind in TYPES if kind != "SOA" and (part.name != origin or kind not in ("NS", "DS"))]
    change = "add" if part.word == "add" else "delete"
    return [(part.name, kind, "delegate" if kind == "DS" or kind == "NS" and part.name != origin else change) for kind in kinds]


def points_of(update: Update) -> list[Point]:
    """All that an update asks of the policy, each once, in its order."""
    origin = update.origin()
    found = [point for part in update.prerequisites for point in points(part, False, origin)]
    found += [point for part in update.operations for point in points(part, True, origin)]
    return list(dict.fromkeys(found))


# Mistakes

def refuse_mistakes(update: Update) -> None:
    """Refuses what the office would refuse of the items by themselves: a name that is not in the zone, and two SOA."""
    origin = update.origin()
    for key, parts in (("prerequisites", update.prerequisites), ("operations", update.operations)):
        for part, source in zip(parts, update.sources[key]):
            if not names.is_within(part.name, origin):
                where = f"{source}: " if source else ""
                meant = "" if part.name == "." else f" (if {part.name}{origin} is meant, write it whole)"
                raise Bad(f"{where}{part.name} is not within the zone {origin}{meant}; nothing was sent")
    if sum(part.word == "add" and part.kind == "SOA" for part in update.operations) > 1:
        raise Bad("two operations add an SOA; nothing was sent")


# Limits

def octets(part: Part, key: str) -> int:
    """How many octets an item takes in a body."""
    return len(compact(part.fields(key))) + 1


def excess(update: Update) -> str | None:
    """What of an update is too much for one request."""
    if len(update.operations) > OPERATIONS_MAX:
        return f"{len(update.operations)} operations, and {OPERATIONS_MAX} fit into one update"
    if len(update.prerequisites) > PREREQUISITES_MAX:
        return f"{len(update.prerequisites)} prerequisites, and {PREREQUISITES_MAX} fit into one update"
    size = len(compact(update.request()[1])) + ROOM
    return f"{size} octets, and {OCTETS_MAX} fit into one update" if size > OCTETS_MAX else None


@dataclass
class Group:
    """What belongs together: the operations at a name, and the prerequisites that guard them."""
    prerequisites: list[Part] = field(default_factory=list)
    operations: list[Part] = field(default_factory=list)

    def size(self) -> int:
        """Its octets in a body."""
        return sum(octets(part, "test") for part in self.prerequisites) + sum(octets(part, "op") for part in self.operations)

    def pieces(self) -> Iterable["Group"]:
        """The group, or parts of it that fit into an update each; the guards come with the first."""
        if len(self.operations) <= OPERATIONS_MAX and self.size() <= OCTETS_MAX - ROOM:
            yield self
            return
        piece = Group(list(self.prerequisites))
        size = piece.size()
        for part in self.operations:
            more = octets(part, "op")
            if len(piece.operations) == OPERATIONS_MAX or size + more > OCTETS_MAX - ROOM:
                yield piece
                piece, size = Group(), 0
            piece.operations.append(part)
            size += more
        yield piece


def parts_of(zone: str, groups: Iterable[Group]) -> list[Update]:
    """The fewest updates in order that have all of the groups, none of which is divided if it fits into one."""
    updates: list[Update] = []
    size = 0
    for piece in (piece for group in groups for piece in group.pieces()):
        more = piece.size()
        last = updates[-1] if updates else None
        if last is None or len(last.operations) + len(piece.operations) > OPERATIONS_MAX or size + more > OCTETS_MAX - ROOM \
                or len(last.prerequisites) + len(piece.prerequisites) > PREREQUISITES_MAX:
            last = Update(zone)
            updates.append(last)
            size = 0
        for part in piece.prerequisites:
            last.require(None, part)
        for part in piece.operations:
            last.change(None, part)
        size += more
    return updates


def divided(update: Update) -> list[Update]:
    """An update that is too large as several, in order: its prerequisites are in the first."""
    if len(update.prerequisites) > PREREQUISITES_MAX:
        raise Bad(f"{excess(update)}: prerequisites are not divided")
    parts = parts_of(update.origin(), [Group(update.prerequisites), *(Group([], [part]) for part in update.operations)])
    place = 0
    for part in parts:
        part.sources = {"prerequisites": list(update.sources["prerequisites"]) if not place else [],
                        "operations": update.sources["operations"][place:place + len(part.operations)]}
        place += len(part.operations)
    return parts
