"""A zone as far as its records are listed: what operations make of it (RFC 2136 section 3.4.2), and what leads from one to another."""

import bisect
from collections.abc import Iterable, Iterator

from . import data, names
from .data import Record
from .tables import TYPES
from .update import Group, Part

LARGE = 60  # records of a set that is guarded by its existence and not by its data
Set = tuple[str, str]  # a name and a type


class Zone:
    """Records of a zone of this origin by their owners, in record order at each."""

    def __init__(self, origin: str, records: Iterable[Record] = ()) -> None:
        self.origin = origin
        self.nodes: dict[str, list[Record]] = {}
        for record in records:
            self.nodes.setdefault(record.name, []).append(record)
        self.existing: set[str] | None = None

    def at(self, name: str) -> list[Record]:  # pylint: disable=invalid-name
        """The records at a name."""
        return self.nodes.get(name, [])

    def set_of(self, name: str, kind: str) -> list[Record]:
        """The records of a type at a name."""
        return [record for record in self.at(name) if record.kind == kind]

    def records(self) -> Iterator[Record]:
        """All records, those at a name together."""
        for node in self.nodes.values():
            yield from node

    def sets(self) -> dict[Set, list[Record]]:
        """All sets."""
        found: dict[Set, list[Record]] = {}
        for record in self.records():
            found.setdefault((record.name, record.kind), []).append(record)
        return found

    def put(self, name: str, node: list[Record]) -> None:
        """Puts records in the place of those at a name."""
        if node:
            self.nodes[name] = node
        else:
            self.nodes.pop(name, None)
        self.existing = None

    def exists(self, name: str) -> bool:
        """Whether a record is at a name or below it."""
        if self.existing is None:
            self.existing = set()
            for owner in self.nodes:
                place = owner
                while place not in self.existing:
                    self.existing.add(place)
                    if place in (self.origin, "."):
                        break
                    place = names.parent(place)
        return name in self.existing

    def copy(self) -> "Zone":
        """The same zone, which does not change with this one."""
        made = Zone(self.origin)
        made.nodes = dict(self.nodes)
        return made

    def make(self, part: Part) -> str | None:
        """Does what an operation does, and gives a reason where that is nothing."""
        before = self.at(part.name)
        after, why = effect(self.origin, before, part)
        if after == before:
            return why or "it is so already"
        self.put(part.name, after)
        return None


# What an operation does to the records at its name, and why it does nothing

Effect = tuple[list[Record], str | None]


def effect(origin: str, node: list[Record], part: Part) -> Effect:
    """The records at a name after an operation."""
    if part.word == "add":
        return add(origin, node, Record(part.name, part.ttl or 0, part.kind or "", part.data or ""))
    if part.word == "delete-record":
        return delete_record(origin, node, part)
    if part.word == "delete-rrset":
        if part.name == origin and part.kind in ("SOA", "NS"):
            return node, f"the {part.kind} of the zone stays"
        return [one for one in node if one.kind != part.kind], f"no {part.kind} is there"
    if part.name == origin:
        return [one for one in node if one.kind in ("SOA", "NS")], "the SOA and NS of the zone stay"
    return [], "no record is there"


def add(origin: str, node: list[Record], new: Record) -> Effect:
    """Adds a record to its set, which gets its TTL."""
    if new.kind == "SOA":
        return add_soa(node, new)
    if new.kind == "CNAME":
        if any(one.kind != "CNAME" for one in node):
            return node, "other records are at the name, and an alias is alone: delete them first"
        return [new], "it is there already"
    if new.kind == "DS" and new.name == origin:
        return node, "the zone's own DS is in the zone above"
    if any(one.kind == "CNAME" for one in node):
        return node, "an alias is at the name, beside which nothing is added: delete the CNAME first"
    others = [one._replace(ttl=new.ttl) if one.kind == new.kind else one for one in node
              if one.kind != new.kind or one.data != new.data]
    bisect.insort(others, new, key=local_order)
    return others, "it is there already"


def local_order(record: Record) -> tuple[bool, int, str]:
    """The order of the records at a name."""
    return record.kind != "SOA", TYPES[record.kind][0], record.data


def add_soa(node: list[Record], new: Record) -> Effect:
    """Puts an SOA in the place of one with a lesser serial."""
    old = next((one for one in node if one.kind == "SOA"), None)
    if old is None:
        return node, "there is no SOA to replace"
    if not data.serial_less(data.soa_serial(old.data), data.soa_serial(new.data)):
        return node, "the serial is not greater than the zone's"
    return [new] + [one for one in node if one.kind != "SOA"], None


def delete_record(origin: str, node: list[Record], part: Part) -> Effect:
    """Deletes a record: but the SOA and the last NS of the zone."""
    if part.name == origin and part.kind == "SOA":
        return node, "the SOA of the zone stays"
    if part.name == origin and part.kind == "NS" and not any(one.kind == "NS" and one.data != part.data for one in node):
        return node, "the last NS of the zone stays"
    return [one for one in node if one.kind != part.kind or one.data != part.data], "it is not there"


# What leads from one zone to another

def addition(record: Record) -> Part:
    """The operation that adds a record."""
    return Part("add", record.name, record.kind, record.data, record.ttl)


def deletion(record: Record) -> Part:
    """The operation that deletes a record."""
    return Part("delete-record", record.name, record.kind, record.data)


def changed_sets(old: Zone, new: Zone) -> list[tuple[list[Record], list[Record]]]:
    """The sets in which two zones differ, but that of the SOA: as they are in both, in record order."""
    before, after = old.sets(), new.sets()
    found = [(before.get(key, []), after.get(key, [])) for key in {**before, **after} if before.get(key) != after.get(key)]
    found = [(gone, come) for gone, come in found if (gone or come)[0].kind != "SOA" and sorted(gone) != sorted(come)]
    return sorted(found, key=lambda pair: data.order((pair[0] or pair[1])[0]))


def next_soa(old: Zone, new: Zone, is_only: bool) -> Record | None:
    """The SOA that has to be added so that the zone gets the fields of the new one: with its serial, if that is greater."""
    before, after = old.set_of(old.origin, "SOA"), new.set_of(old.origin, "SOA")
    if not before or not after:
        return None
    was, wanted = data.soa_serial(before[0].data), data.soa_serial(after[0].data)
    is_greater = data.serial_less(was, wanted)
    following = data.soa_at(before[0].data, (was + 1) % (1 << 32))
    target = after[0] if is_greater else after[0]._replace(data=data.soa_at(after[0].data, (was + 1) % (1 << 32)))
    same = (target.ttl, target.data) == (before[0].ttl, following)
    return target if not same or is_only and is_greater else None


def set_operations(gone: list[Record], come: list[Record]) -> list[Part]:
    """What leads from a set to another: deletions, and then additions."""
    kept = {record.data for record in come}
    before = set(gone)
    return [deletion(one) for one in gone if one.data not in kept] + [addition(one) for one in come if one not in before]


def guards(old: Zone, gone: list[Record], come: list[Record], is_first: bool, can_test_names: bool = True) -> list[Part]:
    """Prerequisites under which a set is as it is in the old zone, and nothing keeps out what comes (docs/formats.md, `diff`)."""
    name, kind = (gone or come)[0].name, (gone or come)[0].kind
    if len(gone) > LARGE:
        return [Part("rrset-exists", name, kind)]
    if gone:
        return [Part("rrset-equals", name, kind, one.data) for one in gone]
    if not old.at(name) and can_test_names:
        return [Part("name-unused", name)] if is_first else []
    if kind == "CNAME":
        return [Part("rrset-absent", name, other) for other in TYPES if not old.set_of(name, other)] if can_test_names else \
            [Part("rrset-absent", name, "CNAME")]
    alone = [Part("rrset-absent", name, "CNAME")] if is_first and not old.set_of(name, "CNAME") else []
    return [Part("rrset-absent", name, kind), *alone]


def turn(part: Part, origin: str) -> int:
    """When an operation comes among those at its name: servers of the zone, what goes, what comes."""
    if part.word == "add" and part.kind == "NS" and part.name == origin:
        return 0
    return 2 if part.word == "add" else 1


def groups(old: Zone, new: Zone, guarded: bool, can_test_names: bool = True) -> list[Group]:
    """What leads from one zone to another, by names: servers of the zone first, an SOA last."""
    found: dict[str, Group] = {}
    changed = changed_sets(old, new)
    firsts = {come[0].name: come for gone, come in reversed(changed) if not gone}
    for gone, come in changed:
        name = (gone or come)[0].name
        group = found.setdefault(name, Group())
        if guarded:
            group.prerequisites += guards(old, gone, come, firsts.get(name) is come, can_test_names)
        group.operations += set_operations(gone, come)
    for group in found.values():
        group.operations.sort(key=lambda part: turn(part, old.origin))
    soa = next_soa(old, new, not found)
    made = list(found.values())
    if soa:
        there = [Part("rrset-equals", soa.name, "SOA", one.data) for one in old.set_of(soa.name, "SOA")] if guarded else []
        made.append(Group(there, [addition(soa)]))
    return made
