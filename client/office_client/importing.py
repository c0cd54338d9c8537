"""Master files on their way into a zone: what differs, guarded updates of it, and how to go on where an earlier run was ended."""

import hashlib
from collections.abc import Callable
from typing import Any

from . import checking, data, names, planning, reading, sending, zone
from .data import Record
from .listing import Listing
from .master import Records
from .pending import Pending
from .session import Session
from .telling import Bad, Refused
from .update import Part, Update, parts_of, points
from .zone import Zone


def conflict(kind: str, there: list[Record], wanted: list[Record]) -> str | None:
    """Why a set of a file is not only added to the one that is there."""
    if kind == "SOA":
        same = [data.soa_at(one.data, 0) for one in there] == [data.soa_at(one.data, 0) for one in wanted]
        return None if same else "the zone has another SOA"
    mine = {one.data for one in wanted}
    others = [one.data for one in there if one.data not in mine]
    if others:
        return f"there is {others[0]}" + (f" and {len(others) - 1} more" if len(others) > 1 else "")
    return f"it has the TTL {there[0].ttl} there" if there[0].ttl != wanted[0].ttl else None


def beside_alias(old: Zone, name: str, kind: str) -> str | None:
    """Why a new set cannot be at a name: an alias is alone."""
    there = [one.kind for one in old.at(name)]
    if kind == "CNAME" and any(one != "CNAME" for one in there):
        return "other records are at the name, and an alias is alone: delete them first"
    if kind != "CNAME" and "CNAME" in there:
        return "an alias is at the name, beside which nothing is added: delete the CNAME first"
    return None


def sets_of(file: Records) -> dict[tuple[str, str], tuple[list[Record], int]]:
    """The sets of a file, each with the line of its first record."""
    found: dict[tuple[str, str], tuple[list[Record], int]] = {}
    for record, line in file.lined():
        found.setdefault((record.name, record.kind), ([], line))[0].append(record)
    return found


def with_file(session: Session, old: Zone, file: Records) -> Zone:
    """The zone with the records of a file. A set that is there with other records is a conflict, or is replaced with --replace."""
    new, wrong = old.copy(), []
    for (name, kind), (records, line) in sets_of(file).items():
        there = old.set_of(name, kind)
        why = beside_alias(old, name, kind)
        if there and not session.options.replace:
            why = why or conflict(kind, there, records)
        if why:
            wrong.append(f"  line {line}: {name} {kind}: {why}")
        elif kind != "SOA" or session.options.replace:
            node = [one for one in new.at(name) if one.kind != kind] + records
            new.put(name, sorted(node, key=zone.local_order))
    if wrong:
        more = [f"  and {len(wrong) - 20} more"] if len(wrong) > 20 else []
        raise Refused("\n".join(["not sent: these sets are there with other records; --replace puts those of the file in their place",
                                 *wrong[:20], *more]))
    return new


def zone_of(file: Records) -> Zone:
    """The zone that a whole file has."""
    records = sorted((record for record, _ in file.lined()), key=data.order)
    return Zone(file.zone, records)


def since(listed: Zone, before: Records, after: Records) -> tuple[Zone, Zone]:
    """Two zones that differ as two files do. The SOA's serial is that of the zone."""
    old, new = zone_of(before), zone_of(after)
    was, wanted = old.set_of(old.origin, "SOA"), new.set_of(old.origin, "SOA")
    there = listed.set_of(old.origin, "SOA")
    fields = [(one[0].ttl, data.soa_at(one[0].data, 0)) if one else None for one in (was, wanted, there)]
    if not was or not wanted or fields[0] == fields[1]:
        for one in old, new:
            one.put(one.origin, [record for record in one.at(one.origin) if record.kind != "SOA"])
    elif fields[0] != fields[2]:
        raise Refused("not sent: the SOA is another one than in the older file")
    else:
        old.put(old.origin, there + [record for record in old.at(old.origin) if record.kind != "SOA"])
        serial = data.soa_at(wanted[0].data, data.soa_serial(there[0].data))
        new.put(new.origin, [wanted[0]._replace(data=serial), *(record for record in new.at(new.origin) if record.kind != "SOA")])
    return old, new


# Guarded updates, in parts

def can_test_names(session: Session, old: Zone, new: Zone) -> bool:
    """Whether the caller may ask whether new names are unused, which is to check all types; of the names below each name one is asked."""
    asked: dict[str, str] = {}
    for name in new.nodes:
        if not old.at(name):
            asked.setdefault(names.parent(name), name)
    return all(session.server.may(name, kind, "check")[0] for name in asked.values()
               for _, kind, _ in points(Part("name-unused", name), False, new.origin))


def divided(session: Session, old: Zone, new: Zone) -> list[Update]:
    """The updates that lead from one zone to another, as few as there can be."""
    guarded = not session.options.unguarded
    return parts_of(new.origin, zone.groups(old, new, guarded, guarded and can_test_names(session, old, new)))


def count(number: int, what: str) -> str:
    """So many of something."""
    return f"{number} {what}{'' if number == 1 else 's'}"


def send_all(session: Session, what: Any, make: Callable[[], list[Update]]) -> int:
    """Makes guarded updates and sends them one after the other, up to a refusal. What they are is kept on disk, so that the same
    command goes on where an earlier run was ended."""
    if session.options.id:
        raise Bad("--id is for one update, and this may be several: they get identifiers of their own")
    if session.options.dry_run:
        return planning.plan(session, make())
    pending = Pending(session.server, what)

    def work() -> int:
        if pending.kept:
            updates = [update_of(session.needed_zone(), body) for _, body in pending.kept.requests]
        else:
            updates = make()
            if len(updates) > 1:
                planning.refuse_denied(session, updates)
        return send_parts(session, pending, updates)

    return sending.guarded(pending, work)


def update_of(origin: str, body: dict[str, Any]) -> Update:
    """The update of a body."""
    made = Update(origin)
    for key, put in ("prerequisites", made.require), ("operations", made.change):
        for one in body.get(key, ()):
            put(None, Part(one.get("test") or one.get("op"), one["name"], one.get("type"), one.get("data"), one.get("ttl")))
    return made


def send_parts(session: Session, pending: Pending, updates: list[Update]) -> int:
    """Sends updates from the first that has no reply on."""
    if not updates:
        session.note("nothing changed: all of it is so already")
        session.report["changed"] = False
        return 3 if session.options.strict else 0
    run = sending.Run(session, pending, [update.request() for update in updates])
    run.begin(pending.first())
    total = sum(len(update.operations) for update in updates)
    made = sum(len(update.operations) for update in updates[:pending.first()])
    for number in range(pending.first(), len(updates)):
        if run.send(updates[number]):
            session.note(f"{number} of {count(len(updates), 'update')} were made, and this one and those after it were not")
            return 1
        made += len(updates[number].operations)
        session.progress(f"{made} of {count(total, 'operation')}, {number + 1} of {count(len(updates), 'update')}")
    session.report["changed"] = True
    session.print(f"{updates[0].origin()} {count(total, 'operation')} in {count(len(updates), 'update')}")
    return 0


# Commands

def read_files(session: Session, *paths: str) -> tuple[list[Records], str]:
    """The files, and a digest of what they have."""
    origin = session.needed_zone()
    found, digest = [], hashlib.sha256()
    for path in paths:
        file = reading.read(path, origin)
        found.append(file)
        session.readings += file.readings
        for record, _ in file.lined():
            digest.update(record.line().encode() + b"\n")
        digest.update(b"\n")
    return found, digest.hexdigest()


def checked_parts(session: Session, listing: Listing, old: Zone, new: Zone) -> list[Update]:
    """The updates that lead from one zone to another, unless name servers would refuse the zone then."""
    updates = divided(session, old, new)
    if updates and not session.options.anyway:
        found, _ = checking.found_by(session, listing, updates)
        checking.tell_findings(session, found)
    return updates


def run_import(session: Session, words: list[str]) -> int:
    """Takes the records of a file into the zone."""
    options = session.options
    older = [options.since] if options.since is not None else []
    files, digest = read_files(session, *older, words[0])

    def make() -> list[Update]:
        listing = Listing(session.server, session.needed_zone())
        old = listing.need_all()
        session.settle(old.origin, listing.lists)
        if older:
            return checked_parts(session, listing, *since(old, files[0], files[1]))
        return checked_parts(session, listing, old, with_file(session, old, files[0]))

    return send_all(session, ["import", session.zone, bool(older), options.replace, options.unguarded, digest], make)


def difference(old: Zone, new: Zone) -> list[Part]:
    """The operations that lead from one zone to another: servers of the zone first, then what goes, then what comes, an SOA last."""
    parts = [part for group in zone.groups(old, new, False) for part in group.operations]
    return sorted(parts, key=lambda part: 3 if part.kind == "SOA" else zone.turn(part, old.origin))


def run_diff(session: Session, words: list[str]) -> int:
    """Prints the operations that lead from what is listed, or from an older file, to a file."""
    files, _ = read_files(session, *words)
    listing = Listing(session.server, session.needed_zone())
    old = zone_of(files[0]) if len(files) > 1 else listing.need_all()
    session.settle(old.origin, lambda name: bool(old.at(name)))
    parts = difference(old, zone_of(files[-1]))
    session.report["items"] = [{"list": "operations", "item": part.line()} for part in parts]
    for part in parts:
        session.print(part.line())
    return 3 if session.options.strict and not parts else 0
