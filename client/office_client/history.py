"""Changes of a zone: in words, by record, and taken back; and the zone as it was."""

from typing import Any, NamedTuple

from . import checking, data, names, refusals, zone
from .data import Record
from .importing import divided, send_all
from .listing import Listing
from .session import Session, both
from .telling import Bad, Refused
from .update import Update
from .zone import Zone

Set = tuple[str, str]


class Change(NamedTuple):
    """A change of a zone, as far as the caller may see it."""
    number: int
    removed: list[Record]
    added: list[Record]

    def sets(self) -> dict[Set, tuple[list[Record], list[Record]]]:
        """What went and what came of each set, but of an SOA of which only the serial changed."""
        found: dict[Set, tuple[list[Record], list[Record]]] = {}
        for side, records in enumerate((self.removed, self.added)):
            for record in records:
                found.setdefault((record.name, record.kind), ([], []))[side].append(record)
        return {key: pair for key, pair in found.items() if key[1] != "SOA" or without_serial(pair[0]) != without_serial(pair[1])}


def without_serial(records: list[Record]) -> list[tuple[int, str]]:
    """What SOA records have beside the serial."""
    return [(one.ttl, data.soa_at(one.data, 0)) for one in records]


def read_changes(session: Session, first: int) -> list[Change]:
    """The changes that the caller may see, from a number on."""
    reply = session.server.get("changes", "zones", session.needed_zone(), "changes", str(first))
    if reply.status != 200:
        raise Refused(refusals.words(reply.fields), reply.fields)
    try:
        return [Change(one["number"], list(map(data.record_of, one["removed"])), list(map(data.record_of, one["added"])))
                for one in reply.fields["changes"]]
    except ValueError:
        raise Bad("the reply has a line that is no record") from None


def number_of(word: str) -> int:
    """The number of a change."""
    try:
        return max(data.whole(word, 4294967295), 1)
    except Bad:
        raise Bad(f"{names.shown(word)} is not the number of a change: office log has them") from None


# In words

def told(key: Set, gone: list[Record], come: list[Record]) -> str:
    """What became of a set."""
    name, kind = key
    before, after = [one.data for one in gone], [one.data for one in come]
    lost, new = [one for one in before if one not in after], [one for one in after if one not in before]
    ttl = f", TTL {gone[0].ttl} -> {come[0].ttl}" if gone and come and gone[0].ttl != come[0].ttl else ""
    arrow = "->" if lost and new else "+" if new else "-" if lost else ""
    what = " ".join([both(name), kind, *(lost if arrow == "->" else []), arrow, *(new or lost)])
    return what.rstrip() + ttl


def run_log(session: Session, words: list[str]) -> int:
    """Prints changes in words: all, or those at a name and below it."""
    within = session.owner(words[0]) if words else None
    shown = []
    for change in read_changes(session, 1):
        lines = [told(key, *pair) for key, pair in change.sets().items() if within is None or names.is_within(key[0], within)]
        if lines:
            shown.append((change.number, lines))
    shown = shown[-session.options.last:]
    session.report["log"] = [{"number": number, "what": lines} for number, lines in shown]
    for number, lines in shown:
        for line in lines:
            session.print(f"{number} {line}")
    return 0


# By record, and the zone as it was

def bringers(records: list[Record], changes: list[Change]) -> list[tuple[int, Record]]:
    """Records, each after the number of the change that brought it, and after 0 where none did."""
    brought = {record: change.number for change in changes for record in change.added}
    return [(brought.get(record, 0), record) for record in records]


def run_blame(session: Session, words: list[str]) -> int:
    """Prints records, each after the number of the change that brought it."""
    within = [session.owner(word) for word in words]
    session.zone = session.zone or (session.server.zone_of(within[0]) if within else None)
    records = Listing(session.server, session.needed_zone()).read(*within)
    found = bringers(records, read_changes(session, 1))
    session.report["blame"] = [{"number": number, "record": record.line()} for number, record in found]
    for number, record in found:
        session.print(f"{number} {record.line()}")
    return 0


def before(records: list[Record], changes: list[Change]) -> list[Record]:
    """The records before some changes, in record order."""
    there = set(records)
    for change in reversed(changes):
        if not there.issuperset(change.added):
            raise Refused("the zone was changed meanwhile: ask again")
        there.difference_update(change.added)
        there.update(change.removed)
    return sorted(there, key=data.order)


def past_file(session: Session, word: str) -> str:
    """The zone as it was after the change of a number, or with 0 as it was at first, as a master file."""
    number = data.whole(word, 4294967295)
    listed = Listing(session.server, session.needed_zone()).read()
    changes = read_changes(session, max(number, 1))
    if number and not changes:
        raise Refused(f"there is no change {number} that you may see")
    records = before(listed, [change for change in changes if change.number > number])
    return "".join(line + "\n" for line in [f"$ORIGIN {session.needed_zone()}", *(record.line() for record in records)])


# Taken back

def taken_back(listed: Zone, change: Change, later: list[Change]) -> Zone:
    """The zone without a change; refused if something of it was changed since."""
    new = listed.copy()
    touched = change.sets()
    for one in later:
        again = [key for key in one.sets() if key in touched]
        if again:
            raise Refused(f"not sent: change {one.number} changed {' '.join(again[0])} since")
    for (name, kind), (gone, come) in touched.items():
        there = listed.set_of(name, kind)
        missing = [one for one in come if one not in there and kind != "SOA"]
        came_back = [one for one in gone if one.data in {other.data for other in there} and one.data not in {other.data for other in come}]
        if missing or came_back:
            raise Refused(f"not sent: {name} {kind} is not as change {change.number} left it")
        new.put(name, restored(new.at(name), there, gone, come))
    return new


def restored(node: list[Record], there: list[Record], gone: list[Record], come: list[Record]) -> list[Record]:
    """The records at a name with one set as it was before a change."""
    kind = (gone or come)[0].kind
    came = {one.data for one in come}
    ttl = gone[0].ttl if gone else there[0].ttl if there else 0
    if kind == "SOA":
        kept = list(gone)
    else:
        kept = [one._replace(ttl=ttl) for one in there if one.data not in came] + gone
    return sorted([one for one in node if one.kind != kind] + kept, key=zone.local_order)


def run_undo(session: Session, words: list[str]) -> int:
    """Takes a change back, by a guarded update."""
    number = number_of(words[0])

    def make() -> list[Update]:
        changes = read_changes(session, number)
        if not changes or changes[0].number != number:
            raise Refused(f"there is no change {number} that you may see")
        listing = Listing(session.server, session.needed_zone())
        old = listing.need_all()
        updates = divided(session, old, taken_back(old, changes[0], changes[1:]))
        found, foreseen = checking.found_by(session, listing, updates)
        refuse_idle([one for each in foreseen for one in zip(each.update.operations, each.reasons) if one[1]])
        if not session.options.anyway:
            checking.tell_findings(session, found)
        return updates

    return send_all(session, ["undo", session.zone, number, session.options.unguarded], make)


def refuse_idle(idle: list[Any]) -> None:
    """Refuses what the office would pass over: the zone would not be as it was."""
    for part, why in idle:
        raise Refused(f"not sent: {part.line()}: {why}")
