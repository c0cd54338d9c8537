"""What is known of updates before they are sent: whether they change something, and whether name servers would refuse the zone."""

from dataclasses import dataclass

from . import data, names, rules
from .listing import Listing
from .rules import Finding
from .session import Session
from .telling import Refused
from .tables import TYPES
from .update import Part, Update
from .zone import Zone

ASKED = 16  # operations of an update, and findings that stop nothing, of which it is asked whether the caller may list what they are about
ABSENT = ("no ", "it is not there")  # how reasons begin that hold only if all records are listed


@dataclass
class Foreseen:
    """What an update comes to: for each operation a reason where it does nothing."""
    update: Update
    reasons: list[str | None]

    def is_idle(self) -> bool:
        """Whether no operation does anything."""
        return bool(self.reasons) and all(self.reasons)

    def is_sure(self, session: Session) -> bool:
        """Whether no operation does anything also if there are records that the caller may not list."""
        return all(is_sure(session, part, why or "") for part, why in zip(self.update.operations[:ASKED], self.reasons))

    def sees_all(self, session: Session) -> bool:
        """Whether the caller may list what the operations are about."""
        return all(is_sure(session, part, ABSENT[0]) for part in self.update.operations[:ASKED])

    def reason(self) -> str:
        """Why nothing changes, in words."""
        pairs = zip(self.update.operations, self.reasons)
        found = dict.fromkeys(f"{part.name} {part.kind or ''}".strip() + f": {why}" for part, why in pairs)
        first = list(found)[:3]
        return "; ".join(first) + ("; .." if len(found) > len(first) else "")


def foresee(zone: Zone, updates: list[Update]) -> tuple[Zone, list[Foreseen]]:
    """The zone after updates, one after the other, and what each comes to."""
    after = zone.copy()
    found = []
    for update in updates:
        before = after.copy()
        reasons = [after.make(part) for part in update.operations]
        if len(update.operations) > 1 and same_at(before, after, {part.name for part in update.operations}):
            reasons = [why or "in the end it is as it was" for why in reasons]
        found.append(Foreseen(update, reasons))
    return after, found


def same_at(before: Zone, after: Zone, at_names: set[str]) -> bool:
    """Whether two zones have the same records at these names."""
    return all(before.at(name) == after.at(name) for name in at_names)


def concerned(updates: list[Update], origin: str) -> list[str]:
    """The names whose records say what updates come to: those of operations, and the servers and aliases that they name."""
    found = []
    for update in updates:
        for part in update.operations:
            found.append(part.name)
            if part.word == "add" and part.kind and part.data:
                found += [name for name in data.names_in(part.kind, part.data) if names.is_within(name, origin)]
    return list(dict.fromkeys(found))


def is_sure(session: Session, part: Part, reason: str) -> bool:
    """Whether an operation does nothing also if there are records that the caller may not list."""
    if not reason.startswith(ABSENT):
        return True
    kinds = [part.kind] if part.kind else list(TYPES)
    return all(session.server.may(part.name, kind, "list")[0] for kind in kinds)


def doubts(finding: Finding) -> tuple[str | None, tuple[str, ...]]:
    """What a finding says is not there: a name, and types."""
    record = finding.record
    if finding.rule == "ds-without-ns":
        return record.name, ("NS",)
    target = data.target_of(record.kind, record.data)
    if finding.rule in ("missing-address", "missing-glue"):
        return target, ("A", "AAAA", "CNAME")
    return (target, tuple(TYPES)) if finding.rule == "dangling-alias" else (None, ())


def seen(session: Session, found: list[Finding]) -> list[Finding]:
    """Those findings that hold though there may be records that the caller may not list. Of what stops nothing the first are asked for."""
    doubtful = [one for one in found if doubts(one)[0] and not one.stops()]
    unasked = set(doubtful[ASKED:])

    def holds(finding: Finding) -> bool:
        name, kinds = doubts(finding)
        return name is None or all(session.server.may(name, kind, "list")[0] for kind in kinds)
    return [one for one in found if one not in unasked and holds(one)]


def found_by(session: Session, listing: Listing, updates: list[Update]) -> tuple[list[Finding], list[Foreseen]]:
    """What is wrong after the updates and was not before, and what each comes to."""
    after, foreseen = foresee(listing.zone, updates)
    found = rules.new_findings(listing.zone, after)
    if not listing.is_whole and any(one.rule not in rules.OWN for one in found):
        listing.need_all()
        return found_by(session, listing, updates)
    return seen(session, found), foreseen


def check(session: Session, updates: list[Update]) -> tuple[Listing, list[Foreseen]]:
    """Reads what updates of a zone concern; says what is doubtful, and refuses what name servers would."""
    origin = updates[0].origin()
    listing = Listing(session.server, origin)
    if session.options.strict or session.options.dry_run:
        listing.need_all()
    else:
        listing.need(concerned(updates, origin) + session.candidates(origin))
    session.settle(origin, listing.lists)
    found, foreseen = found_by(session, listing, updates)
    tell_findings(session, found)
    return listing, foreseen


def tell_findings(session: Session, found: list[Finding]) -> None:
    """Says what is wrong, and refuses what would stop the zone."""
    for one in found:
        session.report.setdefault("findings", []).append({"rule": one.rule, "record": one.record.line(), "refused": one.stops()})
    stopping = [one for one in found if one.stops() or session.options.strict]
    if stopping and not session.options.dry_run:
        first = stopping[0]
        why = "name servers do not load the zone for it, which stops it for everybody" if first.stops() else \
            "it is doubtful, and --strict refuses that"
        more = f" (and {len(stopping) - 1} more)" if len(stopping) > 1 else ""
        raise Refused(f"not sent: {first.text()}: {why}{more}; --anyway sends it")
    for one in found:
        session.note(one.text())
