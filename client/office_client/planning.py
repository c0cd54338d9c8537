"""What would be sent, item by item: whether the policy allows it, and what it does to the records that are listed."""

from typing import Any

from . import checking, names, refusals
from .checking import Foreseen
from .session import Session
from .telling import Bad
from .update import Part, Point, Update, points
from .zone import Zone

MANY = 200  # questions to the policy, above which one name is asked for all that have the same one above


class Rights:
    """What the policy says of the points of updates."""

    def __init__(self, session: Session, updates: list[Update]) -> None:
        self.session = session
        every = {point for update in updates for point in all_points(update)}
        self.first: dict[tuple[str, str, str], Point] = {}
        for name, kind, action in sorted(every):
            key = (names.parent(name), kind, action) if len(every) > MANY else (name, kind, action)
            self.first.setdefault(key, (name, kind, action))
        self.is_sample = len(every) > MANY

    def of_point(self, point: Point) -> tuple[bool, str]:
        """Whether it is granted, and the rule that decides."""
        name, kind, action = point
        return self.session.server.may(*self.first[(names.parent(name), kind, action) if self.is_sample else point])

    def of_part(self, part: Part, is_operation: bool, origin: str) -> tuple[list[dict[str, str]], str]:
        """What lacks for an item, and the rules that grant the rest."""
        lacks, rules = [], []
        for point in points(part, is_operation, origin):
            granted, rule = self.of_point(point)
            rules += [rule] if granted else []
            if not granted:
                lacks.append(dict(zip(("name", "type", "action", "rule"), (*point, rule))))
        return lacks, ", ".join(dict.fromkeys(rules))


def all_points(update: Update) -> list[Point]:
    """All that an update asks of the policy."""
    origin = update.origin()
    return [point for part in update.prerequisites for point in points(part, False, origin)] + \
        [point for part in update.operations for point in points(part, True, origin)]


def holds(zone: Zone, update: Update, part: Part) -> bool:
    """Whether a prerequisite holds of the records that are listed."""
    if part.kind is None:
        return bool(zone.at(part.name)) == (part.word == "name-used")
    there = {one.data for one in zone.set_of(part.name, part.kind)}
    if part.word == "rrset-equals":
        return there == {one.data for one in update.prerequisites if one[:3] == part[:3]}
    return bool(there) == (part.word == "rrset-exists")


def item_of(rights: Rights, update: Update, part: Part, mark: str, why: str) -> dict[str, Any]:
    """What is to be said of an item, which has this mark if the policy allows it."""
    is_operation = mark in ("makes", "idle")
    lacks, rules = rights.of_part(part, is_operation, update.origin())
    if lacks:
        mark, why = "denied", "; ".join(map(refusals.lack_line, lacks))
    return {"list": "operations" if is_operation else "prerequisites", "item": part.line(), "mark": mark, "why": why or f"by {rules}",
            "lacks": lacks}


def plan_update(session: Session, rights: Rights, zone: Zone, foreseen: Foreseen) -> list[dict[str, Any]]:
    """The items of an update in a zone as it is then."""
    update = foreseen.update
    items = []
    for part in update.prerequisites:
        is_held = holds(zone, update, part)
        items.append(item_of(rights, update, part, "holds" if is_held else "fails", "" if is_held else "by the records that you may list"))
    for part, why in zip(update.operations, foreseen.reasons):
        unsure = why and not checking.is_sure(session, part, why)
        items.append(item_of(rights, update, part, "idle" if why else "makes", f"{why}, as far as you may list" if unsure else why or ""))
    return items


def plan(session: Session, updates: list[Update]) -> int:
    """Prints what updates come to, and sends nothing."""
    if not updates:
        session.note("nothing would be sent")
        return 3 if session.options.strict else 0
    marks: list[str] = []
    rights = Rights(session, updates)
    for origin in dict.fromkeys(update.origin() for update in updates):
        mine = [update for update in updates if update.zone == origin]
        listing, foreseen = checking.check(session, mine)
        place = listing.zone
        for number, one in enumerate(foreseen, 1):
            session.print(f"# update {number} of {len(foreseen)} of {origin}")
            for item in plan_update(session, rights, place, one):
                marks.append(item["mark"])
                session.report.setdefault("items", []).append({"update": number, "zone": origin, **item})
                session.print(f"{item['mark']:<7} {item['item']}  # {item['why']}")
            place, _ = checking.foresee(place, [one.update])
    if rights.is_sample:
        session.note("of the rights one name was asked for all that have the same name above")
    return status_of(session, marks)


def status_of(session: Session, marks: list[str]) -> int:
    """The status that sending would have."""
    stops = any(one["refused"] for one in session.report.get("findings", ()))
    if stops or session.options.strict and session.report.get("findings"):
        session.note("it would not be sent without --anyway")
        return 1
    if "denied" in marks or "fails" in marks:
        return 1
    return 3 if session.options.strict and "makes" not in marks else 0


def refuse_denied(session: Session, updates: list[Update]) -> None:
    """Refuses several updates whose rights lack, before the first of them is sent: of the names below each name one is asked."""
    rights = Rights(session, updates)
    asked: set[Point] = set()
    for update in updates:
        for point in all_points(update):
            name, kind, action = point
            key = (names.parent(name), kind, action)
            if key in asked:
                continue
            asked.add(key)
            granted, rule = rights.of_point(point)
            if not granted:
                raise Bad(refusals.lack_line({"action": action, "type": kind, "name": name, "rule": rule}) + "; nothing was sent")
