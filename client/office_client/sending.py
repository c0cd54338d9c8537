"""Updates on their way to the office: once each, whatever is lost, and refusals in words."""

import time
from collections.abc import Callable
from typing import Any, NamedTuple

from . import checking, planning, refusals
from .checking import Foreseen
from .listing import Listing
from .pending import NotKept, Pending
from .server import Reply, checked
from .session import Session
from .telling import Bad, Lost, Refused, clean, say
from .update import Delegation, Part, Request, Update, compact, divided, excess, points, refuse_mistakes


class Send(NamedTuple):
    """An update to be sent."""
    update: Update


class Show(NamedTuple):
    """An update to be printed as item lines."""
    update: Update


class Answer(NamedTuple):
    """The last reply, to be printed."""


Action = Send | Show | Answer


def send(session: Session, pending: Pending, identifier: str, request: Request, requests: list[Request]) -> Reply:
    """Sends an update until the office has decided on it, at most as often as the options say."""
    target, fields = request
    body = compact({"id": identifier, **fields})
    pause = 1
    for left in reversed(range(session.options.tries)):
        try:
            reply = send_once(session, pending, target, body, requests)
            if session.options.verbose:
                say(f"{identifier}: {reply.status} {clean(reply.text)}")
            if not left or not reply.wants_another_try():
                break
        except (Bad, Lost) as error:
            if not left:
                raise
            say(f"{error}; it is sent again")
        time.sleep(pause)
        pause *= 2
    if reply.may_be_made():
        raise Lost(f"the front server answered {reply.reason()}")
    return checked(reply)


def send_once(session: Session, pending: Pending, target: str, body: str, requests: list[Request]) -> Reply:
    """Sends an update, and counts it as one that may have been made where it may."""
    try:
        reply = session.server.ask("POST", target, "update", body, lambda: pending.keep(requests))
    except Lost:
        pending.counts = True
        raise
    pending.counts = pending.counts or reply.is_of_office() or reply.may_be_made()
    return reply


# Refusals

def lacking(session: Session, update: Update, fields: dict[str, Any]) -> list[dict[str, str]]:
    """The rights that a denied item lacks, by the questions that it asks of the policy."""
    number, is_operation = fields.get("item"), fields.get("list") == "operations"
    parts = update.operations if is_operation else update.prerequisites
    if fields.get("name") != "REFUSED" or not isinstance(number, int) or number >= len(parts):
        return []
    found = []
    try:
        for name, kind, action in points(parts[number], is_operation, update.origin()):
            granted, rule = session.server.may(name, kind, action)
            if not granted:
                found.append({"action": action, "type": kind, "name": name, "rule": rule})
    except (Bad, Lost):
        pass  # the refusal is said without them
    return found


def tell(session: Session, reply: Reply, update: Update) -> dict[str, Any]:
    """What a reply to an update comes to, for the report; a refusal is said in words."""
    fields = reply.fields
    told: dict[str, Any] = {name: clean(value[:200]) if isinstance(value, str) else value
                            for name, value in fields.items() if name in ("code", "name", "refusal", "by", "item", "list")}
    if reply.status == 200:
        return told
    told["text"] = refusals.words(fields)
    say(told["text"])
    if "item" in fields:
        named, number = fields.get("list", ""), fields["item"]
        parts = update.operations if named == "operations" else update.prerequisites if named == "prerequisites" else []
        source = update.sources.get(named, [])
        where = source[number] if number < len(source) else None
        say(f"  {where or clean(named[:200]) + ' ' + str(number)}")
        if number < len(parts):
            told["source"] = where or parts[number].line()
            hint(session, told, parts[number], update)
    return told


def hint(session: Session, told: dict[str, Any], part: Part, update: Update) -> None:
    """Says what lacks, and what would do."""
    told["lacks"] = lacking(session, update, told)
    for lack in told["lacks"]:
        say(f"  {refusals.lack_line(lack)}")
    if part.word == "delete-name" and any(lack["action"] == "delegate" for lack in told["lacks"]):
        say("  to delete all types asks for delegate too: name the types, as in office delete NAME TYPE")


# One command

def sends(actions: list[Action]) -> list[Update]:
    """The updates among what is to be done."""
    return [action.update for action in actions if isinstance(action, Send)]


def prepare(session: Session, actions: list[Action]) -> list[Action]:
    """The same with a zone for each update, and with those divided that are too large, if that is asked for."""
    prepared: list[Action] = []
    for action in actions:
        if not isinstance(action, Send):
            prepared.append(action)
            continue
        update = action.update
        if update.zone is None:
            update.zone = session.server.zone_of(update.first_name())
        session.zone = session.zone or update.zone
        if not isinstance(update, Delegation):
            refuse_mistakes(update)
        much = excess(update)
        if much and (isinstance(update, Delegation) or not session.options.split):
            raise Bad(f"the update has {much}; --split sends several, and others see the zone between them. Nothing was sent")
        prepared += [Send(part) for part in divided(update)] if much else [action]
    return prepared


def submit(session: Session, actions: list[Action]) -> int:
    """Does what a command or a script asks for, under identifiers that are kept until each update has a reply."""
    actions = prepare(session, actions)
    updates = sends(actions)
    if session.options.dry_run:
        return planning.plan(session, updates)
    if not updates:
        return Run(session, None, []).act(actions)
    requests = [update.request() for update in updates]
    pending = NotKept(session.options.id) if session.options.id else Pending(session.server, requests)

    def work() -> int:
        run = Run(session, pending, requests)
        if pending.kept is None and not session.options.anyway:
            run.foresee(updates)
        return run.act(actions)

    return guarded(pending, work)


def guarded(pending: Pending, work: Callable[[], int]) -> int:
    """Does what sends updates. Their identifier is kept if one of them may have been made and has no reply."""
    try:
        status = work()
    except Lost as error:
        say(f"{error}. The update may have been made: run the same command again, and it is made once ({pending.id})")
        return 2
    except (Bad, Refused):
        if not pending.counts:
            pending.end()
        raise
    pending.end()
    return status


class Run:
    """Updates that are sent one after the other."""

    def __init__(self, session: Session, pending: Pending | None, requests: list[Request]) -> None:
        self.session, self.pending, self.requests = session, pending, requests
        self.foreseen: dict[int, tuple[Foreseen, Listing]] = {}
        self.statuses: list[int] = []

    def foresee(self, updates: list[Update]) -> None:
        """Checks the updates of each zone, and keeps what each comes to."""
        for zone in dict.fromkeys(update.zone for update in updates):
            numbers = [number for number, update in enumerate(updates) if update.zone == zone]
            listing, found = checking.check(self.session, [updates[number] for number in numbers])
            self.foreseen.update((number, (one, listing)) for number, one in zip(numbers, found))

    def begin(self, count: int) -> None:
        """Goes on behind so many updates, which have their replies."""
        self.statuses = [0] * count

    def act(self, actions: list[Action]) -> int:
        """Does all of it, and gives the status."""
        for action in actions:
            if isinstance(action, Send):
                self.send(action.update)
            elif isinstance(action, Show):
                for line in action.update.lines():
                    self.session.print(line)
            elif self.session.last:
                self.session.print(self.session.last)
        if 1 in self.statuses:
            return 1
        return 3 if self.statuses and set(self.statuses) == {3} else 0

    def send(self, update: Update) -> int:
        """Sends an update, and says what came of it. The status of that."""
        assert self.pending
        number = len(self.statuses)
        identifier = self.pending.id if len(self.requests) == 1 else f"{self.pending.id}-{number + 1}"
        reply = send(self.session, self.pending, identifier, self.requests[number], self.requests)
        self.session.last = reply.text
        self.pending.done(number + 1)
        told: dict[str, Any] = {"id": identifier, "zone": update.zone, **tell(self.session, reply, update)}
        self.session.report.setdefault("updates", []).append(told)
        status = 0 if reply.status == 200 else 1
        if not status and number in self.foreseen:
            told["changed"] = self.changed(*self.foreseen[number])
            status = 3 if told["changed"] is False and self.session.options.strict else 0
        self.statuses.append(status)
        return status

    def changed(self, foreseen: Foreseen, listing: Listing) -> bool | None:
        """Whether an update that was made changed something, as far as that is known; says why it did not."""
        if foreseen.is_idle():
            if not foreseen.is_sure(self.session):
                return None
            self.session.note(f"nothing changed: {foreseen.reason()}")
            return False
        if self.session.options.strict and len(self.requests) == 1:
            return self.read_again(foreseen, listing)
        return bool(foreseen.update.operations)

    def read_again(self, foreseen: Foreseen, listing: Listing) -> bool | None:
        """Whether the records at the names of operations are others than before."""
        now = Listing(self.session.server, listing.zone.origin)
        at_names = {part.name for part in foreseen.update.operations}
        if not checking.same_at(listing.zone, now.need(list(at_names)), at_names):
            return True
        if not foreseen.sees_all(self.session):
            return None
        self.session.note("nothing changed: the records are as they were before, and one that you may not list may be the reason")
        return False
