"""What each command does."""

import json
from collections.abc import Callable
from typing import Any
from urllib.parse import unquote

from . import data, names, pending, refusals, script, sending
from .history import past_file, run_blame, run_log, run_undo
from .importing import run_diff, run_import
from .server import Reply
from .sending import Send
from .session import Session, with_letters
from .tables import ACTIONS
from .telling import Bad, Refused, clean, flush, put, say
from .update import Part, Update, delegation

Lines = Callable[[dict[str, Any]], list[str]]


# Commands that send one update

def run_add(session: Session, words: list[str]) -> int:
    """Adds a record."""
    name, kind, update = session.owner(words[0]), data.type_of(words[2]), Update(session.zone)
    update.change(None, Part("add", name, kind, session.words_data(kind, words[3:]), data.ttl_of(words[1])))
    return sending.submit(session, [Send(update)])


def run_delete(session: Session, words: list[str]) -> int:
    """Deletes a record, a set, or all at a name."""
    name, update = session.owner(words[0]), Update(session.zone)
    kind = data.type_of(words[1]) if words[1:] else None
    if words[2:] and kind:
        update.change(None, Part("delete-record", name, kind, session.words_data(kind, words[2:])))
    else:
        update.change(None, Part("delete-rrset" if kind else "delete-name", name, kind))
    return sending.submit(session, [Send(update)])


def run_set(session: Session, words: list[str]) -> int:
    """Puts records in the place of those of a type."""
    name, ttl, kind, update = session.owner(words[0]), data.ttl_of(words[1]), data.type_of(words[2]), Update(session.zone)
    if kind in ("NS", "SOA") and session.zone is None:
        update.zone = session.server.zone_of(name)
    if (update.zone, kind) == (name, "NS"):
        raise Bad("the office keeps the last NS of a zone: add and delete the zone's own NS one by one")
    update.change(None, Part("delete-rrset", name, kind))
    for word in words[3:]:
        update.change(None, Part("add", name, kind, session.words_data(kind, [word]), ttl))
    return sending.submit(session, [Send(update)])


def address(word: str) -> str:
    """An address of a server."""
    return data.ipv6(word) if ":" in word else data.ipv4(word)


def run_delegate(session: Session, words: list[str]) -> int:
    """Hands a name and all below it to servers."""
    child, ttl, servers = session.owner(words[0]), data.ttl_of(words[1]), []
    for word in words[2:]:
        name, _, listed = word.partition("=")
        servers.append((session.target(names.octets(name)), [address(one) for one in listed.split(",") if one]))
    update = delegation(child, ttl, servers)
    update.zone = session.zone
    return sending.submit(session, [Send(update)])


# Scripts

def interact(session: Session, file: Any) -> int:
    """A script from a terminal: each update is sent as it is asked for."""
    statements, status = script.Script(session), 0
    prompt()
    for number, line in enumerate(file, 1):
        if line.strip().lower() == "quit":
            break
        try:
            action = statements.read(line.rstrip("\n"), number)
            if action is not None and (not isinstance(action, Send) or action.update):
                status = max(status, sending.submit(session, [action]))
        except (Bad, Refused) as error:
            say(error)
            status = 2 if isinstance(error, Bad) else max(status, 1)
        session.readings.clear()
        prompt()
    return status


def prompt() -> None:
    """Asks for a line."""
    put("> ", end="")
    flush()


def run_nsupdate(session: Session, words: list[str]) -> int:
    """Sends the updates of a script."""
    with open(words[0] if words and words[0] != "-" else 0, encoding="latin-1") as file:
        if file.isatty() and not session.options.dry_run:
            return interact(session, file)
        return sending.submit(session, script.read_script(session, file))


# Commands that read

def answer(session: Session, reply: Reply, lines: Lines) -> int:
    """Prints what was asked for, as lines, and keeps it for the report."""
    if reply.status != 200:
        raise Refused(refusals.words(reply.fields), reply.fields)
    session.report.update(reply.fields)
    for line in lines(reply.fields):
        if not session.options.json:
            put(with_letters(line))
    return 0


def run_rights(session: Session, words: list[str]) -> int:
    """Asks the policy."""
    if words[2] not in ACTIONS:
        raise Bad(f"{words[2]} is not one of {' '.join(ACTIONS)}")
    reply = session.server.get("rights", "rights", session.owner(words[0]), data.type_of(words[1]), words[2])
    status = answer(session, reply, lambda right: [f"{'granted' if right['granted'] else 'denied'} {right['by']}"])
    return status or (0 if reply.fields["granted"] else 1)


def run_list(session: Session, words: list[str]) -> int:
    """Lists records."""
    within = [session.owner(word) for word in words]
    session.zone = session.zone or (session.server.zone_of(within[0]) if within else None)
    reply = session.server.get("records", "zones", session.needed_zone(), "records", *within)
    status = answer(session, reply, lambda fields: list(fields["records"]))
    if not reply.fields["records"]:
        session.note("no record is there that you may list")
        return 3 if session.options.strict else status
    return status


def file_of(session: Session) -> str:
    """The records as a master file."""
    reply = session.server.get("file", "zones", session.needed_zone(), "file")
    if reply.status != 200:
        raise Refused(refusals.words(reply.fields), reply.fields)
    return reply.text


def run_file(session: Session, words: list[str]) -> int:
    """Prints the records as a master file, or as they were after a change."""
    text = past_file(session, words[0]) if words else file_of(session)
    session.report["file"] = text
    if not session.options.json:
        put(clean(text, "\n"), end="")
    return 0


def change_lines(fields: dict[str, Any]) -> list[str]:
    """Changes as lines."""
    return [f"change {change['number']} {sign} {line}" for change in fields["changes"]
            for sign, lines in (("-", change["removed"]), ("+", change["added"])) for line in lines]


def run_changes(session: Session, words: list[str]) -> int:
    """Prints changes, record by record."""
    first = str(data.whole(words[0], 4294967295)) if words else "1"
    return answer(session, session.server.get("changes", "zones", session.needed_zone(), "changes", first), change_lines)


def delegation_lines(fields: dict[str, Any]) -> list[str]:
    """Delegations as lines."""
    return [f"{one['child']} NS {server['name']} {server['glue']}" for one in fields["delegations"] for server in one["servers"]]


def run_delegations(session: Session, _words: list[str]) -> int:
    """Prints the delegations of the zone."""
    return answer(session, session.server.get("delegations", "zones", session.needed_zone(), "delegations"), delegation_lines)


# Updates that wait for a reply

def run_pending(session: Session, _words: list[str]) -> int:
    """Lists the updates that wait for a reply."""
    session.report["pending"] = []
    for _, kept in pending.waiting():
        for target, fields in kept.requests[kept.done:]:
            session.report["pending"].append({"id": kept.id, "who": kept.who, "url": kept.url, "target": target, "body": fields})
            session.print(" ".join((kept.id, kept.who, kept.url + unquote(target), json.dumps(fields))))
    return 0


def run_forget(session: Session, words: list[str]) -> int:
    """Drops the updates of an identifier."""
    if session.options.dry_run:
        if words[0] not in {one.id for _, one in pending.waiting()}:
            raise Bad(f"no update waits under the identifier {words[0]}")
        session.print(f"{words[0]} would be dropped")
    else:
        pending.forget(words[0])
    return 0


# Each command by its name
RUN: dict[str, Callable[[Session, list[str]], int]] = {
    "list": run_list, "file": run_file, "delegations": run_delegations, "changes": run_changes, "log": run_log, "blame": run_blame,
    "rights": run_rights,
    "add": run_add, "delete": run_delete, "set": run_set, "delegate": run_delegate, "diff": run_diff, "import": run_import,
    "undo": run_undo, "nsupdate": run_nsupdate, "pending": run_pending, "forget": run_forget,
}
