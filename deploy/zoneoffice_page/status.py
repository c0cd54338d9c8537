"""How each zone is published: what `publish` writes beside its files, for each caller as far as the caller may list what it is about."""

import contextlib
import dataclasses
import datetime
import json
import os
import re
from typing import Any

from .files import Unsafe, read
from .history import History
from .matching import when_of
from .names import is_within, labels
from .policy import Policy

MOST = 10000  # files of a folder
LONGEST = 1 << 20  # octets of one
UNDO = 16 << 20
SAID = 8  # lines of a reason that may be what a tool says
NAMED = 3  # records that a reason names
STATES = {"published": "published", "withheld": "withheld", "refused": "held", "held": "held", "hidden": "held"}
ORDER = "published", "waiting", "withheld", "held"  # of several folders the worst counts


@dataclasses.dataclass
class Status:  # pylint: disable=too-many-instance-attributes
    """How a zone is in a folder of `publish`."""
    zone: str
    state: str
    serial: int | None
    served: int | None
    since: str
    reason: str
    change: int | None
    caller: str | None
    about: list[tuple[str, str]]  # the record sets that it is about: owner and type
    said: list[str]  # what the server's tool says


def number(value: Any) -> int | None:
    """A whole number, or nothing."""
    return value if type(value) is int and 0 <= value < 1 << 32 else None  # pylint: disable=unidiomatic-typecheck


def text(value: Any, most: int = 2000) -> str:
    """A text of printable ASCII, or nothing."""
    return re.sub(r"[^ -~]", "?", value[:most]) if isinstance(value, str) else ""


def lines_of(path: str, most: int) -> list[str]:
    """The lines of a file, or none."""
    with contextlib.suppress(Unsafe, OSError):
        return (read(path, most) or b"").decode("latin-1").splitlines()
    return []


def about(path: str) -> list[tuple[str, str]]:
    """The record sets of the updates that undo what was refused."""
    found = {}
    for line in lines_of(path, UNDO):
        with contextlib.suppress(ValueError, LookupError, TypeError, RecursionError):
            for one in json.loads(line)["operations"]:
                labels(one["name"])
                found[str(one["name"]), str(one["type"])] = True
    return list(found)


def status_of(path: str) -> Status | None:
    """What a file of `publish` says; nothing if it is none."""
    with contextlib.suppress(ValueError, LookupError, TypeError, AttributeError, RecursionError, Unsafe, OSError):
        kept = json.loads(read(path, LONGEST) or b"")
        labels(kept["zone"])
        since = datetime.datetime.fromisoformat(kept["since"]).timestamp()
        state = STATES.get(kept["state"], "waiting")
        base = path.removesuffix(".status")
        is_about = about(base + ".undo") if kept["state"] in ("refused", "withheld") else []
        said = lines_of(base + ".refused.why", LONGEST)[1:SAID] if is_about else []
        return Status(kept["zone"], state, number(kept["serial"]), number(kept["served"]), when_of(since), text(kept["reason"]),
                      number(kept.get("change")), text(kept.get("caller"), 64) or None, is_about, [text(one) for one in said])
    return None


def read_folders(folders: list[str]) -> dict[str, Status]:
    """How each zone is, by all folders. Where a zone is in several, the worst counts."""
    found: dict[str, Status] = {}
    for folder in folders:
        for name in sorted(os.listdir(folder))[:MOST * 10]:
            one = status_of(os.path.join(folder, name)) if name.endswith(".zone.status") and len(found) < MOST else None
            if one and (one.zone not in found or ORDER.index(found[one.zone].state) < ORDER.index(one.state)):
                found[one.zone] = one
    return found


def words_on(status: Status, owner: str, kind: str, policy: Policy, caller: str) -> str:
    """What the server's tool says of a record set, unless it names others that the caller may not list."""
    short = owner.rstrip(".")
    word = re.compile(r"(?<![^\s'\"(\[:/])" + re.escape(short) + r"(?:\.?(?=[\s:/'\",)\]])|\Z)")
    for line in status.said:
        place = word.search(line)
        if place and " IN " not in line and not line.startswith(("change ", "+", "-")):
            tail = line[place.start():]
            others = {one.rstrip(".") for one in re.findall(r"[^\s'\"()\[\],:;/]+", tail.lower())} - {short}
            if all(may_see(policy, caller, one + ".", status.zone) for one in others):
                return tail
    return f"{owner} {kind}"


def may_see(policy: Policy, caller: str, name: str, zone: str) -> bool:
    """Whether a word is no name of a zone, or one where a caller may list something."""
    try:
        found, origin = labels(name), labels(zone)
    except ValueError:
        return True
    return not is_within(found, origin) or found == origin or policy.may_see(caller, found)


def for_caller(status: Status, history: History, policy: Policy, caller: str) -> dict[str, Any]:
    """What a caller is given of a zone."""
    origin = labels(status.zone)
    mine = [one for one in status.about if policy.may(caller, labels(one[0]), one[1], "list")]
    sees_all = len(mine) == len(status.about) if status.about else policy.may(caller, origin, "SOA", "list")
    state = status.state
    if state == "withheld":
        state = "held" if mine else "published"
    serial, since = status.serial, status.since
    if state == "published" and history.serial and status.served is not None and newer(history.serial, status.served):
        state, serial, since = "waiting", history.serial, when_of(history.moved)
    given: dict[str, Any] = {"state": state, "serial": serial, "served": status.served, "since": since}
    if state == "held" and mine:
        given["reason"] = "; ".join(words_on(status, *one, policy, caller) for one in mine[:NAMED])
    elif state != "published" and sees_all and status.reason and state == status.state:
        given["reason"] = status.reason
    if state == "held" and sees_all:
        own = history.own_number(caller, status.change) if status.change else None
        given.update({"change": own} if own else {}, **({"caller": status.caller} if status.caller else {}))
    if state == "held" and not sees_all:
        given["others"] = True
    return given


def newer(one: int, other: int) -> bool:
    """Whether a serial is greater than another (RFC 1982 section 3.2)."""
    return 0 < ((one - other) & 0xFFFFFFFF) < 1 << 31
