"""Delegations: what the checker is to ask, and what each caller is given of what it found."""

import contextlib
import json
from typing import Any

from .files import Folder, Unsafe, read
from .history import History
from .names import is_within, labels, record_of
from .office import Office
from .policy import Policy

MOST = 2000  # delegations of a zone
SERVERS, ADDRESSES, KEYS = 13, 4, 8  # of a delegation, of a server, and DS of a delegation, that are checked
LONGEST = 64 << 20  # octets of what was found

Delegation = dict[str, Any]


def gather(office: Office, history: History) -> None:
    """Reads the delegations of a zone, unless they are known and no change was about them."""
    if history.children is None:
        found = office.delegations(history.zone)
        history.children = {child: delegation(office.records(history.zone, child), child, servers)
                            for child, servers in list(found.items())[:MOST]}


def delegation(lines: list[str], child: str, servers: list[str]) -> Delegation:
    """A delegation, with the addresses of its servers within it, and its DS."""
    records = [record_of(line) for line in lines]
    origin = labels(child)

    def addresses(server: str) -> list[str]:
        name = labels(server)
        return [one.data for one in records if one.type in ("A", "AAAA") and labels(one.name) == name][:ADDRESSES]

    return {"servers": {one: addresses(one) if is_within(labels(one), origin) else None for one in servers[:SERVERS]},
            "ds": [one.data for one in records if one.type == "DS" and labels(one.name) == origin][:KEYS]}


def read_found(path: str) -> dict[str, Any]:
    """What the checker found, by zone."""
    with contextlib.suppress(ValueError, RecursionError, Unsafe, OSError):
        found = json.loads(read(path, LONGEST) or b"{}")
        if isinstance(found, dict):
            return found
    return {}


def for_caller(found: dict[str, Any], history: History, policy: Policy, caller: str) -> dict[str, Any]:
    """What a caller is given of the delegations of a zone: of those that it may list, what was found of the servers there are now."""
    given = {}
    for child, now in (history.children or {}).items():
        one = found.get(child)
        name = labels(child)
        if not isinstance(one, dict) or not policy.may(caller, name, "NS", "list"):
            continue
        servers = {server: word for server, word in one.get("servers", {}).items() if server in now["servers"]}
        given[child] = {"checked": one.get("checked"), "servers": servers}
        if policy.may(caller, name, "DS", "list") and one.get("for") == now["ds"]:
            given[child]["ds"] = one.get("ds")
    return given


def put_wanted(folder: Folder, histories: list[History]) -> None:
    """Writes what the checker is to ask: its group reads it."""
    wanted = {one.zone: one.children for one in histories if one.children}
    folder.put("delegations.json", json.dumps(wanted, separators=(",", ":")).encode())
