"""A run: it reads policy, office, trail and what publish and the checker found, and writes the files of each caller."""

import contextlib
import dataclasses
import json
import os
import sys
import time
from collections.abc import Callable, Iterable
from typing import Any

from . import children, status
from .files import Folder, Unsafe, printable, read
from .history import History, gone
from .matching import find
from .names import mailbox
from .office import Away, NoZone, Office
from .policy import OTHERS, Wrong, read_policy
from .trail import Trail, Update, printed

LISTS = 16 << 20  # octets of a list of zones
STATE = 256 << 20
AWAY = 3  # failures after which the office is not asked any more
ENTRIES = 20000  # changes in a caller's trail.json, of all zones
UNNAMED = "others"  # the folder of the callers that no rule names
FILES = "zones.json", "status.json", "trail.json", "children.json"


@dataclasses.dataclass
class Settings:  # pylint: disable=too-many-instance-attributes
    """Where things are."""
    folder: str
    state: str
    policy: str = "/etc/zoneoffice/policy.toml"
    program: str = "/usr/local/bin/zoneoffice"
    office: str = "/run/zoneoffice-publisher/office.sock"
    trail: str = "/var/log/zoneoffice/audit.json"
    found: str = "/var/lib/zoneoffice-children/children.json"
    published: list[str] = dataclasses.field(default_factory=list)
    zones: list[str] = dataclasses.field(default_factory=list)


class Run:  # pylint: disable=too-many-instance-attributes
    """A run. What fails is reported, and the rest goes on."""

    def __init__(self, settings: Settings, state: Folder) -> None:
        self.settings, self.state, self.failed, self.away = settings, state, 0, 0
        self.trailed = time.time()  # when the trail was read, or a little before
        self.policy, self.digest = read_policy(settings.policy, settings.program)
        kept = self.kept()
        self.known: list[str] = kept.get("zones", [])
        self.trail = Trail(kept.get("trail"))
        self.histories: dict[str, History] = {}
        self.statuses: dict[str, status.Status] = {}

    def kept(self) -> dict[str, Any]:
        """What the last run kept. Damaged, it is as of the first."""
        with contextlib.suppress(ValueError, RecursionError, Unsafe):
            found = json.loads(self.state.read("state.json", STATE) or b"{}")
            if isinstance(found, dict) and all(isinstance(one, str) for one in found.get("zones", [])):
                return found
        return {}

    def report(self, what: str, error: BaseException) -> None:
        """Says what failed."""
        self.failed += 1
        print(f"zoneoffice-page: {what}: {printable(str(error) or type(error).__name__)}", file=sys.stderr)

    def guarded(self, what: str, step: Callable[[], None]) -> None:
        """Takes a step. If it fails, it says so, and the run goes on."""
        try:
            step()
        except (Unsafe, OSError, ValueError) as error:
            self.report(what, error)

    # Reading

    def listed(self) -> Iterable[str]:
        """The zones that may be there: those of the last run, of the lists, and of publish, and those that somebody asked for."""
        yield from self.known
        for path in self.settings.zones:
            octets = read(path, LISTS)
            for line in (octets or b"").decode("utf-8", "replace").splitlines():
                if line.strip() and not line.startswith("#"):
                    yield line.strip()
        yield from self.statuses
        yield from sorted(self.trail.zones)

    def read(self) -> None:
        """Reads all that there is to read."""
        self.guarded("the folders of publish", self.read_statuses)
        if os.path.exists(self.settings.trail):
            self.guarded("the audit trail", lambda: self.trail.read_on(self.settings.trail))
        zones: dict[str, bool] = {}
        for one in self.listed():
            with contextlib.suppress(ValueError):
                zones[printed(one)] = True
        office = Office(self.settings.office)
        for zone in zones:
            self.follow(office, zone)
        self.attribute()

    def read_statuses(self) -> None:
        """Reads what publish says."""
        self.statuses = status.read_folders(self.settings.published)

    def follow(self, office: Office, zone: str) -> None:
        """Reads on in a zone, if the office has it. If the office does not answer, the zone is as it was; after three times it is not
        asked any more."""
        history = self.kept_history(zone)
        try:
            if self.away < AWAY:
                history.follow(office, self.policy)
                children.gather(office, history)
                if history.contact is None:
                    history.contact = mailbox(office.soa(zone))
        except NoZone:
            gone(self.state, zone)
            return
        except (Away, OSError, ValueError) as error:
            self.away += 1
            self.report(zone, error)
            history = self.kept_history(zone)
        if zone in self.known or not history.is_new or history.compared:
            self.histories[zone] = history

    def kept_history(self, zone: str) -> History:
        """A zone as the last run kept it, by the policy of now."""
        history = History(self.state, zone)
        history.recount(self.policy, self.digest)
        return history

    def attribute(self) -> None:
        """Finds who made the changes that are new."""
        waiting: dict[str, list[Update]] = {}
        for one in self.trail.updates:
            waiting.setdefault(one.zone, []).append(one)
        left: set[int] = set()
        for zone, updates in waiting.items():
            history = self.histories.get(zone)
            if history:
                found, updates = find(history, updates, self.policy, self.trailed)
                history.attribute(found)
            left.update(map(id, updates))
        self.trail.updates = [one for one in self.trail.updates if id(one) in left]

    # Writing

    def save(self) -> None:
        """Keeps what was read: the zones before the trail, which a killed run reads again."""
        for history in self.histories.values():
            history.save()
        kept = {"zones": list(self.histories), "trail": self.trail.kept()}
        self.state.put("state.json", json.dumps(kept, separators=(",", ":")).encode(), 0o600)
        children.put_wanted(self.state, list(self.histories.values()))

    def write(self) -> None:
        """Writes the files of all callers, and removes those of callers that the policy no longer names."""
        found = children.read_found(self.settings.found)
        with Folder(self.settings.folder) as top:
            wanted = {f"caller-{one}": one for one in self.policy.callers} | {UNNAMED: OTHERS}
            for name, caller in wanted.items():
                with top.below(name) as folder:
                    self.write_for(caller, folder, found)
            for name in set(top.names()) - set(wanted):
                top.remove_folder(name)

    def write_for(self, caller: str, folder: Folder, found: dict[str, Any]) -> None:
        """Writes the files of a caller."""
        mine = [one for one in self.histories.values() if self.policy.has_anything(caller, one.origin)]
        mine.sort(key=lambda one: (one.origin[:1] == (b"arpa",), one.origin))
        texts: dict[str, Any] = {
            "zones.json": {"caller": caller, "origins": [one.zone for one in mine],
                           "contacts": {one.zone: one.contact for one in mine if one.contact}},
            "status.json": {one.zone: status.for_caller(self.statuses[one.zone], one, self.policy, caller)
                            for one in mine if one.zone in self.statuses},
            "trail.json": trail_for(caller, mine),
            "children.json": {one.zone: given for one in mine
                              if (given := children.for_caller(found.get(one.zone, {}), one, self.policy, caller))}}
        folder.names()
        for name, value in texts.items():
            folder.put(name, json.dumps(value, separators=(",", ":")).encode())


def trail_for(caller: str, histories: list[History]) -> dict[str, dict[str, dict[str, str]]]:
    """Who made the last changes of each zone that a caller sees, by their numbers in the caller's own lists."""
    rows = [(entry.made.time, history.zone, number, entry.made) for history in histories
            for number, entry in history.numbers_of(caller) if entry.made]
    given: dict[str, dict[str, dict[str, str]]] = {}
    for _, zone, number, made in sorted(rows, key=lambda row: row[0], reverse=True)[:ENTRIES]:
        given.setdefault(zone, {})[str(number)] = dataclasses.asdict(made)
    return given


def write(settings: Settings) -> int:
    """Makes a run, and gives its status."""
    os.umask(0o027)
    try:
        with Folder(settings.state) as state:
            if not state.lock():
                return 0
            state.names()
            run = Run(settings, state)
            run.read()
            if run.histories or not run.failed:
                run.save()
                run.write()
            return 1 if run.failed else 0
    except (Unsafe, Wrong, OSError) as error:
        print(f"zoneoffice-page: {printable(str(error))}", file=sys.stderr)
        return 1
