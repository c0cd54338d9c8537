"""What a policy gives each caller. The program says it, rule by rule and name by name: `zoneoffice check rights`."""

import hashlib
import subprocess
import tomllib

from .files import Unsafe, printable, read
from .names import IDENTIFIER, TYPES, Labels, is_within, labels

OTHERS = "*"  # each caller that no rule names; no identifier has this octet
MOST = 16 << 20  # octets of a policy
LONGEST = 256 << 20  # octets of what is printed of its rights
SECONDS = 120
ACTIONS = "list", "check", "add", "delete", "delegate"

Rights = frozenset[tuple[str, str]]  # pairs of an action and a type
NOTHING: Rights = frozenset()
Group = tuple[Labels, bool]  # a name, or what is below it and not at or below a deeper name of a rule


class Wrong(Exception):
    """The program refuses the policy, or says what is not understood."""


class Policy:
    """The rights of callers. Each name is in one group: the root and each name that a rule has are groups of their own, the others
    are grouped by the nearest of these above them."""

    def __init__(self, tops: set[Labels], callers: set[str], rows: str) -> None:
        self.tops = tops | {()}
        self.callers = sorted(callers - {OTHERS})
        self.groups: dict[Group, dict[str, set[tuple[str, str]]]] = {}
        for row in rows.splitlines():
            scope, name, caller, action, *types = row.split(" ")
            group = self.groups.setdefault((labels(name), scope == "below"), {})
            rights = group.setdefault(caller, set())
            if action != "nothing":
                rights.update((action, kind) for kind in types)
            if scope not in ("name", "below") or action not in (*ACTIONS, "nothing") or not set(types) <= set(TYPES):
                raise Wrong(f"what the program prints is not understood: {printable(row)}")
        self.known: dict[tuple[Group, str], frozenset[str]] = {}

    def group_of(self, name: Labels) -> Group:
        """The group that a name is in."""
        if name in self.tops:
            return name, False
        return next(name[:length] for length in range(len(name) - 1, -1, -1) if name[:length] in self.tops), True

    def rights_in(self, group: Group, caller: str) -> Rights:
        """What a caller may do at the names of a group."""
        rows = self.groups.get(group, {})
        return frozenset(rows.get(caller, rows.get(OTHERS, NOTHING)))

    def may(self, caller: str, name: Labels, kind: str, action: str) -> bool:
        """Whether a caller may do an action with the records of a type at a name."""
        return (action, kind) in self.rights_in(self.group_of(name), caller)

    def may_see(self, caller: str, name: Labels) -> bool:
        """Whether a caller may list records of some type at a name."""
        return any(action == "list" for action, _ in self.rights_in(self.group_of(name), caller))

    def listers(self, name: Labels, kind: str) -> frozenset[str]:
        """The callers that may list the records of a type at a name."""
        key = self.group_of(name), kind
        if key not in self.known:
            self.known[key] = frozenset(one for one in (*self.callers, OTHERS) if ("list", kind) in self.rights_in(key[0], one))
        return self.known[key]

    def has_anything(self, caller: str, origin: Labels) -> bool:
        """Whether a caller may do anything at a name of a zone."""
        nearest, below = self.group_of(origin)
        groups = [(nearest, below), (nearest, True)]
        groups += [(top, below) for top in self.tops if is_within(top, origin) for below in (False, True)]
        return any(self.rights_in(group, caller) for group in groups)


def read_policy(path: str, program: str) -> tuple[Policy, str]:
    """A policy and its digest; Wrong if the program refuses it."""
    octets = read(path, MOST)
    if octets is None:
        raise Unsafe(f"{printable(path)}: there is no such file")
    try:
        done = subprocess.run([program, "check", "rights", "--policy", "/dev/stdin"], input=octets, capture_output=True,
                              timeout=SECONDS, check=False)
    except (OSError, subprocess.TimeoutExpired) as error:
        raise Wrong(f"{program}: {error}") from None
    if done.returncode or len(done.stdout) > LONGEST:
        said = done.stderr.decode("utf-8", "replace").strip().splitlines()
        raise Wrong(f"the program refuses the policy: {printable('; '.join(said)) or f'status {done.returncode}'}")
    try:
        rules = tomllib.loads(octets.decode()).get("rule", [])
        tops = {labels(rule["at"]) for rule in rules}
        callers = {rule["caller"] for rule in rules if IDENTIFIER.fullmatch(rule["caller"])}
        return Policy(tops, callers, done.stdout.decode()), hashlib.sha256(octets).hexdigest()
    except (ValueError, LookupError, TypeError, AttributeError, RecursionError) as error:
        raise Wrong(f"the policy is not understood: {printable(str(error))}") from None
