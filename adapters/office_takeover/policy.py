"""The rules of an office that say what BIND's `update-policy`, `allow-update` and `allow-transfer` say of keys."""

import dataclasses
import json
from collections.abc import Iterator

import dns.exception
import dns.name
import dns.rdatatype

from office_asking import printable
from office_records import TYPES
from office_takeover.clauses import Configuration, Key, Zone, name_of
from office_takeover.named import Statement, Wrong

DEFAULT = tuple(one for one in TYPES if one not in ("NS", "SOA"))  # what BIND takes where a statement names no types
NO_NAME = {"zonesub"}
SCOPES = {"name": "name", "subdomain": "subtree", "wildcard": "below", "zonesub": "subtree", "self": "name", "selfsub": "subtree",
          "selfwild": "below"}
WRITE = ("add", "delete")
ALL_TYPES = ("*",)
MOST = 1024  # rules of a policy


@dataclasses.dataclass(frozen=True)
class Rule:
    """A rule of an office's policy, and the statement that it is of."""
    effect: str
    caller: str
    scope: str
    place: dns.name.Name
    types: tuple[str, ...]
    actions: tuple[str, ...]
    source: str

    def text(self, number: int) -> str:
        """The rule in TOML."""
        def several(words: tuple[str, ...]) -> str:
            return '"*"' if words == ALL_TYPES else "[" + ", ".join(f'"{one}"' for one in words) + "]"

        return (f"# {printable(self.source, 1000)}\n[[rule]]\nid = \"bind-{number}\"\neffect = \"{self.effect}\"\n"
                f"caller = \"{self.caller}\"\nscope = \"{self.scope}\"\nat = {json.dumps(self.place.to_text())}\n"
                f"types = {several(self.types)}\nactions = {several(self.actions)}\n")


@dataclasses.dataclass
class Translated:
    """The rules, and the words on each statement that is not taken, or not whole."""
    rules: list[Rule] = dataclasses.field(default_factory=list)
    left: list[str] = dataclasses.field(default_factory=list)


class NotTaken(Exception):
    """No rule of an office says this."""


@dataclasses.dataclass
class _Said:
    """A statement of an update-policy."""
    effect: str
    keys: list[Key]
    kind: str
    name: dns.name.Name | None
    types: tuple[str, ...]
    unkept: list[str]  # types that an office does not keep


def translated(found: Configuration) -> Translated:
    """The policy of all zones. Those within others come first, and what is said of the others ends there."""
    made = Translated()
    zones = sorted(found.zones, key=lambda zone: (-len(zone.origin), zone.origin))
    for zone in zones:
        above = [one for one in zones if one.origin != zone.origin and zone.origin.is_subdomain(one.origin)]
        rules = _ZoneRules(zone, found.keys, bool(above), made.left)
        made.rules += rules.written() + rules.checked() + rules.listed()
        if above:
            made.rules += _barrier(zone, above, found.keys)
    if len(made.rules) > MOST:
        raise Wrong(f"the policy would have {len(made.rules)} rules, and may have {MOST}")
    return made


def _barrier(zone: Zone, above: list[Zone], keys: dict[dns.name.Name, Key]) -> Iterator[Rule]:
    """Rules by which the statements of zones above say nothing of this zone's names, but for its delegation."""
    source = f"the zones above {zone.origin} say nothing of it"
    callers = {rule.caller for one in above for rules in [_ZoneRules(one, keys, True, [])]
               for rule in rules.written() + rules.listed() if rule.effect == "grant"}
    for caller in sorted(callers):
        yield Rule("deny", caller, "subtree", zone.origin, ALL_TYPES, ("list", "check", *WRITE), source)
        yield Rule("deny", caller, "below", zone.origin, ALL_TYPES, ("delegate",), source)


class _ZoneRules:
    """The rules of a zone."""

    def __init__(self, zone: Zone, keys: dict[dns.name.Name, Key], is_within: bool, left: list[str]) -> None:
        self.zone, self.keys, self.is_within, self.left = zone, keys, is_within, left
        self._written: list[Rule] | None = None

    def _not_taken(self, statement: Statement, why: str) -> None:
        self.left.append(f"{statement.where}: zone {self.zone.origin.to_text()}: {statement.text}: {why}")

    def written(self) -> list[Rule]:
        """What may be changed."""
        if self._written is None:
            policy, update = self.zone.own("update-policy"), self.zone.said("allow-update")
            self._written = self._of_policy(policy) if policy else self._of_list(update, WRITE) if update else []
        return self._written

    def listed(self) -> list[Rule]:
        """Who may transfer the zone, and so list it."""
        transfer = self.zone.said("allow-transfer")
        return self._of_list(transfer, ("list",)) if transfer else []

    def checked(self) -> list[Rule]:
        """BIND lets every key test what it likes: here a key may do so where it may change something."""
        where = {(rule.caller, rule.scope, rule.place): None for rule in self.written() if rule.effect == "grant"}
        return [Rule("grant", *one, ALL_TYPES, ("check",), "prerequisites where this key may change something") for one in where]

    def _of_list(self, statement: Statement, actions: tuple[str, ...]) -> list[Rule]:
        """The rules of an address match list, of which keys are taken, as long as nothing before them narrows who uses them."""
        rules: list[Rule] = []
        barred: set[dns.name.Name] = set()
        narrowed: Statement | None = None
        for one in statement.block():
            words = one.words[1:] if one.word(0) == "!" else one.words
            name = name_of(words[1], one.where) if words[:1] == ["key"] and len(words) == 2 and not one.blocks else None
            key = self.keys.get(name) if name else None
            if one.word(0) == "!":
                barred |= {name} if name else set()
                narrowed = narrowed or (None if name else one)
            elif key and key.name not in barred and not narrowed and not key.fault():
                rules += self._rules("grant", key, "subtree", self.zone.origin, ALL_TYPES, actions, statement)
                continue
            if one.words != ["none"] and not (name and (one.word(0) == "!" or name in barred)):
                why = f"it is after {narrowed.text}" if narrowed and key else key.fault() if key else None
                self._not_taken(statement, f"{one.text}: {why or 'only keys that are defined are taken'}")
        return rules

    def _of_policy(self, statement: Statement) -> list[Rule]:
        rules: list[Rule] = []
        denied: Statement | None = None  # one that is not taken: what it would deny is not granted either
        for one in statement.block() if statement.blocks else [statement]:
            try:
                said = self._said(one)
                if denied and said.effect == "grant":
                    raise NotTaken(f"it is after a denial that is not taken, {denied.where}")
                for key in said.keys:
                    rules += self._of_said(said, key, one)
                if said.unkept and said.effect == "grant":
                    self._not_taken(one, f"taken without {' '.join(said.unkept)}, which an office does not keep")
            except NotTaken as why:
                self._not_taken(one, str(why))
                if one.word(0) == "deny" and denied is None:
                    denied = one
        return rules

    def _said(self, one: Statement) -> _Said:
        effect, identity, kind = one.word(0), one.word(1), one.word(2).lower()
        if effect == "update-policy" and identity == "local":
            raise NotTaken("the key of `local` is made anew at each start of named")
        if effect not in ("grant", "deny") or one.blocks:
            raise Wrong(f"{printable(one.where)}: {printable(one.text)} is no statement of an update-policy")
        if kind not in SCOPES:
            raise NotTaken(f"no rule of an office says {printable(kind)}")
        words = one.words[3:] if kind in NO_NAME else one.words[4:]
        name = None if kind in NO_NAME else name_of(one.word(3), one.where)
        keys = self._keys(identity, one)
        if kind == "wildcard" and (name is None or not name.is_wild()):
            raise Wrong(f"{printable(one.where)}: {printable(one.word(3))} is not a wildcard")
        types, unkept = _types(words)
        return _Said(effect, keys, kind, name, types, unkept)

    def _keys(self, identity: str, one: Statement) -> list[Key]:
        """The keys of an identity: the one of this name, or all that a wildcard takes in."""
        name = name_of(identity, one.where)
        found = [key for key in self.keys.values() if key.name == name or (name.is_wild() and _is_below(key.name, name.parent()))]
        if not found:
            raise NotTaken("no key of this name is defined")
        odd = next((key for key in found if key.fault()), None)
        if odd:
            raise NotTaken(f"the key {printable(odd.caller)}: {odd.fault()}")
        return found

    def _of_said(self, said: _Said, key: Key, one: Statement) -> list[Rule]:
        name = said.name if said.name is not None else self.zone.origin
        if said.kind in ("self", "selfsub", "selfwild"):
            name = key.name
        elif said.kind == "wildcard":
            name = name.parent()
        place = _within(SCOPES[said.kind], name, self.zone.origin)
        return self._rules(said.effect, key, *place, said.types, WRITE, one) if place and said.types else []

    def _rules(self, effect: str, key: Key, scope: str, place: dns.name.Name, types: tuple[str, ...],  # pylint: disable=too-many-arguments
               actions: tuple[str, ...], one: Statement) -> list[Rule]:
        """The rules at a place. Of a zone within another, the delegation is the other's."""
        source = f"{one.where}: {one.text};"
        if actions != WRITE or not {"NS", "DS", "*"} & set(types):
            return [Rule(effect, key.caller, scope, place, types, actions, source)]
        if not self.is_within or place != self.zone.origin or scope == "below":
            return [Rule(effect, key.caller, scope, place, types, (*actions, "delegate"), source)]
        rules = [Rule(effect, key.caller, scope, place, types, actions, source)]
        return rules if scope == "name" else rules + [Rule(effect, key.caller, "below", place, types, ("delegate",), source)]


def _types(words: list[str]) -> tuple[tuple[str, ...], list[str]]:
    """The types of a statement that an office keeps, and the others."""
    if not words:
        return DEFAULT, []
    found: list[str] = []
    unkept: list[str] = []
    for word in words:
        if word.endswith(")"):
            raise NotTaken(f"no rule of an office says {printable(word)}: how many records there may be")
        if word.upper() == "ANY":
            return ALL_TYPES, []
        try:
            kind = dns.rdatatype.to_text(dns.rdatatype.from_text(word))
        except (dns.exception.DNSException, ValueError):
            kind = word.upper()
        (found if kind in TYPES else unkept).append(kind)
    return tuple(one for one in TYPES if one in found), [printable(one) for one in unkept]


def _is_below(name: dns.name.Name, other: dns.name.Name) -> bool:
    return bool(name != other and name.is_subdomain(other))


def _within(scope: str, name: dns.name.Name, origin: dns.name.Name) -> tuple[str, dns.name.Name] | None:
    """A scope as far as it is within a zone, or nothing."""
    if name.is_subdomain(origin):
        return scope, name
    return None if scope == "name" or not origin.is_subdomain(name) else ("subtree", origin)
