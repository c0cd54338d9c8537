"""The rules of `zoneoffice check zone`: what the office takes, and other name servers refuse or warn of (docs/formats.md)."""

import re
from collections.abc import Iterable
from typing import NamedTuple

from . import data, names
from .data import Record
from .tables import RULES
from .zone import Zone

HOST_LABEL = re.compile(rb"[a-z0-9](?:[a-z0-9-]*[a-z0-9])?")
PLAIN_HOST = re.compile(r"(?:[a-z0-9](?:[a-z0-9-]*[a-z0-9])?\.)*|\.")
SPF = {b"_spf", b"_spf_rate", b"_spf_verify"}
BROWSING = {b"b", b"db", b"r", b"dr", b"lb"}
DIGITS = {"1": 40, "2": 64, "4": 96}  # of digests by SHA-1, SHA-256 and SHA-384
UNREAD = re.compile(r"[!#%&'+,:<=>?\[\]^`{|}~]")

# rules by which a record is at fault by itself
OWN = frozenset(("host-name", "wildcard-ns", "digest-length", "weak-digest", "address-name", "unread-octet"))
# those for which BIND or Knot does not load a zone, and those of an NS
STOPPING = frozenset(("host-name", "wildcard-ns", "digest-length", "unread-octet"))
STOPPING_NS = frozenset(("alias-target", "missing-address", "missing-glue"))


class Finding(NamedTuple):
    """A record that is at fault by a rule."""
    rule: str
    record: Record

    def stops(self) -> bool:
        """Whether name servers do not load the zone for it, so that nothing of the zone is published."""
        return self.rule in STOPPING or self.record.kind == "NS" and self.rule in STOPPING_NS

    def text(self) -> str:
        """What is wrong, in words."""
        why, source = RULES[self.rule]
        return f"{self.record.line()}: {why} ({self.rule}: {source})"


# Names of hosts

def is_host(labels: Iterable[bytes]) -> bool:
    """Whether labels are a host's name."""
    return all(HOST_LABEL.fullmatch(label) for label in labels)


def is_host_name(name: str) -> bool:
    """Whether a name is that of a host."""
    return bool(PLAIN_HOST.fullmatch(name)) or "\\" in name and is_host(names.labels_of(name))


def is_host_owner(labels: list[bytes]) -> bool:
    """Whether a name is that of a host, or a wildcard before one."""
    return not labels or is_host(labels[1:] if labels[0] == b"*" else labels)


def is_fit_owner(record: Record) -> bool:
    """Whether the owner of data is fit for them."""
    if record.kind not in ("A", "AAAA", "MX") or is_host_name(record.name):
        return True
    labels = names.labels_of(record.name)
    if is_host_owner(labels):
        return True
    if record.kind == "MX":
        return False
    is_catalog = labels[:2] == [b"gc", b"_msdcs"] and is_host(labels[2:])
    return is_catalog or record.kind == "A" and any(label in SPF for label in labels)


def has_fit_names(record: Record) -> bool:
    """Whether the names in data are fit for them."""
    server = data.server_of(record.kind, record.data)
    if server is not None:
        return is_host_name(server)
    if record.kind == "SOA":
        primary, mailbox = record.data.split(" ")[:2]
        return is_host_name(primary) and is_host(names.labels_of(mailbox)[1:])
    return True


def is_fit_pointer(record: Record) -> bool:
    """Whether a pointer from the name of an address is to a host."""
    reverse = any(names.is_within(record.name, one) for one in ("in-addr.arpa.", "ip6.arpa."))
    if record.kind != "PTR" or not reverse or is_host_name(record.data):
        return True
    labels = names.labels_of(record.name)
    return len(labels) > 2 and labels[0] in BROWSING and labels[1:3] == [b"_dns-sd", b"_udp"]


def has_host_names(record: Record) -> bool:
    """Whether a record has the names of hosts where it needs them."""
    return is_fit_owner(record) and has_fit_names(record) and is_fit_pointer(record)


# What is wrong with a record by itself

def is_address_name(name: str) -> bool:
    """Whether the labels of a name are the octets of an IPv4 address."""
    labels = names.labels_of(name)
    return len(labels) == 4 and all(re.fullmatch(rb"[0-9]+", label) and int(label) < 256 for label in labels)


def digest_faults(record: Record) -> list[str]:
    """The rules that the digest of a DS breaks."""
    if record.kind != "DS":
        return []
    digest_type, digest = record.data.split(" ")[2:]
    weak = ["weak-digest"] if digest_type == "1" else []
    return weak if len(digest) == DIGITS.get(digest_type, len(digest)) else ["digest-length", *weak]


def own_faults(record: Record) -> list[str]:
    """The rules of `OWN` that a record breaks."""
    found = digest_faults(record)
    if not has_host_names(record):
        found.append("host-name")
    if record.kind == "NS" and record.name.startswith("*."):
        found.append("wildcard-ns")
    target = data.target_of(record.kind, record.data)
    if target and is_address_name(target):
        found.append("address-name")
    if any(map(UNREAD.search, [record.name, *data.names_in(record.kind, record.data)])):
        found.append("unread-octet")
    return found


# What other records make of one

class Survey:
    """A zone, its cuts, and the servers that its NS name."""

    def __init__(self, zone: Zone) -> None:
        self.zone = zone
        self.cuts: set[str] = set()
        self.servers: set[str] = set()
        for record in zone.records():
            if record.kind == "NS":
                self.servers.add(record.data)
                if record.name != zone.origin:
                    self.cuts.add(record.name)

    def is_below_cut(self, name: str) -> bool:
        """Whether a name is below a cut."""
        return bool(self.cuts) and any(one in self.cuts for one in names.above(name, self.zone.origin))

    def is_delegated(self, name: str) -> bool:
        """Whether a name is at a cut or below one."""
        return name in self.cuts or self.is_below_cut(name)

    def is_occluded(self, record: Record) -> bool:
        """Whether a delegation hides a record."""
        return self.is_delegated(record.name) and not (record.kind in ("NS", "DS") and not self.is_below_cut(record.name))

    def answering(self, name: str) -> list[Record]:
        """The records that answer for a name: those at it, and where it does not exist, those of a wildcard."""
        if self.zone.exists(name):
            return self.zone.at(name)
        encloser = names.parent(name)
        while encloser != "." and not self.zone.exists(encloser):
            encloser = names.parent(encloser)
        return self.zone.at("*." + encloser)

    def broken(self, record: Record) -> str | None:
        """The rule that a record breaks by the server that it names."""
        server = data.server_of(record.kind, record.data)
        if server is None or not names.is_within(server, self.zone.origin):
            return None
        there = self.zone.at(server)
        if has_address(there) and not has_alias(there):
            return None
        if self.is_delegated(server):
            is_cut = record.kind == "NS" and record.name != self.zone.origin
            return "missing-glue" if not has_address(there) and is_cut and not self.is_occluded(record) else None
        if self.is_occluded(record):
            return None
        answers = self.answering(server)
        return "alias-target" if has_alias(answers) else None if has_address(answers) else "missing-address"

    def dangles(self, record: Record) -> bool:
        """Whether a record is an alias of nothing."""
        target = record.data
        if record.kind != "CNAME" or not names.is_within(target, self.zone.origin):
            return False
        return not self.is_delegated(target) and not self.is_occluded(record) and not self.answering(target)

    def faults(self, record: Record) -> list[str]:
        """The rules that a record breaks, in their order."""
        found = {self.broken(record), *own_faults(record)}
        if self.dangles(record):
            found.add("dangling-alias")
        if self.is_occluded(record) and not (record.kind in ("A", "AAAA") and record.name in self.servers):
            found.add("below-cut")
        if record.kind == "DS" and not self.zone.set_of(record.name, "NS"):
            found.add("ds-without-ns")
        return [rule for rule in RULES if rule in found]


def has_address(records: list[Record]) -> bool:
    """Whether an address is among records."""
    return any(one.kind in ("A", "AAAA") for one in records)


def has_alias(records: list[Record]) -> bool:
    """Whether a CNAME is among records."""
    return any(one.kind == "CNAME" for one in records)


def findings(zone: Zone) -> list[Finding]:
    """What is wrong in a zone, in record order."""
    survey = Survey(zone)
    found = [Finding(rule, record) for record in zone.records() for rule in survey.faults(record)]
    return sorted(found, key=lambda one: data.order(one.record))


def new_findings(before: Zone, after: Zone) -> list[Finding]:
    """What is wrong in a zone after a change, and was not before."""
    old = {(one.rule, one.record.name, one.record.kind, one.record.data) for one in findings(before)}
    return [one for one in findings(after) if (one.rule, one.record.name, one.record.kind, one.record.data) not in old]
