"""Updates of RFC 2136: from the sections of a message, to the office's prerequisites and operations.

What is asked of the office is a function of the message alone, but for `narrow-deletes`: a message sent again is the same update."""

import dataclasses
from collections.abc import Callable, Iterator
from typing import Any

import dns.exception
import dns.name
import dns.rdata
import dns.rdataclass
import dns.rdatatype

from office_records import TYPES

from .message import Malformed, Message, Parser

KINDS: dict[int, str] = {dns.rdatatype.from_text(word): word for word in TYPES}
DHCID = dns.rdatatype.DHCID
DHCID_LABEL = b"_dhcid"  # with `dhcid-as-txt`, the DHCID of a name is kept at this label below it
ANY, NONE, IN = dns.rdataclass.ANY, dns.rdataclass.NONE, dns.rdataclass.IN
MOST_PREREQUISITES, MOST_OPERATIONS = 64, 256  # what the office takes
MOST_NARROWED = 16  # names that `narrow-deletes` asks for, each with some ten questions
Item = dict[str, Any]
Narrow = Callable[[dns.name.Name], list[str]]


class NotKept(Exception):
    """What the office does not take, though it is well-formed: REFUSED."""


@dataclasses.dataclass(frozen=True)
class Record:
    """A record of a section as it came."""
    name: dns.name.Name
    kind: int
    group: int
    ttl: int
    length: int
    data: dns.rdata.Rdata | None

    def item(self, word: str, value: str, **more: Any) -> Item:
        """An item of the office at the record's name."""
        return {word: value, "name": self.name.to_text(), **more}


def body_of(message: Message, dhcid_as_txt: bool, narrow: Narrow | None) -> dict[str, Any]:
    """The office's update of a message of which the zone section was read."""
    if message.counts[1] > MOST_PREREQUISITES or message.counts[2] > MOST_OPERATIONS:
        raise NotKept(f"more than {MOST_PREREQUISITES} prerequisites or {MOST_OPERATIONS} operations")
    prerequisites = list(_records(message, 1, _check_prerequisite))
    operations = list(_records(message, 2, _check_operation))
    for record in prerequisites + operations:
        if record.kind != dns.rdatatype.ANY and record.kind not in KINDS and not (dhcid_as_txt and record.kind == DHCID):
            raise NotKept(f"type {record.kind}")
    narrowed = _narrowed(operations, narrow)
    return {"prerequisites": [item for record in prerequisites for item in _tests(record, prerequisites, dhcid_as_txt)],
            "operations": [item for record in operations for item in _changes(record, narrowed, dhcid_as_txt)]}


def _records(message: Message, section: int, check: Callable[[Record], None]) -> Iterator[Record]:
    parser = Parser(message.wire, message.sections[section])
    try:
        for _ in range(message.counts[section]):
            name = parser.get_name()
            kind, group, ttl, length = parser.get_struct("!HHIH")
            with parser.restrict_to(length):
                data = None
                if group in (IN, NONE) and length and (kind in KINDS or kind == DHCID):
                    data = dns.rdata.from_wire_parser(IN, kind, parser)
                else:
                    parser.get_remaining()
            record = Record(name, kind, group, ttl, length, data)
            check(record)
            yield record
    except dns.exception.DNSException as error:
        raise Malformed(f"{'prerequisite' if section == 1 else 'operation'}: {type(error).__name__}") from None


def _is_meta(kind: int) -> bool:
    """Whether no record has this type: those of questions, and of messages (RFC 6895 section 3.1)."""
    return kind == 0 or kind == dns.rdatatype.OPT or 128 <= kind <= 255


def _check_prerequisite(record: Record) -> None:
    """RFC 2136 section 3.2.5: TTL 0; class ANY or NONE without data; else the zone's class with data."""
    any_type = record.kind == dns.rdatatype.ANY
    if record.ttl != 0:
        raise Malformed("a prerequisite has a TTL")
    if record.group not in (ANY, NONE, IN):
        raise Malformed("a prerequisite has another class than ANY, NONE and the zone's")
    if (record.group == IN) != bool(record.length):
        raise Malformed("the data of a prerequisite are missing, or not wanted")
    if _is_meta(record.kind) and not (any_type and record.group != IN):
        raise Malformed("a prerequisite has a type that no record has")


def _check_operation(record: Record) -> None:
    """RFC 2136 section 3.4.1.3: what each class has."""
    any_type = record.kind == dns.rdatatype.ANY
    if record.group not in (ANY, NONE, IN):
        raise Malformed("an operation has another class than ANY, NONE and the zone's")
    if record.group != IN and record.ttl != 0:
        raise Malformed("a deletion has a TTL")
    if (record.group == ANY) == bool(record.length):
        raise Malformed("the data of an operation are missing, or not wanted")
    if _is_meta(record.kind) and not (any_type and record.group == ANY):
        raise Malformed("an operation has a type that no record has")


def _narrowed(operations: list[Record], narrow: Narrow | None) -> dict[dns.name.Name, list[str]]:
    """The types that take the place of the deletion of each name."""
    names = dict.fromkeys(record.name for record in operations if record.kind == dns.rdatatype.ANY)
    if narrow is None:
        return {}
    if len(names) > MOST_NARROWED:
        raise NotKept(f"more than {MOST_NARROWED} names to delete")
    return {name: narrow(name) for name in names}


def _tests(record: Record, all_of: list[Record], dhcid_as_txt: bool) -> list[Item]:
    """The tests of a prerequisite. That a name is used follows from a test of its DHCID, and a DHCID makes its name used."""
    if record.kind == dns.rdatatype.ANY and record.group == ANY:
        implied = any(one.kind == DHCID and one.group != NONE and one.name == record.name for one in all_of)
        return [] if implied else [record.item("test", "name-used")]
    if record.kind == dns.rdatatype.ANY:
        also = [{"test": "name-unused", "name": _dhcid_name(record.name).to_text()}] if dhcid_as_txt else []
        return [record.item("test", "name-unused"), *also]
    if record.group == IN:
        return [_with_data(record, "test", "rrset-equals")]
    return [_with_type(record, "test", "rrset-exists" if record.group == ANY else "rrset-absent")]


def _changes(record: Record, narrowed: dict[dns.name.Name, list[str]], dhcid_as_txt: bool) -> list[Item]:
    """The operations of an operation."""
    if record.kind == dns.rdatatype.ANY:
        sets = [record.item("op", "delete-rrset", type=kind) for kind in narrowed.get(record.name, [])]
        also = [{"op": "delete-rrset", "name": _dhcid_name(record.name).to_text(), "type": "TXT"}] if dhcid_as_txt else []
        return (sets or [record.item("op", "delete-name")]) + also
    if record.group == ANY:
        return [_with_type(record, "op", "delete-rrset")]
    if record.group == NONE:
        return [_with_data(record, "op", "delete-record")]
    # RFC 2181 section 8: a TTL with the first bit set is 0
    return [{**_with_data(record, "op", "add"), "ttl": record.ttl if record.ttl < 1 << 31 else 0}]


def _with_type(record: Record, word: str, value: str) -> Item:
    if record.kind == DHCID:
        return {word: value, "name": _dhcid_name(record.name).to_text(), "type": "TXT"}
    return record.item(word, value, type=KINDS[record.kind])


def _with_data(record: Record, word: str, value: str) -> Item:
    text = record.data.to_text() if record.data else ""
    if record.kind == DHCID:
        text = '"dhcid=' + text.replace(" ", "") + '"'
    return {**_with_type(record, word, value), "data": text}


def _dhcid_name(name: dns.name.Name) -> dns.name.Name:
    """Where the DHCID of a name is kept."""
    try:
        return dns.name.Name((DHCID_LABEL, *name.labels))
    except dns.exception.DNSException:
        raise NotKept("a name that is too long for the label of its DHCID") from None
