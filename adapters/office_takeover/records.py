"""Records of a zone of any types, as a master file or a transfer has them, and their lines."""

import contextlib
import dataclasses
import os
import re
from collections.abc import Iterable
from typing import Any

import dns.exception
import dns.name
import dns.rdata
import dns.rdataclass
import dns.rdatatype
import dns.tokenizer
import dns.zonefile

from office_asking import printable
from office_records import TYPES
from office_takeover.named import Wrong

GENERIC = re.compile(r"^(?P<head>[^\n;\"]*\s)(?P<type>\w+)[ \t]+\\#[ \t]+(?P<length>[0-9]{1,5})(?P<data>(?:[ \t]+[0-9A-Fa-f]+)*)[ \t\r]*$", re.M)
LARGEST = 256 << 20  # octets of a master file
NEW = ".office-takeover"  # the end of the name of a file that is not whole yet
SIGNER = {"RRSIG", "NSEC", "NSEC3", "NSEC3PARAM", "DNSKEY", "CDS", "CDNSKEY", "ZONEMD", "SIG", "NXT", "TYPE65534"}  # BIND's own: 65534


@dataclasses.dataclass(frozen=True)
class Entry:
    """A record."""
    name: dns.name.Name
    ttl: int
    data: dns.rdata.Rdata

    @property
    def type(self) -> str:
        """Its type as text."""
        return str(dns.rdatatype.to_text(self.data.rdtype))

    def line(self, ttl: int) -> str:
        """Its line with a TTL: with the text of its data, or as RFC 3597 has it if the text does not read back."""
        return f"{self.name.to_text()} {ttl} IN {self.type} {_text(self.data)}"


def _text(data: dns.rdata.Rdata) -> str:
    wire = data.to_wire()
    assert wire is not None
    try:
        text = str(data.to_text())
        again = dns.rdata.from_text(dns.rdataclass.IN, data.rdtype, text, dns.name.root, relativize=False)
        if again.to_wire() == wire and text.isascii() and text.isprintable():
            return text
    except (dns.exception.DNSException, ValueError):
        pass
    return f"\\# {len(wire)} {wire.hex()}"


class Zone:
    """The records of a zone, each once, in the order in which they came."""

    def __init__(self, origin: dns.name.Name) -> None:
        self.origin = origin
        self.entries: dict[tuple[dns.name.Name, int, int, bytes], Entry] = {}
        self.ttls: dict[tuple[dns.name.Name, int, int], int] = {}  # the least of each set (RFC 2181 section 5.2)

    def add(self, name: dns.name.Name, ttl: int, data: dns.rdata.Rdata) -> None:
        """Takes a record in."""
        if not name.is_subdomain(self.origin):
            raise Wrong(f"{printable(name.to_text())} is not within {self.origin.to_text()}")
        place = name.canonicalize(), int(data.rdtype), int(data.covers())
        octets = data.to_digestable()
        self.entries.setdefault((*place, octets), Entry(name, ttl, data))
        self.ttls[place] = min(ttl, self.ttls.get(place, ttl))

    def lines(self) -> list[tuple[Entry, str]]:
        """Each record with its line, the SOA first."""
        found = [(one, one.line(self.ttls[place[:3]])) for place, one in self.entries.items()]
        return sorted(found, key=lambda pair: pair[0].type != "SOA")

    def parts(self, dhcid_as_text: bool = False) -> "Parts":
        """What an office keeps, what belongs to a signer, and the rest. A DS at the origin is the parent's, and an office keeps none.
        A DHCID may be the TXT that the gateway has in its place."""
        parts = Parts([], [], [])
        for one, line in self.lines():
            if dhcid_as_text and one.type == "DHCID":
                name, ttl, _, _, data = line.split(" ", 4)
                parts.office.append(f'_dhcid.{name} {ttl} IN TXT "dhcid={data.replace(" ", "")}"')
                continue
            is_kept = one.type in TYPES and (one.type != "DS" or one.name != self.origin)
            (parts.office if is_kept else parts.signer if one.type in SIGNER else parts.rest).append(line)
        if (self.origin, dns.rdatatype.SOA, dns.rdatatype.NONE) not in self.ttls:
            raise Wrong(f"there is no SOA at {self.origin.to_text()}")
        return parts


@dataclasses.dataclass
class Parts:
    """A zone in three: record lines."""
    office: list[str]
    signer: list[str]
    rest: list[str]


class _Reader(dns.zonefile.Reader):  # pylint: disable=too-few-public-methods
    """Reads a master file. A TTL that is stated goes before an SOA's MINIMUM (RFC 1035 section 5.1)."""

    def _rr_line(self) -> None:
        known = self.default_ttl_known
        super()._rr_line()  # type: ignore[no-untyped-call]
        if self.default_ttl_known and not known:
            self.default_ttl_known = False
            if not self.last_ttl_known:
                self.last_ttl, self.last_ttl_known = self.default_ttl, True


class _Into:  # pylint: disable=too-few-public-methods
    """What the reader asks a transaction for: names stay absolute, and nothing is passed over."""

    def __init__(self, zone: Zone) -> None:
        self.manager, self.zone = self, zone
        self.add = zone.add

    def origin_information(self) -> tuple[dns.name.Name, bool, dns.name.Name]:
        """The root, so that the reader itself drops no record as outside the zone."""
        return dns.name.root, False, dns.name.root

    def check_put_rdataset(self, _: Any) -> None:
        """No check: an office has its own."""


def _is_known(kind: dns.rdatatype.RdataType) -> bool:
    """Whether dnspython has a form of its own for data of a type."""
    known = dns.rdata.get_rdata_class(dns.rdataclass.IN, kind)  # type: ignore[no-untyped-call]
    return known is not dns.rdata.GenericRdata


def _presented(found: re.Match[str]) -> str:
    """A record of RFC 3597's form in its own, if its type is known: the reader takes names in such data for relative ones."""
    try:
        kind, data = dns.rdatatype.from_text(found["type"]), bytes.fromhex(found["data"])
        if len(data) != int(found["length"]) or not _is_known(kind):
            return found[0]
        text = dns.rdata.from_wire(dns.rdataclass.IN, kind, data, 0, len(data)).to_text()
    except (dns.exception.DNSException, ValueError):
        return found[0]
    return f"{found['head']}{found['type']} {text}"


def read_master(text: str, origin: dns.name.Name, path: str) -> Zone:
    """The records of a master file. $INCLUDE and $GENERATE are refused: named-compilezone writes them out."""
    zone = Zone(origin)
    reader = _Reader(dns.tokenizer.Tokenizer(GENERIC.sub(_presented, text), path), dns.rdataclass.IN, _Into(zone),  # type: ignore[arg-type]
                     allow_directives={"$ORIGIN", "$TTL"})
    reader.current_origin = reader.last_name = origin
    try:
        reader.read()
    except (dns.exception.DNSException, ValueError, UnicodeError) as error:
        hint = "; `dig +unknownformat` writes types that are not known here as RFC 3597 has them" if "generic rdata" in str(error) else ""
        raise Wrong(printable(str(error), 400) + hint) from None
    return zone


def write(path: str, lines: Iterable[str]) -> None:
    """Puts lines in the place of a file, whole or not at all. What a killed run left beside it goes."""
    new = path + NEW
    with contextlib.suppress(FileNotFoundError):
        os.unlink(new)
    handle = os.open(new, os.O_WRONLY | os.O_CREAT | os.O_EXCL | os.O_NOFOLLOW | os.O_CLOEXEC, 0o644)
    try:
        with open(handle, "w", encoding="ascii") as file:
            file.writelines(line + "\n" for line in lines)
            file.flush()
            os.fsync(handle)
        os.replace(new, path)
    except BaseException:
        os.unlink(new)
        raise
