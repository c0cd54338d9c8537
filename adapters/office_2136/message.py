"""Messages of DNS on the wire: a walk over one that costs little, its signature (RFC 8945), and answers.

Nothing follows a compression pointer before the signature is verified, and no name takes more than 255 steps after that."""

import dataclasses
import hmac
import struct
import time
from collections.abc import Mapping
from typing import Any

import dns.exception
import dns.flags
import dns.name
import dns.opcode
import dns.rcode
import dns.rdata
import dns.rdataclass
import dns.rdatatype
import dns.tsig
import dns.wire
from dns.rdtypes.ANY.TSIG import TSIG

from .settings import Key

Context = dns.tsig.HMACTSig | None  # what the next of several messages needs of those before it

HEAD = 12
LEAST_MAC = 10  # RFC 8945 section 5.2.2.1
FUDGE = 300


class Malformed(Exception):
    """A message that is not of its form: FORMERR."""


class Parser(dns.wire.Parser):
    """A parser whose names cost no more than 255 steps, whatever pointers there are."""

    def get_name(self, origin: dns.name.Name | None = None) -> dns.name.Name:
        """The name that begins here."""
        where, left = self.current, 255
        while left > 0:
            if where >= len(self.wire):
                raise dns.exception.FormError
            count = self.wire[where]
            if count == 0:
                return super().get_name(origin)
            if count >= 192 and where + 1 < len(self.wire):
                where, left = (count & 63) << 8 | self.wire[where + 1], left - 1
            else:
                where, left = where + 1 + count, left - 1 - count
        raise dns.exception.FormError


@dataclasses.dataclass(frozen=True)
class Message:
    """A message of which the head, and the place of each section, are known."""
    wire: bytes
    counts: tuple[int, int, int, int]
    sections: tuple[int, int, int, int]  # where each section begins
    tsig: int | None  # where the record of the signature begins

    @property
    def number(self) -> int:
        """The number by which the client knows the answer."""
        return int.from_bytes(self.wire[:2], "big")

    @property
    def opcode(self) -> int:
        """What is asked for."""
        return self.wire[2] >> 3 & 15


@dataclasses.dataclass(frozen=True)
class Signed:
    """Whose key signed a message, and what the answer's signature needs of it."""
    key: Key
    tsig: TSIG


class BadSignature(Exception):
    """A signature that does not hold: NOTAUTH, with an error of TSIG; `signed` if the answer is to be signed all the same."""

    def __init__(self, error: dns.rcode.Rcode, owner: dns.name.Name, tsig: TSIG, signed: Signed | None = None) -> None:
        super().__init__(dns.rcode.to_text(error, True))
        self.error, self.owner, self.tsig, self.signed = error, owner, tsig, signed


def walk(wire: bytes) -> Message:
    """The places of a message's sections, by one pass over its octets. It has a head."""
    counts = struct.unpack("!4H", wire[4:HEAD])
    where, sections, tsig = HEAD, [], None
    for section, count in enumerate(counts):
        sections.append(where)
        for number in range(count):
            start = where
            where = _after_name(wire, where) + (4 if section == 0 else 10)
            if where > len(wire):
                raise Malformed("it ends within a record")
            if section == 0:
                continue
            kind, = struct.unpack("!H", wire[where - 10:where - 8])
            where += int.from_bytes(wire[where - 2:where], "big")
            if where > len(wire):
                raise Malformed("it ends within the data of a record")
            if kind == dns.rdatatype.TSIG:
                if section != 3 or number != count - 1:
                    raise Malformed("the signature is not the last record")
                tsig = start
    if where != len(wire):
        raise Malformed("octets follow the last record")
    return Message(wire, (counts[0], counts[1], counts[2], counts[3]), (sections[0], sections[1], sections[2], sections[3]), tsig)


def _after_name(wire: bytes, where: int) -> int:
    while where < len(wire):
        count = wire[where]
        if count == 0:
            return where + 1
        if count >= 192:
            return where + 2
        if count >= 64:
            raise Malformed("a label has an unknown type")
        where += 1 + count
    raise Malformed("it ends within a name")


def first_name(message: Message) -> tuple[dns.name.Name, int, int]:
    """The name, type and class of the one record of the first section, whose name has nothing before it to point to."""
    end = _after_name(message.wire, HEAD)
    if message.counts[0] != 1 or (end >= HEAD + 2 and message.wire[end - 1] != 0):
        raise Malformed("the first section does not have one record with a plain name")
    try:
        name = Parser(message.wire, HEAD).get_name()
    except dns.exception.DNSException as error:
        raise Malformed(f"bad name: {type(error).__name__}") from None
    kind, group = struct.unpack("!HH", message.wire[end:end + 4])
    return name, kind, group


def verify(message: Message, keys: Mapping[dns.name.Name, Key], now: int) -> Signed:
    """Whose signature a message has: of its key, its MAC, its time and the MAC's length, in the order of RFC 8945 section 5.2."""
    owner, tsig = _tsig_of(message)
    key = keys.get(owner)
    if key is None or key.tsig.algorithm != tsig.algorithm:
        raise BadSignature(dns.rcode.BADKEY, owner, tsig)
    count = struct.pack("!H", message.counts[3] - 1)
    stripped = message.wire[:10] + count + message.wire[HEAD:message.tsig]
    whole = _signed_tsig(stripped, key, tsig, tsig.time_signed)[0].mac
    if not max(LEAST_MAC, len(whole) // 2) <= len(tsig.mac) <= len(whole):
        raise Malformed("the MAC has a length that none has")
    if not hmac.compare_digest(whole[:len(tsig.mac)], tsig.mac):
        raise BadSignature(dns.rcode.BADSIG, owner, tsig)
    signed = Signed(key, tsig)
    if abs(tsig.time_signed - now) > tsig.fudge:
        raise BadSignature(dns.rcode.BADTIME, owner, tsig, signed)
    if len(tsig.mac) < len(whole):
        raise BadSignature(dns.rcode.BADTRUNC, owner, tsig)
    return signed


def _tsig_of(message: Message) -> tuple[dns.name.Name, TSIG]:
    parser = Parser(message.wire, message.tsig or 0)
    try:
        owner = parser.get_name()
        kind, group, ttl, length = parser.get_struct("!HHIH")
        with parser.restrict_to(length):
            tsig = dns.rdata.from_wire_parser(group, kind, parser)
    except dns.exception.DNSException as error:
        raise Malformed(f"bad signature record: {type(error).__name__}") from None
    if group != dns.rdataclass.ANY or ttl != 0 or not isinstance(tsig, TSIG):
        raise Malformed("the signature has another class than ANY, or a TTL")
    return owner, tsig


def head(message: bytes, code: int, counts: tuple[int, int, int, int] = (0, 0, 0, 0), flags: int = 0) -> bytes:
    """The head of the answer to a message."""
    kept = int.from_bytes(message[2:4], "big") & (0x7800 | dns.flags.RD)
    return message[:2] + struct.pack("!H4H", dns.flags.QR | kept | flags | code, *counts)


def plain_answer(message: Message, code: int, flags: int = 0) -> bytes:
    """An answer with the first section of the message and a code."""
    first = message.wire[HEAD:message.sections[1]] if message.counts[0] == 1 else b""
    return head(message.wire, code, (1 if first else 0, 0, 0, 0), flags) + first


def answer(message: Message, signed: Signed, code: int) -> bytes:
    """The same, signed."""
    return sign(plain_answer(message, code), signed)[0]


def sign(wire: bytes, signed: Signed, context: Context = None, several: bool = False) -> tuple[bytes, Context]:
    """A message with its signature, and what the next of several messages needs."""
    tsig = _tsig(signed.tsig, int.from_bytes(wire[:2], "big"), fudge=FUDGE)
    tsig, context = _signed_tsig(wire, signed.key, tsig, int(time.time()), signed.tsig.mac, context, several)
    return with_tsig(wire, signed.key.tsig.name, tsig), context


def _tsig(base: TSIG, number: int, **fields: Any) -> TSIG:
    """A record of a signature without a MAC, for a message of a number."""
    tsig = base.replace(**{"mac": b"", "original_id": number, "error": 0, "other": b"", **fields})
    assert isinstance(tsig, TSIG)
    return tsig


def _signed_tsig(wire: bytes, key: Key, tsig: TSIG, when: int,  # pylint: disable=too-many-arguments
                 request_mac: bytes = b"", context: Context = None, several: bool = False) -> tuple[TSIG, Context]:
    """The record with the MAC of a message."""
    return dns.tsig.sign(wire, key.tsig, tsig, when, request_mac, context, several)  # type: ignore[no-untyped-call, no-any-return]


def with_tsig(wire: bytes, owner: dns.name.Name, tsig: TSIG) -> bytes:
    """A message with the record of a signature after it."""
    data = tsig.to_wire() or b""
    count = int.from_bytes(wire[10:HEAD], "big") + 1
    record = (owner.to_wire() or b"") + struct.pack("!HHIH", dns.rdatatype.TSIG, dns.rdataclass.ANY, 0, len(data)) + data
    return wire[:10] + struct.pack("!H", count) + wire[HEAD:] + record


def bad_signature_answer(message: Message, bad: BadSignature, now: int) -> bytes:
    """NOTAUTH with the error of TSIG: signed with this server's time where the client's was wrong, else not signed."""
    wire = head(message.wire, dns.rcode.NOTAUTH)
    other = now.to_bytes(6, "big") if bad.error == dns.rcode.BADTIME else b""
    tsig = _tsig(bad.tsig, message.number, error=bad.error, other=other)
    if bad.signed:
        tsig = _signed_tsig(wire, bad.signed.key, tsig, tsig.time_signed, bad.tsig.mac)[0]
    return with_tsig(wire, bad.owner, tsig)
