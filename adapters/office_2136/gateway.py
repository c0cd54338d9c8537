"""What a message gets: limits, signature, and then the office's answer."""

import dataclasses
import threading
import time
import weakref
from collections.abc import Callable, Iterable, Iterator

import dns.flags
import dns.name
import dns.opcode
import dns.rcode
import dns.rdataclass
import dns.rdatatype

from office_asking import LONG, NoReply, NotGiven, Office, Reply, TooLong, identifier_of, printable

from . import message as messages
from . import updating, zones
from .limits import Buckets, Shares, place_of
from .message import BadSignature, Malformed, Message, Signed
from .notifying import Follower
from .settings import Settings
from .zones import NotSeen, NotTransferred, Zone

STRANGERS_LINES = 20  # lines of the log a second on messages without a right signature
SHORT = 400  # octets of an answer over UDP, to which the signature comes
TRANSFERS, OF_KEY = 8, 2  # at once, and of a key
CODES = {name: dns.rcode.from_text(name) for name in (
    "NOERROR", "FORMERR", "SERVFAIL", "NXDOMAIN", "REFUSED", "YXDOMAIN", "YXRRSET", "NXRRSET", "NOTAUTH", "NOTZONE")}
REFUSALS = {84: dns.rcode.REFUSED, 89: dns.rcode.REFUSED, 92: dns.rcode.REFUSED}  # of the office's limits; other 400 are FORMERR
Answers = Iterable[bytes]


@dataclasses.dataclass(frozen=True)
class Peer:
    """Where a message came from."""
    address: str
    over_tcp: bool


@dataclasses.dataclass(frozen=True)
class Job:
    """What is left to do for a message: whose turn it takes, and what gives the answers."""
    holder: str
    answers: Callable[[], Answers]
    signed: bool


@dataclasses.dataclass(frozen=True)
class Wait:
    """A message that came too early: how many seconds, and by which limit. No more than its signature was looked at."""
    seconds: float
    limit: str


@dataclasses.dataclass(frozen=True)
class Verdict:
    """What came of a message: the code, and why; and the answers, if they are more than the code."""
    code: int
    cause: str = ""
    answers: Answers | None = None


class Gateway:  # pylint: disable=too-many-instance-attributes
    """The gateway without its sockets."""

    def __init__(self, settings: Settings, log: Callable[[str], None]) -> None:
        self.settings, self.log = settings, log
        self.office = Office(settings.office, tries=settings.tries, seconds=settings.seconds)
        self.places = Buckets(settings.address_rate, settings.address_burst)
        self.holders = Buckets(settings.key_rate, settings.key_burst, len(settings.keys) + 1)
        self.lines = Buckets(STRANGERS_LINES, STRANGERS_LINES, 1)
        self.dropped = 0
        self.transfers = Shares(TRANSFERS, OF_KEY)
        self.rendering = threading.Lock()
        reader = self.office.as_caller(settings.reader) if settings.reader else None
        self.zones = {name: Zone(name, reader) for name in settings.zones} if reader else {}
        self.follower = Follower(list(self.zones.values()), settings.secondaries, settings.poll, log)

    def take(self, wire: bytes, peer: Peer) -> bytes | Job | Wait | None:
        """An answer to a message, what is left to do for one, or nothing."""
        wait = self.places.take(place_of(peer.address))
        if wait:
            return Wait(wait, "address")
        if len(wire) < messages.HEAD or wire[2] & 0x80:
            return None
        try:
            return self._take_message(messages.walk(wire), peer)
        except Malformed as error:
            return self._end_stranger(wire, peer, dns.rcode.FORMERR, str(error), messages.head(wire, dns.rcode.FORMERR))

    def drop(self, peer: Peer, limit: str) -> None:
        """Counts a message or a connection above a limit; now and then a line says so."""
        self.dropped += 1
        if not self.lines.take(None):
            self.log(f"limit={limit} address={peer.address} dropped={self.dropped}")
            self.dropped = 0

    def _end_stranger(self, wire: bytes, peer: Peer, code: int, cause: str, answer: bytes) -> bytes:  # pylint: disable=too-many-arguments
        """The answer to what is not rightly signed, which is no longer than the question, and its line in the log."""
        if self.lines.take(None):
            self.dropped += 1
        else:
            self.log(f"address={peer.address} {code_text(code)} {printable(cause)}")
        return answer if len(answer) <= len(wire) else messages.head(wire, code)

    def _take_message(self, message: Message, peer: Peer) -> bytes | Job | Wait:
        if message.opcode not in (dns.opcode.QUERY, dns.opcode.UPDATE):
            answer = messages.head(message.wire, dns.rcode.NOTIMP)
            return self._end_stranger(message.wire, peer, dns.rcode.NOTIMP, f"opcode {message.opcode}", answer)
        if message.tsig is None:
            return self._take_unsigned(message, peer)
        now = int(time.time())
        try:
            signed = messages.verify(message, self.settings.keys, now)
        except BadSignature as bad:
            answer = messages.bad_signature_answer(message, bad, now)
            return self._end_stranger(message.wire, peer, dns.rcode.NOTAUTH, f"{bad} key={bad.owner}", answer)
        wait = self.holders.take(signed.key.name)
        if wait:
            return Wait(wait, f"key {signed.key.name}")
        return Job(signed.key.name, lambda: self._answers(message, signed, peer), True)

    def _take_unsigned(self, message: Message, peer: Peer) -> bytes | Job:
        """An update without a signature is refused; a question for an SOA is answered if that is wanted, and over TCP as a whole."""
        name, kind, _ = messages.first_name(message)
        if message.opcode == dns.opcode.UPDATE or kind != dns.rdatatype.SOA or not self.settings.answer_soa:
            answer = messages.plain_answer(message, dns.rcode.REFUSED)
            return self._end_stranger(message.wire, peer, dns.rcode.REFUSED, "not signed", answer)
        if not peer.over_tcp:
            return messages.plain_answer(message, dns.rcode.NOERROR, dns.flags.TC)
        return Job("", lambda: self._plain_soa(message, name), False)

    def _plain_soa(self, message: Message, name: dns.name.Name) -> Answers:
        zone = self.zone_of(name, True)
        try:
            return [zones.soa_answer(message, self.zones[zone].look())]
        except KeyError:
            return [messages.plain_answer(message, dns.rcode.REFUSED)]
        except (NoReply, NotGiven, NotSeen, TooLong):
            return [messages.plain_answer(message, dns.rcode.SERVFAIL)]

    def zone_of(self, name: dns.name.Name, within: bool) -> dns.name.Name:
        """The zone of this name, or where any within it counts the longest that contains the name; else the root."""
        while name not in self.settings.zones and within and name != dns.name.root:
            name = name.parent()
        return name if name in self.settings.zones else dns.name.root

    def _answers(self, message: Message, signed: Signed, peer: Peer) -> Answers:
        """The answers to a message that is rightly signed, and its line in the log."""
        asked = "?"
        found: Verdict
        try:
            zone, kind, group = messages.first_name(message)
            if message.opcode == dns.opcode.UPDATE:
                asked = f"update={identifier(message, signed)} zone={printable(zone.to_text())}"
                found = self._update(message, signed, zone, (kind, group))
            else:
                asked = f"query={kind} zone={printable(zone.to_text())}"
                found = self._query(message, signed, peer, zone, (kind, group))
        except Malformed as error:
            found = Verdict(dns.rcode.FORMERR, str(error))
        except (updating.NotKept, NotTransferred) as error:
            found = Verdict(dns.rcode.REFUSED, str(error))
        except NotGiven as error:
            found = self._verdict(error.reply)
        except (NoReply, NotSeen, TooLong) as error:
            found = Verdict(dns.rcode.SERVFAIL, f"{type(error).__name__} {error}")
        self.log(f"address={peer.address} key={printable(signed.key.name)} caller={signed.key.caller} {asked} "
                 f"{code_text(found.code)} {printable(found.cause)}".rstrip())
        return [messages.answer(message, signed, found.code)] if found.answers is None else found.answers

    def _update(self, message: Message, signed: Signed, name: dns.name.Name, of_zone: tuple[int, int]) -> Verdict:
        if of_zone[0] != dns.rdatatype.SOA:
            raise Malformed("the zone section has another type than SOA")
        zone = self.zone_of(name, self.settings.find_zone)
        if zone == dns.name.root or of_zone[1] != dns.rdataclass.IN:
            return Verdict(dns.rcode.NOTAUTH, "not a zone of the gateway")
        caller = self.office.as_caller(signed.key.caller)
        narrow = (lambda at: self._narrowed(caller, at)) if self.settings.narrow_deletes else None
        body = updating.body_of(message, self.settings.dhcid_as_txt, narrow)
        verdict = self._verdict(caller.update(zone.to_text(), body, identifier(message, signed)))
        if verdict.code == dns.rcode.NOERROR:
            self.follower.wake()
        return verdict

    @staticmethod
    def _narrowed(caller: Office, name: dns.name.Name) -> list[str]:
        """The types of sets that the caller may delete at a name where it may not delete all; none if it may, or may delete no set."""
        def may(kind: str, action: str) -> bool:
            return caller.rights(name.to_text(), kind, action).granted

        sets = [kind for kind in updating.KINDS.values() if may(kind, "delete")]
        whole = len(sets) == len(updating.KINDS) and may("NS", "delegate") and may("DS", "delegate")
        return [] if whole else [kind for kind in sets if kind not in ("SOA", "NS", "DS")]

    @staticmethod
    def _verdict(reply: Reply) -> Verdict:
        """The code of the office's reply. What the office did not decide on is SERVFAIL: the message may be sent again."""
        code = CODES.get(reply.code)
        if not reply.is_of_office:
            return Verdict(dns.rcode.SERVFAIL, reply.cause())
        if reply.refusal is not None and reply.status in (400, 413):
            return Verdict(REFUSALS.get(reply.refusal, dns.rcode.FORMERR), reply.cause())
        return Verdict(dns.rcode.SERVFAIL, reply.cause()) if code is None else Verdict(code, reply.cause() if code else "")

    def _query(self, message: Message, signed: Signed, peer: Peer, name: dns.name.Name,  # pylint: disable=too-many-arguments
               of_zone: tuple[int, int]) -> Verdict:
        kind, group = of_zone
        if self.settings.answer_sets and kind in updating.KINDS and kind != dns.rdatatype.SOA and group == dns.rdataclass.IN:
            return self._set(message, signed, peer, name.canonicalize())
        if kind not in (dns.rdatatype.SOA, dns.rdatatype.AXFR, dns.rdatatype.IXFR) or group != dns.rdataclass.IN:
            return Verdict(dns.rcode.REFUSED, "only SOA, AXFR and IXFR are answered")
        zone = self.zones.get(self.zone_of(name, kind == dns.rdatatype.SOA))
        if zone is None:
            return Verdict(dns.rcode.NOTAUTH if self.zones else dns.rcode.REFUSED, "not a zone of the gateway, or there is no reader")
        caller = self.office.as_caller(signed.key.caller)
        if kind == dns.rdatatype.SOA or (kind == dns.rdatatype.IXFR and not peer.over_tcp):
            soa = zone.look()
            if not caller.rights(zone.text, "SOA", "list").granted:
                soa = zones.without_serial(soa)
            return Verdict(dns.rcode.NOERROR, "", [messages.sign(zones.soa_answer(message, soa), signed)[0]])
        if not peer.over_tcp:
            raise Malformed("AXFR over UDP")
        return self._transfer(message, signed, zone, caller)

    def _set(self, message: Message, signed: Signed, peer: Peer, name: dns.name.Name) -> Verdict:
        """The RRset that is asked for, as far as the caller may list it."""
        zone, text = self.zone_of(name, True), str(name.to_text())
        if zone == dns.name.root:
            return Verdict(dns.rcode.NOTAUTH, "not a zone of the gateway")
        wanted = text, updating.KINDS[messages.first_name(message)[1]]
        found = self.office.as_caller(signed.key.caller).list_records(zone.to_text(), text, LONG)
        wire = zones.set_answer(message, [line for line in found if (zones.fields(line)[0], zones.fields(line)[2]) == wanted])
        if not peer.over_tcp and len(wire) > SHORT:
            wire = messages.plain_answer(message, dns.rcode.NOERROR, dns.flags.TC)
        return Verdict(dns.rcode.NOERROR, "", [messages.sign(wire, signed)[0]])

    def _transfer(self, message: Message, signed: Signed, zone: Zone, caller: Office) -> Verdict:
        """The messages of a transfer, of which few are made at once, however slowly the peers take them."""
        if not self.transfers.enter(signed.key.name):
            return Verdict(dns.rcode.REFUSED, "too many transfers at once")
        try:
            lines = zones.transfer(zone, caller, zones.question_serial(message), self.settings.partial_transfers)
        except BaseException:
            self.transfers.leave(signed.key.name)
            raise
        answers = OneByOne(zones.render(message, signed, lines), self.rendering, lambda: self.transfers.leave(signed.key.name))
        incremental = sum(line.split(" ", 4)[3] == "SOA" for line in lines) != 2
        return Verdict(dns.rcode.NOERROR, f"{'incremental' if incremental else 'whole'} records={len(lines)}", answers)


class OneByOne:  # pylint: disable=too-few-public-methods
    """What is made piece by piece under a lock, and given up once, when all is made or nobody wants more."""

    def __init__(self, pieces: Iterator[bytes], lock: threading.Lock, end: Callable[[], None]) -> None:
        self.pieces, self.lock, self.end = pieces, lock, weakref.finalize(self, end)

    def __iter__(self) -> Iterator[bytes]:
        try:
            while True:
                with self.lock:
                    piece = next(self.pieces, None)
                if piece is None:
                    return
                yield piece
        finally:
            self.end()


def identifier(message: Message, signed: Signed) -> str:
    """The identifier of the update that a message is: of its key and its octets, which have its time and its first number. The
    number in the head does not count: a server that forwards a message may change it."""
    return identifier_of(b"office-2136", signed.key.name.encode(), message.wire[2:])


def code_text(code: int) -> str:
    """The name of a code."""
    return str(dns.rcode.to_text(dns.rcode.Rcode(code)))
