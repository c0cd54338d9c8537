"""The zones that the gateway serves: their serials, which it follows, and what is transferred of them (RFC 5936, RFC 1995).

A key gets a transfer if its caller may list the SOA at the origin, and if what the caller gets equals what the reader gets, to the
octet, at the same serial. The reader is the caller by which the gateway itself looks at the zone, and may list all of it."""

import collections
import dataclasses
import threading
from collections.abc import Iterable, Iterator

import dns.exception
import dns.flags
import dns.name
import dns.rdata
import dns.rdataclass
import dns.rdataset
import dns.rdatatype
import dns.renderer
from dns.rdtypes.ANY.SOA import SOA

from office_asking import Change, NoReply, Office, TooLong

from . import message as messages
from .message import Message, Signed

STEPS = 10_000  # serials that are remembered of a zone
PROBE = 64 << 10  # octets of a list of changes by which the last number is looked for
LONG_MESSAGE = 16_000  # octets after which the next message of a transfer begins: pointers reach 16,384
LONGEST_MESSAGE = 65_000
VERIFY = 60  # looks after which the last change is read again: an older store may have come back
TRIES = 3


class NotTransferred(Exception):
    """Why a transfer is refused."""


class NotSeen(Exception):
    """The reader does not see the zone's SOA."""


@dataclasses.dataclass(frozen=True)
class Step:
    """A change by its number, and the serials before and after it."""
    number: int
    before: int
    after: int


def fields(line: str) -> tuple[str, int, str, str]:
    """Owner, TTL, type and data of a record line."""
    owner, ttl, _, kind, data = line.split(" ", 4)
    return owner, int(ttl), kind, data


def soa_of(lines: Iterable[str], zone: str) -> str | None:
    """The line of the zone's SOA."""
    return next((line for line in lines if (found := fields(line))[0] == zone and found[2] == "SOA"), None)


def serial_of(line: str) -> int:
    """The serial of the line of an SOA."""
    return int(fields(line)[3].split(" ")[2])


def is_newer(one: int, other: int) -> bool:
    """Whether a serial is greater than another (RFC 1982)."""
    return 0 < (one - other) % (1 << 32) < 1 << 31


class Zone:  # pylint: disable=too-many-instance-attributes
    """A zone, and the last serials that it had."""

    def __init__(self, name: dns.name.Name, reader: Office) -> None:
        self.name, self.text, self.reader = name, str(name.to_text()), reader
        self.lock = threading.Lock()
        self.steps: collections.deque[Step] = collections.deque(maxlen=STEPS)
        self.last = 0  # the number of the last change that was seen
        self.looks = 0
        self.soa: str | None = None

    def look(self) -> str:
        """The line of the SOA as it is now; NotSeen, NotGiven or NoReply."""
        with self.lock:
            self.looks += 1
            if self.soa is None or not self._follow(again=self.looks % VERIFY == 0):
                self._begin()
            if self.soa is None:
                raise NotSeen(self.text)
            return self.soa

    def _begin(self) -> None:
        """Finds the last change, or where there is none the SOA in the list of records."""
        self.steps.clear()
        self.soa, self.last = None, 0
        if not self.reader.rights(self.text, "SOA", "list").granted:
            raise NotSeen(self.text)
        changes = self._last_changes()
        self._note(changes)
        if not changes:
            self.soa = soa_of(self.reader.list_records(self.text), self.text)

    def _last_changes(self) -> list[Change]:
        """The last changes: some of them if all are too long for a probe, and none if there is none."""
        some, none, first = 0, 0, 1  # there are changes from number `some` on, and none from `none` on, if that is known
        while not none or none - some > 1:
            try:
                found = self.reader.changes(self.text, first, PROBE)
            except TooLong:
                some = first
            else:
                if found or first == 1:
                    return found
                none = first
            first = (some + none) // 2 if none else some * 2
        return self.reader.changes(self.text, some)

    def _follow(self, again: bool) -> bool:
        """Reads the changes since the last; false if the store is not the one that they were read of."""
        first = self.last if again and self.steps else self.last + 1
        try:
            changes = self.reader.changes(self.text, first)
        except TooLong:
            return False
        if first == self.last:
            if not changes or self._step(changes[0]) != self.steps[-1]:
                return False
            del changes[0]
        return self._note(changes)

    def _step(self, change: Change) -> Step | None:
        before, after = soa_of(change.removed, self.text), soa_of(change.added, self.text)
        return Step(change.number, serial_of(before), serial_of(after)) if before and after else None

    def _note(self, changes: list[Change]) -> bool:
        for change in changes:
            step = self._step(change)
            if step is None or (self.last and change.number != self.last + 1):
                return False
            self.steps.append(step)
            self.last, self.soa = change.number, soa_of(change.added, self.text)
        return True

    def number_from(self, serial: int) -> int | None:
        """The number of the last change that was made to the zone with this serial."""
        with self.lock:
            return next((step.number for step in reversed(self.steps) if step.before == serial), None)


def transfer(zone: Zone, caller: Office, serial: int | None, partial: bool) -> list[str]:
    """The record lines of a transfer: incremental from a serial if the office's changes lead from it, else whole."""
    if not caller.rights(zone.text, "SOA", "list").granted:
        raise NotTransferred("the caller may not list the SOA")
    for _ in range(TRIES):
        now = serial_of(zone.look())
        if serial is not None and not is_newer(now, serial):
            return [zone.look()]
        lines = _lines(zone, caller, serial)
        if partial or caller.caller == zone.reader.caller:
            return lines
        all_lines = _lines(zone, zone.reader, serial)
        if lines == all_lines:
            return lines
        if lines[:1] == all_lines[:1]:
            raise NotTransferred("the caller may not list all of the zone")
    raise NoReply("the zone changes too often")


def _lines(zone: Zone, caller: Office, serial: int | None) -> list[str]:
    number = zone.number_from(serial) if serial is not None else None
    if number is not None and serial is not None:
        try:
            steps = _incremental(zone.text, caller.changes(zone.text, number), number, serial)
        except TooLong:
            steps = None
        if steps:
            return steps
    records = caller.list_records(zone.text)
    soa = soa_of(records[:1], zone.text)
    if soa is None:
        raise NotTransferred("the caller does not see the SOA")
    return [*records, soa]


def _incremental(zone: str, changes: list[Change], number: int, serial: int) -> list[str] | None:
    """The lines of an IXFR, or nothing if the changes do not lead from the serial, one to the next."""
    lines: list[str] = []
    last = None
    for change in changes:
        before, after = soa_of(change.removed, zone), soa_of(change.added, zone)
        if not before or not after or (last and before != last):
            return None
        if (serial_of(before), change.number) != (serial, number):
            return None
        lines += [before, *(line for line in change.removed if line != before), after, *(line for line in change.added if line != after)]
        last, serial, number = after, serial_of(after), number + 1
    return [last, *lines, last] if last else None


def render(asked: Message, signed: Signed, lines: Iterable[str]) -> Iterator[bytes]:
    """The messages of a transfer, each with a signature (RFC 8945 section 5.3.1)."""
    context = None
    renderer = _begun(asked, True)
    for line in lines:
        if len(renderer.output.getbuffer()) > LONG_MESSAGE:
            wire, context = messages.sign(_finished(renderer), signed, context, True)
            yield wire
            renderer = _begun(asked, False)
        add(renderer, dns.renderer.ANSWER, line)
    yield messages.sign(_finished(renderer), signed, context, True)[0]


def _begun(asked: Message, first: bool) -> dns.renderer.Renderer:
    flags = dns.flags.QR | dns.flags.AA | asked.wire[2] << 8 & dns.flags.RD
    renderer = dns.renderer.Renderer(asked.number, flags, LONGEST_MESSAGE)  # type: ignore[no-untyped-call]
    if first:
        name, kind, group = messages.first_name(asked)
        renderer.add_question(name, kind, group)  # type: ignore[no-untyped-call]
    return renderer


def _finished(renderer: dns.renderer.Renderer) -> bytes:
    renderer.write_header()  # type: ignore[no-untyped-call]
    return bytes(renderer.get_wire())  # type: ignore[no-untyped-call]


def add(renderer: dns.renderer.Renderer, section: int, line: str) -> None:
    """Adds the record of a line to a section."""
    owner, ttl, kind, data = fields(line)
    rdata = dns.rdata.from_text(dns.rdataclass.IN, kind, data)
    renderer.add_rdataset(section, dns.name.from_text(owner), dns.rdataset.from_rdata(ttl, rdata))  # type: ignore[no-untyped-call]


def soa_answer(asked: Message, line: str) -> bytes:
    """The answer to a question for the SOA of a name: the zone's SOA, or that the name has none, whose zone's SOA this is."""
    renderer = _begun(asked, True)
    at_origin = messages.first_name(asked)[0] == dns.name.from_text(fields(line)[0])
    add(renderer, dns.renderer.ANSWER if at_origin else dns.renderer.AUTHORITY, line)
    return _finished(renderer)


def set_answer(asked: Message, lines: Iterable[str]) -> bytes:
    """The answer to a question for an RRset: these records."""
    renderer = _begun(asked, True)
    for line in lines:
        add(renderer, dns.renderer.ANSWER, line)
    return _finished(renderer)


def without_serial(line: str) -> str:
    """The line of an SOA with serial 0, for a caller that may not see that others changed something."""
    owner, ttl, kind, data = fields(line)
    words = data.split(" ")
    return " ".join([owner, str(ttl), "IN", kind, *words[:2], "0", *words[3:]])


def question_serial(asked: Message) -> int | None:
    """The serial that the client of an IXFR has: that of the SOA in the authority section. AXFR has none."""
    if messages.first_name(asked)[1] != dns.rdatatype.IXFR:
        return None
    parser = messages.Parser(asked.wire, asked.sections[2])
    try:
        parser.get_name()
        kind, _, _, length = parser.get_struct("!HHIH")
        with parser.restrict_to(length):
            found = dns.rdata.from_wire_parser(dns.rdataclass.IN, kind, parser)
    except dns.exception.DNSException:
        return None
    return found.serial if isinstance(found, SOA) else None
