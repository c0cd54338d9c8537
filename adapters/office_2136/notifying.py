"""NOTIFY (RFC 1996): each secondary hears of a zone's new serial, again and again, until it answers."""

import threading
import time
from collections.abc import Callable

import dns.exception
import dns.flags
import dns.message
import dns.opcode
import dns.query
import dns.rcode
import dns.rdatatype
import dns.rrset

from office_asking import NoReply, NotGiven, TooLong, printable

from .settings import Secondary
from .zones import NotSeen, Zone, fields, serial_of

FIRST_PAUSE, LONGEST_PAUSE = 1.0, 60.0  # seconds between two tries, each twice that before it
TRIES = 12  # some eight minutes
WAIT = 3.0  # for an answer
SULK = 10.0  # after a look at a zone that failed
Log = Callable[[str], None]


class Notifier:  # pylint: disable=too-few-public-methods
    """What sends one secondary the notices of one zone."""

    def __init__(self, secondary: Secondary, log: Log) -> None:
        self.secondary, self.log = secondary, log
        self.changed = threading.Condition()
        self.soa: str | None = None  # what it has to hear of
        threading.Thread(target=self._run, daemon=True).start()

    def tell(self, soa: str) -> None:
        """The zone has a new SOA."""
        with self.changed:
            self.soa = soa
            self.changed.notify()

    def _run(self) -> None:
        while True:
            with self.changed:
                while self.soa is None:
                    self.changed.wait()
                soa = self.soa
            self._notify(soa)
            with self.changed:
                if self.soa == soa:
                    self.soa = None

    def _notify(self, soa: str) -> None:
        """Sends notices until one is answered, or a newer one is to be sent."""
        where = f"notify zone={self.secondary.zone} to={self.secondary.address} serial={serial_of(soa)}"
        for number in range(TRIES):
            said = self._send(soa)
            if said is None:
                self.log(f"{where} acknowledged")
                return
            with self.changed:
                if self.soa == soa:
                    self.changed.wait(min(LONGEST_PAUSE, FIRST_PAUSE * 2 ** number))
                if self.soa != soa:
                    return
        self.log(f"{where} given up: {printable(said or '')}")

    def _send(self, soa: str) -> str | None:
        """What was wrong, if anything."""
        owner, ttl, kind, data = fields(soa)
        notice = dns.message.make_query(self.secondary.zone, dns.rdatatype.SOA)
        notice.set_opcode(dns.opcode.NOTIFY)
        notice.flags = notice.flags & ~dns.flags.RD | dns.flags.AA
        notice.answer.append(dns.rrset.from_text(owner, ttl, "IN", kind, data))
        if self.secondary.key:
            notice.use_tsig(self.secondary.key.tsig)
        try:
            answer = dns.query.udp(notice, self.secondary.address, WAIT, self.secondary.port)
        except (dns.exception.DNSException, OSError, ValueError) as error:
            return str(error) or type(error).__name__
        return None if answer.rcode() == dns.rcode.NOERROR else str(dns.rcode.to_text(answer.rcode()))


class Follower:  # pylint: disable=too-few-public-methods
    """What looks at the zones for changes, and has their secondaries told."""

    def __init__(self, zones: list[Zone], secondaries: list[Secondary], pause: float, log: Log) -> None:
        self.pause, self.log = pause, log
        self.woken = threading.Event()
        self.zones = [(zone, [Notifier(one, log) for one in secondaries if one.zone == zone.name]) for zone in zones]
        self.seen: dict[str, str] = {}
        self.wait_until: dict[str, float] = {}
        threading.Thread(target=self._run, daemon=True).start()

    def wake(self) -> None:
        """The gateway has made a change."""
        self.woken.set()

    def _run(self) -> None:
        while True:
            for zone, notifiers in self.zones:
                if notifiers and self.wait_until.get(zone.text, 0) <= time.monotonic():
                    self._look(zone, notifiers)
            self.woken.wait(self.pause)
            self.woken.clear()

    def _look(self, zone: Zone, notifiers: list[Notifier]) -> None:
        try:
            soa = zone.look()
        except (NoReply, NotGiven, NotSeen, TooLong) as error:
            self.log(f"look zone={zone.text} {type(error).__name__}: {printable(str(error))}")
            self.wait_until[zone.text] = time.monotonic() + (1 if isinstance(error, NoReply) else SULK)
            return
        if self.seen.get(zone.text) != soa:
            self.seen[zone.text] = soa
            for notifier in notifiers:
                notifier.tell(soa)
