"""The gateway of DNS UPDATE without its sockets, beside an office that is a list in memory."""

import os
import pathlib
import random
import struct
import sys
import tempfile
import threading
import time
import tomllib  # pylint: disable=wrong-import-order
import unittest
from typing import Any

import dns.exception
import dns.flags
import dns.message
import dns.name
import dns.opcode
import dns.rcode
import dns.rdataclass
import dns.rdatatype
import dns.tsig
import dns.tsigkeyring
import dns.update

sys.path.insert(0, str(pathlib.Path(__file__).parents[1]))

# pylint: disable=wrong-import-position, import-error
from office_2136 import limits, message, settings, updating, zones  # noqa: E402
from office_2136.gateway import Gateway, Job, Peer, Wait  # noqa: E402
from office_2136.message import Malformed  # noqa: E402
from office_asking import Change, NoReply, NotGiven, Reply, Right, TooLong  # noqa: E402

ZONE = dns.name.from_text("example.org.")
SECRET = "MDEyMzQ1Njc4OTAxMjM0NTY3ODkwMTIzNDU2Nzg5MDE="
RING = dns.tsigkeyring.from_text({name: ("hmac-sha256", SECRET) for name in ("phys.", "reader.")})
FILE = f"""
listen = ["127.0.0.1:5053", "[::1]:5053"]
office = "http://127.0.0.1:8053"
zones = ["example.org.", "sub.example.org."]
reader = "reader"
[[key]]
name = "phys."
algorithm = "hmac-sha256"
secret = "{SECRET}"
caller = "phys"
[[key]]
name = "Reader."
algorithm = "HMAC-SHA256"
secret = "{SECRET}"
caller = "reader"
"""
SOA = "example.org. 60 IN SOA ns1.example.org. admin.example.org. {} 1 2 3 4"
UDP, TCP = Peer("192.0.2.7", False), Peer("192.0.2.7", True)


class Office:  # pylint: disable=too-many-instance-attributes
    """An office in memory: `phys` may list and change what is at or below physics.example.org., and `reader` list all."""

    def __init__(self) -> None:
        self.caller = "phys"
        self.records = [SOA.format(5), "a.example.org. 60 IN A 192.0.2.1"]
        self.made: list[Change] = []
        self.updates: list[tuple[str, str, Any, str]] = []
        self.replies: list[Reply | Exception] = []
        self.probes: list[int] = []

    def as_caller(self, name: str) -> "Office":
        """The same office for another caller."""
        other = Office.__new__(Office)
        other.__dict__ = {**self.__dict__, "caller": name}
        return other

    def rights(self, name: str, kind: str, action: str) -> Right:
        """What the policy says."""
        within = name.endswith("physics.example.org.") and kind in ("A", "TXT") and action in ("list", "delete")
        return Right(within or (self.caller == "reader" and action == "list"), "r1")

    def list_records(self, _: str, within: str | None = None, most: int = 1 << 30) -> list[str]:
        """All records for the reader, or those at a name or below it."""
        found = [line for line in self.records if within is None or line.split(" ", maxsplit=1)[0].endswith(within)]
        if sum(map(len, found)) > most:
            raise TooLong
        return found if self.caller == "reader" else []

    def changes(self, _: str, first: int, most: int = 1 << 30) -> list[Change]:
        """The changes from a number on."""
        self.probes.append(first)
        found = self.made[first - 1:]
        if len(str(found)) > most:
            raise TooLong
        return found

    def update(self, zone: str, body: Any, identifier: str) -> Reply:
        """Keeps the update, and gives the next reply."""
        self.updates.append((self.caller, zone, body, identifier))
        reply = self.replies.pop(0) if self.replies else Reply(200, "", {"code": 0, "name": "NOERROR"})
        if isinstance(reply, Exception):
            raise reply  # pylint: disable=raising-non-exception
        return reply

    def change(self, added: list[str], removed: list[str]) -> None:
        """Makes a change, with the SOA."""
        serial = zones.serial_of(self.records[0])
        change = Change(len(self.made) + 1, [SOA.format(serial), *removed], [SOA.format(serial + 1), *added])
        self.made.append(change)
        self.records[:] = [SOA.format(serial + 1), *(line for line in self.records[1:] if line not in removed), *added]


def parsed(more: str = "") -> settings.Settings:
    """The settings of the file, with more lines before it."""
    return settings.parse(tomllib.loads(more + FILE))


class Case(unittest.TestCase):
    """A gateway with an office in memory."""

    def setUp(self) -> None:
        self.lines: list[str] = []
        self.begin()

    def begin(self, more: str = "") -> None:
        """Starts a gateway with more settings."""
        self.office = Office()
        self.gateway = Gateway(parsed(more), self.lines.append)
        self.gateway.office = self.office  # type: ignore[assignment]
        for zone in self.gateway.zones.values():
            zone.reader = self.office.as_caller("reader")  # type: ignore[assignment]

    def answer(self, wire: bytes, peer: Peer = TCP) -> list[bytes]:
        """All answers to a message."""
        found = self.gateway.take(wire, peer)
        self.assertNotIsInstance(found, Wait)
        return list(found.answers()) if isinstance(found, Job) else [found] if isinstance(found, bytes) else []

    def code(self, wire: bytes, peer: Peer = TCP) -> str:
        """The code of the one answer."""
        return str(dns.rcode.to_text(dns.rcode.Rcode(self.answer(wire, peer)[0][3] & 15)))

    def last(self) -> Any:
        """The body of the last update."""
        return self.office.updates[-1][2]


def update(zone: str = "example.org.") -> dns.update.UpdateMessage:
    """An update that phys signs."""
    return dns.update.UpdateMessage(zone, keyring=RING, keyname=dns.name.from_text("phys."), keyalgorithm="hmac-sha256")


def query(kind: str, key: str | None = "reader.", name: str = "example.org.", serial: int | None = None) -> dns.message.QueryMessage:
    """A question, signed or not."""
    made = dns.message.make_query(name, kind)
    if serial is not None:
        made.authority.append(dns.rrset.from_text("example.org.", 0, "IN", "SOA", f". . {serial} 0 0 0 0"))
    if key:
        made.use_tsig(RING, key)
    return made


class Updates(Case):
    """From messages to the office's updates, and back."""

    def test_each_form_of_rfc_2136(self) -> None:
        """Prerequisites of section 2.4 and operations of section 2.5."""
        made = update()
        made.present("a")
        made.absent("b")
        made.present("a", "A")
        made.absent("b", "MX")
        made.present("a", "A", "192.0.2.1")
        made.add("Pc", 300, "TXT", '"a b" "c\\"\\200"')
        made.delete("a", "A")
        made.delete("b")
        made.delete("a", "MX", "10 mail.example.net.")
        self.assertEqual(self.code(made.to_wire()), "NOERROR")
        caller, zone, body, identifier = self.office.updates[0]
        self.assertEqual((caller, zone), ("phys", "example.org."))
        self.assertRegex(identifier, r"\A[A-Za-z0-9._-]{1,64}\Z")
        self.assertEqual(body["prerequisites"], [
            {"test": "name-used", "name": "a.example.org."}, {"test": "name-unused", "name": "b.example.org."},
            {"test": "rrset-exists", "name": "a.example.org.", "type": "A"},
            {"test": "rrset-absent", "name": "b.example.org.", "type": "MX"},
            {"test": "rrset-equals", "name": "a.example.org.", "type": "A", "data": "192.0.2.1"}])
        self.assertEqual(body["operations"], [
            {"op": "add", "name": "Pc.example.org.", "type": "TXT", "data": '"a b" "c\\"\\200"', "ttl": 300},
            {"op": "delete-rrset", "name": "a.example.org.", "type": "A"}, {"op": "delete-name", "name": "b.example.org."},
            {"op": "delete-record", "name": "a.example.org.", "type": "MX", "data": "10 mail.example.net."}])

    def test_same_octets_have_the_same_identifier(self) -> None:
        """A message sent again is the same update; another one, or of another key, is another."""
        made = update()
        made.add("a", 60, "A", "192.0.2.1")
        wire = made.to_wire()
        made.use_tsig(RING, "reader.")
        for one in wire, wire, made.to_wire():
            self.answer(one)
        self.answer(b"\0\0" + wire[2:])
        first, again, other, forwarded = (one[3] for one in self.office.updates)
        self.assertEqual((first, first), (again, forwarded))
        self.assertNotEqual(first, other)

    def test_codes_of_the_office(self) -> None:
        """The office's code is the answer's; what it did not decide on is SERVFAIL."""
        for status, body, wanted in (
                (412, {"code": 8, "item": 0, "list": "prerequisites", "name": "NXRRSET"}, "NXRRSET"),
                (412, {"name": "YXDOMAIN"}, "YXDOMAIN"),
                (403, {"by": "r1", "name": "REFUSED", "item": 0, "list": "operations"}, "REFUSED"), (404, {"name": "NOTAUTH"}, "NOTAUTH"),
                (400, {"name": "NOTZONE"}, "NOTZONE"), (500, {"name": "SERVFAIL"}, "SERVFAIL"), (409, {"refusal": 61}, "SERVFAIL"),
                (400, {"name": "FORMERR", "refusal": 88}, "FORMERR"), (400, {"name": "FORMERR", "refusal": 92}, "REFUSED"),
                (413, {"refusal": 84}, "REFUSED"), (401, {"front": 401}, "SERVFAIL"), (200, {"name": "ODD"}, "SERVFAIL")):
            self.office.replies = [Reply(status, "", body)]
            self.assertEqual(self.code(update().to_wire()), wanted, body)
        for error in NoReply("lost"), NotGiven(Reply(404, "", {"name": "NOTAUTH"})):
            self.office.replies = [error]
            self.assertEqual(self.code(update().to_wire()), "SERVFAIL" if isinstance(error, NoReply) else "NOTAUTH")

    def test_zone_section(self) -> None:
        """Exactly the zones that are served, or with find-zone the longest that contains the name."""
        wire = update("pc.sub.example.org.").to_wire()
        self.assertEqual((self.code(wire), self.code(update("example.net.").to_wire())), ("NOTAUTH", "NOTAUTH"))
        self.begin("find-zone = true\n")
        self.assertEqual((self.code(wire), self.office.updates[0][1]), ("NOERROR", "sub.example.org."))
        self.assertEqual(self.code(update("example.net.").to_wire()), "NOTAUTH")

    def test_dhcid(self) -> None:
        """A DHCID is a TXT at a label of its own: its tests are exact, and its name is used."""
        made = update()
        made.add("pc", 60, "DHCID", "AAIBAQ==")
        self.assertEqual(self.code(made.to_wire()), "REFUSED")
        self.begin("dhcid-as-txt = true\n")
        made.absent("pc")
        made.present("old")
        made.present("old", "DHCID", "AAIBAQ==")
        made.delete("gone")
        made.delete("pc", "DHCID")
        self.assertEqual(self.code(made.to_wire()), "NOERROR")
        self.assertEqual(self.last()["prerequisites"], [
            {"test": "name-unused", "name": "pc.example.org."}, {"test": "name-unused", "name": "_dhcid.pc.example.org."},
            {"test": "rrset-equals", "name": "_dhcid.old.example.org.", "type": "TXT", "data": '"dhcid=AAIBAQ=="'}])
        self.assertEqual(self.last()["operations"], [
            {"op": "add", "name": "_dhcid.pc.example.org.", "type": "TXT", "data": '"dhcid=AAIBAQ=="', "ttl": 60},
            {"op": "delete-name", "name": "gone.example.org."}, {"op": "delete-rrset", "name": "_dhcid.gone.example.org.", "type": "TXT"},
            {"op": "delete-rrset", "name": "_dhcid.pc.example.org.", "type": "TXT"}])

    def test_narrow_deletes(self) -> None:
        """A name's deletion becomes that of the sets that the caller may delete, if there is one."""
        self.begin("narrow-deletes = true\n")
        made = update()
        made.delete("pc.physics")
        made.delete("www")
        self.answer(made.to_wire())
        self.assertEqual(self.last()["operations"], [
            {"op": "delete-rrset", "name": "pc.physics.example.org.", "type": "A"},
            {"op": "delete-rrset", "name": "pc.physics.example.org.", "type": "TXT"}, {"op": "delete-name", "name": "www.example.org."}])
        for number in range(17):
            made.delete(f"n{number}")
        self.assertEqual(self.code(made.to_wire()), "REFUSED")

    def test_log(self) -> None:
        """A line has who, where, what and why, and nothing unprintable."""
        made = update()
        made.add("pc", 60, "CAA", '0 issue "x"')
        self.answer(made.to_wire())
        self.answer(update("\\027[2Jx.example.").to_wire())
        self.assertRegex(self.lines[0], r"\Aaddress=192\.0\.2\.7 key=phys\. caller=phys update=[0-9a-f]{64} zone=example\.org\. "
                         r"REFUSED type 257\Z")
        self.assertTrue(all(line.isascii() and line.isprintable() for line in self.lines), self.lines)


class Signatures(Case):
    """RFC 8945 section 5, and what strangers get."""

    def test_unsigned_and_odd_messages(self) -> None:
        """Refused, not longer than the question; answers and what has no head get nothing."""
        plain = dns.update.UpdateMessage("example.org.").to_wire()
        self.assertEqual(self.code(plain), "REFUSED")
        self.assertEqual(self.code(query("SOA", None).to_wire()), "REFUSED")
        self.assertEqual(self.answer(plain[:11]), [])
        self.assertEqual(self.answer(plain[:2] + bytes([plain[2] | 0x80]) + plain[3:]), [])
        status = plain[:2] + bytes([dns.opcode.STATUS << 3]) + plain[3:]
        self.assertEqual(self.code(status), "NOTIMP")

    def test_random_octets(self) -> None:
        """Whatever comes, there is no fault, and no longer answer."""
        dice = random.Random(1)
        wire = update().to_wire()
        for _ in range(3000):
            odd = bytearray(wire)
            for _ in range(dice.randrange(1, 8)):
                odd[dice.randrange(len(odd))] = dice.choice([0, 1, 63, 64, 192, 255, dice.randrange(256)])
            if bytes(odd[2:]) == wire[2:]:
                continue
            found = self.gateway.take(bytes(odd), Peer(f"192.0.2.{dice.randrange(256)}", False))
            self.assertNotIsInstance(found, Job, bytes(odd))
            if isinstance(found, bytes):
                self.assertLessEqual(len(found), len(odd))

    def test_clock(self) -> None:
        """BADTIME is signed, has the server's time, and the client's in its place."""
        asked = message.walk(update().to_wire())
        now = int(time.time())
        with self.assertRaises(message.BadSignature) as caught:
            message.verify(asked, self.gateway.settings.keys, now + 1000)
        answer = dns.message.from_wire(message.bad_signature_answer(asked, caught.exception, now + 1000), ignore_trailing=True,
                                       keyring=None, continue_on_error=True)
        self.assertEqual(answer.rcode(), dns.rcode.NOTAUTH)
        wire = message.bad_signature_answer(asked, caught.exception, now + 1000)
        tsig = message._tsig_of(message.walk(wire))[1]  # pylint: disable=protected-access
        self.assertEqual((int(tsig.error), int.from_bytes(tsig.other, "big")), (dns.rcode.BADTIME, now + 1000))
        self.assertTrue(tsig.mac)
        self.assertLess(abs(tsig.time_signed - now), 5)

    def test_walk_ends(self) -> None:
        """Names of pointers and of many labels cost a bounded number of steps."""
        chain = b"\0" * 13 + b"".join(struct.pack("!H", 0xC000 | where) for where in range(12, 16000, 2))
        with self.assertRaises(dns.exception.DNSException):
            message.Parser(chain, len(chain) - 2).get_name()
        with self.assertRaises(dns.exception.DNSException):
            message.Parser(b"\x01a" * 30000 + b"\0", 0).get_name()
        loop = b"\0" * 12 + b"\xc0\x0c"
        with self.assertRaises(dns.exception.DNSException):
            message.Parser(loop, 12).get_name()
        whole = b"".join(b"\x01a" for _ in range(127)) + b"\0"
        self.assertEqual(len(message.Parser(whole, 0).get_name()), 128)

    def test_forms(self) -> None:
        """What RFC 2136 does not allow is malformed."""
        for kind, group, ttl, length in ((1, 3, 0, 4), (1, 255, 1, 0), (1, 254, 1, 0), (1, 255, 0, 1), (1, 254, 0, 1), (1, 1, 0, 0),
                                         (252, 255, 0, 0)):
            with self.assertRaises(Malformed, msg=(kind, group)):
                updating._check_prerequisite(updating.Record(ZONE, kind, group, ttl, length, None))  # pylint: disable=protected-access
        for kind, group, ttl, length in ((1, 3, 0, 4), (1, 255, 1, 0), (1, 255, 0, 1), (255, 1, 0, 1), (0, 1, 0, 1), (255, 254, 0, 1),
                                         (1, 254, 1, 4)):
            with self.assertRaises(Malformed, msg=(kind, group)):
                updating._check_operation(updating.Record(ZONE, kind, group, ttl, length, None))  # pylint: disable=protected-access


class Reading(Case):
    """SOA, AXFR and IXFR."""

    def records(self, asked: dns.message.QueryMessage) -> list[str]:
        """The records of all answers, whose signatures are verified."""
        lines, context = [], None
        wires = self.answer(asked.to_wire())
        for wire in wires:
            one = dns.message.from_wire(wire, keyring=RING, request_mac=asked.mac, one_rr_per_rrset=True, multi=len(wires) > 1,
                                        tsig_ctx=context, xfr=True)
            context = one.tsig_ctx
            self.assertEqual(one.rcode(), dns.rcode.NOERROR)
            lines += [f"{rrset.name} {rrset.ttl} IN {dns.rdatatype.to_text(rrset.rdtype)} {rrset[0]}" for rrset in one.answer]
        return lines

    def test_soa(self) -> None:
        """With the serial for who may list it, else with 0; where plain questions are answered, over TCP."""
        self.assertEqual(self.records(query("SOA")), [SOA.format(5)])
        self.assertEqual(self.records(query("SOA", "phys.")), [SOA.format(0)])
        below = dns.message.from_wire(self.answer(query("SOA", name="x.example.org.").to_wire())[0], keyring=None, continue_on_error=True)
        self.assertEqual(below.rcode(), dns.rcode.NOERROR)
        self.begin("answer-soa = true\n")
        plain = query("SOA", None).to_wire()
        udp, tcp = self.answer(plain, UDP)[0], self.answer(plain)[0]
        self.assertTrue(dns.message.from_wire(udp, ignore_trailing=True, raise_on_truncation=False).flags & dns.flags.TC)
        self.assertEqual(len(udp), len(plain))
        self.assertEqual(dns.message.from_wire(tcp).answer[0].to_text(), SOA.format(5))

    def test_sets(self) -> None:
        """An RRset for who may list it, where that is wanted; a long one over TCP only."""
        self.begin("answer-sets = true\n")
        self.office.records += ["a.example.org. 60 IN TXT \"x\"", "b.a.example.org. 60 IN A 192.0.2.2"]
        self.assertEqual([line.lower() for line in self.records(query("A", name="A.example.org."))], ["a.example.org. 60 in a 192.0.2.1"])
        self.assertEqual(self.records(query("AAAA", name="a.example.org.")), [])
        self.assertEqual(self.records(query("A", "phys.", "a.example.org.")), [])
        for kind, name, wanted in ("A", "example.net.", "NOTAUTH"), ("CAA", "a.example.org.", "REFUSED"), ("ANY", "a.example.org.", "REFUSED"):
            self.assertEqual(self.code(query(kind, name=name).to_wire()), wanted)
        self.office.records += [f"a.example.org. 60 IN TXT \"{number} {'x' * 200}\"" for number in range(9)]
        asked = query("TXT", name="a.example.org.")
        udp = self.answer(asked.to_wire(), UDP)[0]
        self.assertEqual((bool(udp[2] & 2), len(udp) < 512, len(self.records(asked))), (True, True, 10))
        self.office.records += [f"c.a.example.org. 60 IN TXT \"{number} {'x' * 200}\"" for number in range(400)]
        self.assertEqual(self.code(query("A", name="a.example.org.").to_wire()), "SERVFAIL")

    def test_whole_transfer(self) -> None:
        """All records between two SOA, in as many messages as it takes."""
        self.office.records += [f"n{number}.example.org. 60 IN TXT \"{'x' * 200}\"" for number in range(700)]
        self.assertEqual(self.records(query("AXFR")), [*self.office.records, SOA.format(5)])
        self.assertGreater(len(self.answer(query("AXFR").to_wire())), 5)

    def test_refused_transfers(self) -> None:
        """Over UDP, without rights, of a part where parts are not wanted, and too many at once."""
        self.assertEqual(self.code(query("AXFR").to_wire(), UDP), "FORMERR")
        self.assertEqual(self.code(query("AXFR", "phys.").to_wire()), "REFUSED")
        self.assertEqual(self.code(query("A").to_wire()), "REFUSED")
        held = [self.gateway.take(query("AXFR").to_wire(), TCP) for _ in range(3)]
        answers = [one.answers() for one in held if isinstance(one, Job)]
        self.assertEqual(next(iter(answers[2]))[3] & 15, dns.rcode.REFUSED)
        del answers
        self.assertEqual(len(self.records(query("AXFR"))), 3)

    def test_partial_transfer(self) -> None:
        """A caller that sees less than the reader gets nothing, unless that is wanted."""
        zone = self.gateway.zones[ZONE]
        other = self.office.as_caller("reader")
        other.records = self.office.records[:1]
        other.caller = "some"
        other.rights = lambda *_: Right(True, "r1")  # type: ignore[assignment]
        other.list_records = lambda _: list(other.records)  # type: ignore[assignment, misc]
        with self.assertRaises(zones.NotTransferred):
            zones.transfer(zone, other, None, False)  # type: ignore[arg-type]
        self.assertEqual(zones.transfer(zone, other, None, True), [SOA.format(5)] * 2)  # type: ignore[arg-type]
        other.records = list(self.office.records)
        self.assertEqual(len(zones.transfer(zone, other, None, False)), 3)  # type: ignore[arg-type]

    def test_incremental_transfer(self) -> None:
        """The changes from a serial, one after the other; whole from one that is not known; the SOA alone if nothing is newer."""
        for number in range(3):
            self.office.change([f"n{number}.example.org. 60 IN A 192.0.2.1"], [])
        self.office.change([], ["n0.example.org. 60 IN A 192.0.2.1"])
        self.assertEqual(self.records(query("IXFR", serial=7)), [
            SOA.format(9), SOA.format(7), SOA.format(8), "n2.example.org. 60 IN A 192.0.2.1",
            SOA.format(8), "n0.example.org. 60 IN A 192.0.2.1", SOA.format(9), SOA.format(9)])
        self.assertEqual(self.records(query("IXFR", serial=9)), [SOA.format(9)])
        udp = dns.message.from_wire(self.answer(query("IXFR", serial=7).to_wire(), UDP)[0], keyring=RING, continue_on_error=True)
        self.assertEqual([rrset.to_text() for rrset in udp.answer], [SOA.format(9)])
        self.assertEqual(self.records(query("IXFR", serial=10)), [SOA.format(9)])
        self.assertEqual(self.records(query("IXFR", serial=4)), [*self.office.records, SOA.format(9)])
        self.office.change(["n3.example.org. 60 IN A 192.0.2.1"], [])
        self.assertEqual(len(self.records(query("IXFR", serial=9))), 5)

    def test_last_change_is_found(self) -> None:
        """Among any number of changes, without reading them all."""
        for count in 1, 2, 3, 7, 300, 1000, 1023, 1025:
            self.begin()
            for number in range(count):
                self.office.change([f"n{number}.example.org. 60 IN TXT \"{'x' * 1000}\""], [])
            zone = self.gateway.zones[ZONE]
            self.assertEqual(zones.serial_of(zone.look()), 5 + count)
            self.assertLess(len(self.office.probes), 30)
            self.office.change([], [])
            self.assertEqual(zones.serial_of(zone.look()), 6 + count)

    def test_other_store(self) -> None:
        """An older store that came back is noticed at a later look."""
        for _ in range(3):
            self.office.change([], [])
        zone = self.gateway.zones[ZONE]
        zone.look()
        del self.office.made[1:]
        self.office.records[0] = SOA.format(6)
        self.assertEqual([zones.serial_of(zone.look()) for _ in range(zones.VERIFY)][-1], 6)


class Limits(Case):
    """How often, and whose turn."""

    def test_buckets(self) -> None:
        """A burst, then a rate; each holder has its own; who was not seen for longest is forgotten."""
        now = [0.0]
        buckets = limits.Buckets(2, 3, 2, lambda: now[0])
        self.assertEqual([bool(buckets.take("a")) for _ in range(4)], [False, False, False, True])
        self.assertFalse(buckets.take("b"))
        now[0] = 0.5
        self.assertEqual([bool(buckets.take("a")) for _ in range(2)], [False, True])
        buckets.take("c")
        self.assertEqual(list(buckets.buckets), ["a", "c"])

    def test_places(self) -> None:
        """An address of IPv4, however it is written, or 64 bits of IPv6."""
        self.assertEqual(limits.place_of("::ffff:192.0.2.1"), "192.0.2.1")
        self.assertEqual(limits.place_of("2001:db8::1"), limits.place_of("2001:db8::ffff:2"))
        self.assertNotEqual(limits.place_of("2001:db8::1"), limits.place_of("2001:db8:0:1::1"))

    def test_turns(self) -> None:
        """Of each holder one job runs at a time, in order; a full line takes no more; holders take turns."""
        turns, gate, done = limits.Turns(1, 3), threading.Event(), []
        self.assertTrue(turns.put("a", gate.wait))  # type: ignore[arg-type]
        time.sleep(0.1)
        self.assertEqual([turns.put("a", lambda number=number: done.append(f"a{number}")) for number in range(4)],  # type: ignore[misc]
                         [True, True, True, False])
        self.assertTrue(turns.put("b", lambda: done.append("b")))
        gate.set()
        until = time.monotonic() + 5
        while len(done) < 4 and time.monotonic() < until:
            time.sleep(0.01)
        self.assertEqual(done, ["b", "a0", "a1", "a2"])
        self.assertEqual(turns.lines, {})

    def test_doors(self) -> None:
        """Of too many connections one that is idle goes, first of those without a key; those at work stay."""
        ended: list[int] = []
        doors = limits.Doors(3, 2)

        def enter(number: int, place: str) -> bool:
            return doors.enter(number, place, lambda: ended.append(number))

        self.assertTrue(enter(0, "a") and enter(1, "b") and enter(2, "c"))
        doors.begin(0)
        self.assertTrue(enter(3, "a"))
        self.assertEqual(ended, [1])
        self.assertTrue(enter(4, "a"))
        self.assertEqual(ended, [1, 3])
        doors.begin(2)
        doors.begin(4)
        self.assertFalse(enter(5, "d") or enter(6, "a"))
        doors.rest(4)
        doors.rest(0)
        self.assertTrue(enter(7, "d"))
        self.assertEqual(ended, [1, 3, 4])
        for number in 0, 2, 7:
            doors.leave(number)
        self.assertEqual(doors.open, {})

    def test_messages_above_a_limit(self) -> None:
        """Neither an answer nor a line for each."""
        self.begin("address-rate = 1\naddress-burst = 5\n")
        plain = dns.update.UpdateMessage("example.org.").to_wire()
        found = [self.gateway.take(plain, UDP) for _ in range(10)]
        self.assertEqual([isinstance(one, Wait) for one in found], [False] * 5 + [True] * 5)
        self.begin("key-rate = 1\nkey-burst = 5\n")
        found = [self.gateway.take(update().to_wire(), UDP) for _ in range(10)]
        self.assertEqual([isinstance(one, Wait) for one in found], [False] * 5 + [True] * 5)


class Files(unittest.TestCase):
    """The configuration."""

    def test_file(self) -> None:
        """What is right is read."""
        found = parsed("find-zone = true\npoll = 1\n")
        self.assertEqual((found.listen, found.find_zone, found.poll, found.answer_soa),
                         ([("127.0.0.1", 5053), ("::1", 5053)], True, 1.0, False))
        self.assertEqual(sorted(key.caller for key in found.keys.values()), ["phys", "reader"])

    def test_wrong_files(self) -> None:
        """Each mistake is told, not passed over."""
        for old, new in (("zones", "zonen"), ("http://", "https://"), ("127.0.0.1:5053", "0.0.0.0:5053"), ("127.0.0.1:5053", "127.0.0.1"),
                         ("example.org.", "example.org"), ("hmac-sha256", "hmac-md5"), (SECRET, "c2hvcnQ="), (SECRET, "?"),
                         ('"phys"', '"a b"'), ('"Reader."', '"PHYS."'),
                         ('caller = "phys"', 'caller = "phys"\nmore = 1'), ('reader = "reader"', 'answer-soa = 1'),
                         ('reader = "reader"', "poll = 0"),
                         ('reader = "reader"', 'notify = [{zone = "example.org.", address = "192.0.2.1"}]')):
            with self.assertRaises(settings.Wrong, msg=new):
                settings.parse(tomllib.loads(FILE.replace(old, new, 1)))

    def test_secrets(self) -> None:
        """A file that others can read or change is refused, and so is one that is no file."""
        with tempfile.TemporaryDirectory() as folder:
            path = os.path.join(folder, "conf")
            with open(path, "w", encoding="ascii") as file:
                file.write(FILE)
            for mode, right in (0o600, True), (0o400, True), (0o640, False), (0o604, False), (0o620, False):
                os.chmod(path, mode)
                if right:
                    settings.read(path)
                else:
                    with self.assertRaises(settings.Wrong, msg=oct(mode)):
                        settings.read(path)
            with self.assertRaises(settings.Wrong):
                settings.read(folder)


if __name__ == "__main__":
    unittest.main()
