"""What office-ds accepts of a child, with Debian's dnssec-cds, and what it sends; acceptance/try-ds has an office and servers."""

import os
import pathlib
import random
import subprocess
import tempfile
import time
import unittest
from typing import Any
from unittest import mock

import dns.flags
import dns.message
import dns.name
import dns.rcode
import dns.rdata
import dns.rrset
import dns.zone
from dns.rdataclass import IN
from dns.rdatatype import CDNSKEY, CDS, DNSKEY, RRSIG

from loading import load
from office_asking import Kept, NoReply, Reply

ds = load("office-ds")
CHILD = "c.example.org."
NAME = dns.name.from_text(CHILD)
NONE = {kind: ds.Answer(frozenset(), frozenset()) for kind in (CDS, CDNSKEY, DNSKEY)}
OTHER = "4711 13 2 " + "ab" * 32
HOUR = 3600


def shell(folder: str, *words: str) -> str:
    """What a command of bind9-utils prints."""
    return subprocess.run(words, cwd=folder, check=True, capture_output=True, text=True).stdout


class Signer:
    """Keys of a child, and what its servers answer, signed by dnssec-signzone."""

    def __init__(self, folder: str) -> None:
        self.folder = folder

    def key(self) -> str:
        """A new key that signs all."""
        return shell(self.folder, "dnssec-keygen", "-q", "-a", "ECDSAP256SHA256", "-f", "KSK", CHILD).strip()

    def public(self, key: str) -> str:
        """The data of its DNSKEY."""
        return shell(self.folder, "grep", "-v", "^;", f"{key}.key").strip().split(" ", 3)[3]

    def digest(self, key: str, kind: str = "2") -> str:
        """The data of its DS."""
        return shell(self.folder, "dnssec-dsfromkey", "-a", kind, f"{key}.key").strip().split(" ", 3)[3]

    def answers(self, keys: list[str], asked: list[str], begin: float = -HOUR, end: float = HOUR) -> Any:
        """The answers of a child with some keys that asks by records of CDS and CDNSKEY, signed within these seconds from now."""
        lines = ["@ 60 IN SOA ns h 1 60 60 60 60", "@ 60 IN NS ns.example.net."]
        lines += [f"@ 60 IN DNSKEY {self.public(key)}" for key in keys] + [f"@ 60 IN {one}" for one in asked]
        pathlib.Path(self.folder, "zone").write_text("\n".join(lines) + "\n", encoding="ascii")
        first, last = (time.strftime("%Y%m%d%H%M%S", time.gmtime(time.time() + one)) for one in (begin, end))
        shell(self.folder, "dnssec-signzone", "-q", "-P", "-z", "-x", "-s", first, "-e", last, "-o", CHILD, "-f", "signed", "zone", *keys)
        zone = dns.zone.from_file(f"{self.folder}/signed", CHILD, relativize=False)
        return {kind: ds.Answer(frozenset(zone.get_rdataset(NAME, kind) or []), frozenset(zone.get_rdataset(NAME, RRSIG, kind) or []))
                for kind in (CDS, CDNSKEY, DNSKEY)}


def delegation(*old: str) -> Any:
    """A delegation with a DS set."""
    return ds.Delegation("example.org.", CHILD, {"ns.example.net.": []}, frozenset(map(ds.ds_of, old)), 300)


def accepted(answers: Any, *old: str, since: int = 0) -> Any:
    """The data of the DS that are accepted, or why none are."""
    try:
        return {str(one) for one in ds.accept(delegation(*old), ds.Request(answers), since)[0]}
    except ds.Refused as refusal:
        return str(refusal)


@unittest.skipUnless(os.access(ds.TOOL, os.X_OK), "bind9-utils is not installed")
class Accept(unittest.TestCase):
    """What is accepted, by dnssec-cds."""

    def setUp(self) -> None:
        folder = tempfile.TemporaryDirectory()  # pylint: disable=consider-using-with
        self.addCleanup(folder.cleanup)
        self.signer = Signer(folder.name)
        self.old, self.new = self.signer.key(), self.signer.key()
        self.old_ds, self.new_ds = (self.signer.digest(one).lower() for one in (self.old, self.new))

    def test_rollover(self) -> None:
        """By CDS, by CDNSKEY, by both, with SHA-384, and no change."""
        both = [self.old, self.new]
        cds, cdnskey = f"CDS {self.new_ds}", f"CDNSKEY {self.signer.public(self.new)}"
        for asked in [cds], [cdnskey], [cds, cdnskey]:
            self.assertEqual(accepted(self.signer.answers(both, asked), self.old_ds), {self.new_ds}, asked)
        longer = self.signer.digest(self.new, "SHA-384").lower()
        self.assertEqual(accepted(self.signer.answers(both, [cds, f"CDS {longer}"]), self.old_ds), {self.new_ds, longer})
        self.assertEqual(accepted(self.signer.answers(both, [f"CDS {self.old_ds}"]), self.old_ds), {self.old_ds})
        self.assertIn("do not match any -a digest types",
                      accepted(self.signer.answers(both, [f"CDS {self.signer.digest(self.new, 'SHA-1')}"]), self.old_ds))

    def test_refused(self) -> None:
        """Forged, unsigned, expired, not yet valid, and what would break the chain."""
        asked, wanted = [f"CDS {self.new_ds}"], "could not validate child DNSKEY RRset for c.example.org."
        forged, right = self.signer.answers([self.new], asked), self.signer.answers([self.old, self.new], asked)
        self.assertEqual(accepted(forged, self.old_ds), wanted)
        self.assertEqual(accepted({**right, CDS: forged[CDS]}, self.old_ds), "could not validate child CDS RRset for c.example.org.")
        self.assertEqual(accepted({**right, CDS: ds.Answer(right[CDS].records, frozenset())}, self.old_ds), "its CDS is not signed")
        for begin, end in (-2 * HOUR, -HOUR), (HOUR, 2 * HOUR):
            self.assertEqual(accepted(self.signer.answers([self.old, self.new], asked, begin, end), self.old_ds),
                             "its CDS has no signature that is valid now")
        self.assertEqual(accepted(self.signer.answers([self.old], asked), self.old_ds),
                         "could not validate child DNSKEY RRset with new DS records for c.example.org.")
        self.assertEqual(accepted(self.signer.answers([self.old], asked + [f"CDNSKEY {self.signer.public(self.old)}"]), self.old_ds),
                         "its CDS and its CDNSKEY ask for different DS")

    def test_deletion(self) -> None:
        """Signed by CDS, CDNSKEY or both; forged; and beside other DS."""
        cds, cdnskey = "CDS 0 0 0 00", "CDNSKEY 0 3 0 AA=="
        for asked in [cds], [cdnskey], [cds, cdnskey]:
            answers = self.signer.answers([self.old], asked)
            self.assertEqual(accepted(answers, self.old_ds), set(), asked)
            self.assertIn("could not validate", accepted(answers, self.new_ds))
        for asked in [cds, f"CDS {self.old_ds}"], [cds, f"CDNSKEY {self.signer.public(self.old)}"], [cdnskey, f"CDS {self.old_ds}"], \
                [cdnskey, f"CDNSKEY {self.signer.public(self.old)}"]:
            self.assertEqual(accepted(self.signer.answers([self.old], asked), self.old_ds), "it asks for deletion, and for other DS", asked)

    def test_replay(self) -> None:
        """A request that was signed before the last one is refused, also beside false signatures; of the same time it is accepted."""
        both = [self.old, self.new]
        before = self.signer.answers(both, [f"CDS {self.old_ds}"], begin=-2 * HOUR)
        after = self.signer.answers(both, [f"CDS {self.new_ds}"], begin=-HOUR)
        new, since = ds.accept(delegation(self.old_ds), ds.Request(after), 0)
        self.assertEqual(accepted(after, self.new_ds, since=since), {self.new_ds})
        self.assertIn("its CDS was signed before one that was accepted", accepted(before, self.new_ds, since=since))
        self.assertEqual(({str(one) for one in new}, abs(time.time() - HOUR - since) < 60), ({self.new_ds}, True))
        late = self.signer.answers([self.old], [f"CDS {self.new_ds}"], begin=-60)[CDS].signatures
        mixed = {**before, CDS: ds.Answer(before[CDS].records, before[CDS].signatures | late)}
        self.assertEqual(accepted(mixed, self.new_ds, since=since), "could not validate child CDS RRset for c.example.org.")
        self.assertEqual(ds.accept(delegation(self.new_ds), ds.Request(mixed), 0)[1], min(one.inception for one in before[CDS].signatures))

    def test_bootstrap(self) -> None:
        """Without a DS, a child that signs with what it asks for."""
        for asked in f"CDS {self.new_ds}", f"CDNSKEY {self.signer.public(self.new)}":
            self.assertEqual(accepted(self.signer.answers([self.new], [asked])), {self.new_ds})
            self.assertIn("could not validate", accepted(self.signer.answers([self.old], [asked])))

    def test_hostile(self) -> None:
        """Random records of the three types and random signatures end in a refusal, and never otherwise."""
        rng = random.Random(4)

        def some(kind: Any, most: int) -> Any:
            found = set()
            for _ in range(rng.randrange(most)):
                octets = rng.choice([b"\0\0\0\0\0", b"\0\0\3\0\0", bytes([1, 1, 3, 13])]) + rng.randbytes(rng.choice([0, 1, 32, 64]))
                if kind == RRSIG:
                    covered = rng.choice([CDS, CDNSKEY, DNSKEY]).to_bytes(2, "big")
                    times_and_tag = b"\x7f\xff\xff\xff\0\0\0\1\x12\x34"
                    octets = covered + b"\x0d\3\0\0\0\x3c" + times_and_tag + (NAME.to_wire() or b"") + rng.randbytes(64)
                try:
                    found.add(dns.rdata.from_wire(IN, kind, octets, 0, len(octets)))
                except dns.exception.FormError:
                    continue
            return frozenset(found)

        for _ in range(60):
            answers = {kind: ds.Answer(some(kind, 4), some(RRSIG, 3)) for kind in (CDS, CDNSKEY, DNSKEY)}
            self.assertIsInstance(accepted(answers, self.old_ds), str)


class Answers(unittest.TestCase):
    """What a response says, and what several do."""

    def test_response(self) -> None:
        """Codes, authority, truncation, other names and signers, and too much."""
        def said(flags: int = dns.flags.AA, code: Any = dns.rcode.NOERROR, owner: str = CHILD, number: int = 1) -> Any:
            query = dns.message.make_query(NAME, CDS)
            response = dns.message.make_response(query)
            response.flags |= flags
            response.set_rcode(code)
            response.answer.append(dns.rrset.from_text(owner, 60, IN, CDS, *[f"{one} 13 2 {'ab' * 32}" for one in range(number)]))
            signature = f"CDS 13 3 60 20300101000000 20200101000000 1 {owner} AAAA"
            response.answer.append(dns.rrset.from_text(owner, 60, IN, RRSIG, signature))
            try:
                answer = ds.answer_of(dns.message.from_wire(response.to_wire()), NAME, CDS)
                return len(answer.records), len(answer.signatures)
            except ds.Refused as refusal:
                return str(refusal)

        self.assertEqual([said(), said(number=16), said(owner="d.example.org.")], [(1, 1), (16, 1), (0, 0)])
        self.assertEqual([said(flags=0), said(flags=dns.flags.AA | dns.flags.TC), said(code=dns.rcode.REFUSED), said(number=17)],
                         ["is not authoritative", "sends a part of its answer", "answers REFUSED",
                          "has more than 16 CDS, or 64 signatures"])

    def test_agreed(self) -> None:
        """Servers with the same records have the signatures of both; else they are named."""
        records = [dns.rdata.from_text(IN, CDS, one) for one in (OTHER, OTHER.replace("4711", "4712"))]
        signatures = [dns.rdata.from_text(IN, RRSIG, f"CDS 13 3 60 20300101000000 20200101000000 {tag} {CHILD} AAAA") for tag in (1, 2)]
        one, two, three = ({**NONE, CDS: ds.Answer(frozenset([record]), frozenset([signature]))}
                           for record, signature in zip([records[0], records[0], records[1]], signatures * 2))
        self.assertEqual(ds.agreed({"192.0.2.1": one, "192.0.2.2": two})[CDS], ds.Answer(frozenset(records[:1]), frozenset(signatures)))
        with self.assertRaisesRegex(ds.Refused, "192.0.2.1 and 192.0.2.3 answer differently: CDS"):
            ds.agreed({"192.0.2.1": one, "192.0.2.2": two, "192.0.2.3": three})
        with self.assertRaisesRegex(ds.Refused, "answer differently: CDS"):
            ds.agreed({"192.0.2.1": NONE, "192.0.2.3": three})

    def test_servers(self) -> None:
        """Each server has to answer at an address, the number of servers and addresses has a bound, and glue goes before the resolver."""
        asked: list[str] = []

        def answer(address: str, *_: Any) -> Any:
            asked.append(address)
            if address.startswith("198."):
                raise ds.Refused("does not answer: timed out")
            return NONE

        def fetched(servers: dict[str, list[str]]) -> Any:
            asked.clear()
            found = ds.fetch(ds.Delegation("example.org.", CHILD, servers, frozenset(), 300))
            return str(found) if isinstance(found, ds.Refused) else found == NONE

        with mock.patch.object(ds, "ask", answer), mock.patch.object(ds, "resolve", lambda server, _: [f"203.0.113.{len(server)}"]):
            self.assertEqual((fetched({"a.": ["192.0.2.1", "198.51.100.1"], "bb.": []}), asked),
                             (True, ["192.0.2.1", "198.51.100.1", "203.0.113.3"]))
            self.assertEqual(fetched({"a.": ["192.0.2.1"], "b.": ["198.51.100.1"]}), "b. 198.51.100.1 does not answer: timed out")
            self.assertEqual((fetched({"a.": [f"192.0.2.{one}" for one in range(99)]}), len(asked)), (True, 8))
            for number in 0, 17:
                self.assertEqual((fetched({f"{one}.": [] for one in range(number)}), asked), ("it has no servers, or more than 16", []))
        with mock.patch.object(ds, "ask", answer), mock.patch.object(ds, "resolve", lambda server, _: []):
            self.assertEqual(fetched({"a.": []}), "a. has no address")


class Asked:
    """An office with one DS set, which keeps receipts."""

    def __init__(self, *old: str) -> None:
        self.there = set(old)
        self.receipts: dict[str, tuple[Any, Reply]] = {}
        self.loses = 0
        self.denies = False
        self.made = 0

    def get(self, *_: str, **__: Any) -> Reply:
        """The delegations."""
        return Reply(200, "", {"delegations": [{"child": CHILD, "servers": [{"glue": "outside", "name": "ns.example.net."}]}]})

    def list_records(self, *_: str) -> list[str]:
        """The records within the child."""
        return [f"{CHILD} 300 IN DS {one}" for one in sorted(self.there)] + [f"{CHILD} 3600 IN NS ns.example.net."]

    def update(self, _: str, body: Any, identifier: str) -> Reply:
        """Makes an update once."""
        if identifier not in self.receipts:
            self.receipts[identifier] = body, self.decide(body)
        kept, reply = self.receipts[identifier]
        if self.loses:
            self.loses -= 1
            raise NoReply("lost")
        return reply if kept == body else Reply(409, "", {"refusal": 61})

    def decide(self, body: Any) -> Reply:
        """The reply to a new update."""
        if self.denies:
            return Reply(403, "", {"by": "closing", "code": 5, "item": 0, "list": "operations", "name": "REFUSED"})
        if {one["data"] for one in body["prerequisites"] if one["test"] == "rrset-equals"} != self.there:
            return Reply(412, "", {"code": 8, "item": 0, "list": "prerequisites", "name": "NXRRSET"})
        for one in body["operations"]:
            (self.there.add if one["op"] == "add" else self.there.discard)(one["data"])
        self.made += 1
        return Reply(200, "", {"code": 0, "name": "NOERROR"})


OLD = "1 13 2 " + "cd" * 32


class Updates(unittest.TestCase):
    """What is sent, and when."""

    def setUp(self) -> None:
        folder = tempfile.TemporaryDirectory()  # pylint: disable=consider-using-with
        self.addCleanup(folder.cleanup)
        self.office = Asked(OLD)
        self.keeper = ds.Keeper(self.office, Kept(folder.name + "/state"), ["example.org."], set(), set())
        self.answers: Any = {**NONE, CDS: ds.Answer(frozenset([dns.rdata.from_text(IN, CDS, OTHER)]), frozenset())}
        self.said: list[str] = []
        self.meanwhile: Any = None

    def run_once(self, new: str | None = OTHER, since: int = 7) -> int:
        """A run in which the child asks for a set; the status."""
        def accept(*_: Any) -> Any:
            if self.meanwhile:
                self.meanwhile()
            return frozenset([ds.ds_of(new)] if new else []), since

        self.keeper.status = 0
        self.said.clear()
        with mock.patch.object(ds, "fetch", lambda _: self.answers), mock.patch.object(ds, "accept", accept), \
                mock.patch.object(ds, "say", self.said.append), mock.patch("builtins.print"):
            self.keeper.run()
        return int(self.keeper.status)

    def memory(self) -> Any:
        """What is kept of the child."""
        return self.keeper.remembered(delegation())

    def test_made(self) -> None:
        """A change is made once, with the TTL of the old set, and the next run sends nothing."""
        self.assertEqual((self.run_once(), self.run_once(), self.office.there, self.office.made), (0, 0, {OTHER}, 1))
        body, _ = next(iter(self.office.receipts.values()))
        item = {"name": CHILD, "type": "DS"}
        operations = [{"op": "delete-record", **item, "data": OLD}, {"op": "add", **item, "ttl": 300, "data": OTHER}]
        self.assertEqual(body, {"prerequisites": [{"test": "rrset-equals", **item, "data": OLD}], "operations": operations})
        self.assertEqual(self.memory(), ds.Memory(CHILD, 7, 1))

    def test_lost(self) -> None:
        """Where a reply was lost, the next run finds the change; under the same identifier, if it was not made."""
        self.office.loses = 1
        self.assertRaises(NoReply, self.run_once)
        self.assertEqual((self.run_once(), self.office.made, len(self.office.receipts)), (0, 1, 1))

    def test_undone(self) -> None:
        """What somebody undid is made again, also if the run that made it was killed before it kept that."""
        self.run_once()
        for kept in 1, 0:
            self.keeper.remember(delegation(), ds.Memory(CHILD, 7, kept))
            self.office.there = {OLD}
            self.assertEqual((self.run_once(), self.office.there), (0, {OTHER}))
        self.assertEqual(self.office.made, 3)

    def test_denied(self) -> None:
        """A denial is told with its rule, and is asked for anew in the next run."""
        self.office.denies = True
        self.assertEqual((self.run_once(), self.said), (1, [f"{CHILD} is left as it is: REFUSED operations 0 by closing"]))
        self.office.denies = False
        self.assertEqual((self.run_once(), self.office.there), (0, {OTHER}))

    def test_meanwhile(self) -> None:
        """A set that somebody changed is not overwritten; the next run looks at it anew."""
        self.meanwhile = lambda: setattr(self.office, "there", {OLD, OTHER})
        self.assertEqual((self.run_once(), self.office.there), (1, {OLD, OTHER}))
        self.assertEqual(self.said, [f"{CHILD} is left as it is: somebody changed its DS set meanwhile: NXRRSET prerequisites 0"])
        self.meanwhile = None
        self.assertEqual((self.run_once(), self.office.there), (0, {OTHER}))

    def test_deletion(self) -> None:
        """A set is deleted only where the settings say so."""
        self.assertEqual((self.run_once(None), self.office.there), (1, {OLD}))
        self.assertEqual(self.said, [f"{CHILD} is left as it is: it asks for deletion of its DS set, which the settings do not allow"])
        self.keeper.deletes = {CHILD}
        self.assertEqual((self.run_once(None), self.office.there), (0, set()))

    def test_without(self) -> None:
        """A child without a DS is asked only with the option and the setting; one that asks for nothing is passed over."""
        self.office.there = set()
        self.assertEqual((self.run_once(), self.office.made), (0, 0))
        self.keeper.bootstraps = {CHILD}
        self.assertEqual((self.run_once(), self.office.there), (0, {OTHER}))
        self.answers = NONE
        self.assertEqual((self.run_once(OLD), self.office.there), (0, {OTHER}))

    def test_troubles(self) -> None:
        """A child that is down, and a dry run."""
        self.answers = ds.Refused("ns.example.net. has no address")
        self.assertEqual((self.run_once(), self.said), (1, [f"{CHILD} is left as it is: ns.example.net. has no address"]))
        self.setUp()
        self.keeper.is_dry = True
        self.assertEqual((self.run_once(), self.office.there, self.keeper.kept.names()), (0, {OLD}, []))


class Delegations(unittest.TestCase):
    """What the office has."""

    def test_records(self) -> None:
        """Glue by server, the DS in any case and with spaces, and the TTL of the DS, else of the NS."""
        lines = ["C.example.org. 60 IN NS NS1.c.example.org.", "c.example.org. 90 IN DS 1 13 2 ABCD EF",
                 "ns1.C.example.org. 9 IN A 192.0.2.1", "ns1.c.example.org. 9 IN AAAA 2001:db8::1", "d.c.example.org. 1 IN DS 2 13 2 ab"]
        found = ds.delegation_of("example.org.", CHILD, ["ns1.c.example.org.", "ns.example.net."], ds.names_of(lines))
        self.assertEqual(found, ds.Delegation("example.org.", CHILD, {"ns1.c.example.org.": ["192.0.2.1", "2001:db8::1"],
                                                                      "ns.example.net.": []}, frozenset([ds.Ds(1, 13, 2, "abcdef")]), 90))
        self.assertEqual(ds.delegation_of("example.org.", CHILD, [], ds.names_of(lines[:1])).ttl, 60)


if __name__ == "__main__":
    unittest.main()
