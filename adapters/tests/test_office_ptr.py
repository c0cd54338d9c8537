"""What office-ptr plans for the sets it reads; acceptance/try-ptr has the office."""

import contextlib
import io
import ipaddress
import json
import pathlib
import random
import tempfile
import unittest
from typing import Any
from unittest import mock

from loading import load
from office_asking import Kept, NoReply, Reply

ptr = load("office-ptr")
FORWARD = ["example.org."]
REVERSE = ["2.0.192.in-addr.arpa.", "8.b.d.0.1.0.0.2.ip6.arpa."]


def records(*short: str) -> list[Any]:
    """Records of short lines, all with the TTL 300."""
    return [ptr.record_of(f"{one.split(' ', 1)[0]} 300 IN {one.split(' ', 1)[1]}") for one in short]


def pointers_of(_: str, origin: str, hosts: dict[str, Any]) -> dict[str, Any]:
    """What `zoneoffice reverse` prints: of each address within the origin the name with the fewest labels, and the first of these."""
    found: dict[str, Any] = {}
    for owner, host in hosts.items():
        if owner.endswith("." + origin):
            first = min(map(ptr.record_of, host.lines), key=lambda one: (one.name.count("."), one.name))
            found[owner] = ptr.record_of(f"{owner} {first.ttl} IN PTR {first.name}")
    return found


def wanted(forward: list[str], origin: str = REVERSE[0]) -> Any:
    """What short lines call for."""
    hosts = ptr.hosts_of(records(*forward))
    return ptr.Wanted(hosts, pointers_of("", origin, hosts))


def plans(forward: list[str], reverse: list[str], origin: str = REVERSE[0]) -> list[Any]:
    """The plans of a reverse zone that change or tell something."""
    zone = ptr.reverse_of(origin, records(*reverse))
    found = ptr.plans_of(zone, wanted(forward, origin), FORWARD, REVERSE)
    return [plan for plan in found if plan.operations() or plan.words]


def lines(forward: list[str], reverse: list[str], origin: str = REVERSE[0]) -> list[str]:
    """What is changed, and what is told."""
    return [line for plan in plans(forward, reverse, origin) for line in plan.lines() + ([plan.words] if plan.words else [])]


class Plans(unittest.TestCase):
    """What is changed and told."""

    def test_new(self) -> None:
        """The shortest name of an address has its PTR; wildcards have none; addresses of other zones are passed over."""
        found = lines(["b.x.example.org. A 192.0.2.1", "z.example.org. A 192.0.2.1", "a.x.example.org. A 192.0.2.1",
                       "*.example.org. A 192.0.2.2", "a.example.org. A 198.51.100.1"], [])
        self.assertEqual(found, ["+ 1.2.0.192.in-addr.arpa. PTR z.example.org.",
                                 "192.0.2.1 has a PTR to z.example.org., and none to a.x.example.org. b.x.example.org."])

    def test_kept(self) -> None:
        """A PTR that is right stays, in whatever case it is, beside others; one to a name elsewhere too."""
        self.assertEqual(lines(["a.example.org. A 192.0.2.1"], ["1.2.0.192.in-addr.arpa. PTR A.example.ORG."]), [])
        self.assertEqual(lines([], ["1.2.0.192.in-addr.arpa. PTR a.example.net.", "1.2.0.192.in-addr.arpa. PTR x\\.example.org."]), [])

    def test_stale(self) -> None:
        """A PTR to a name without the address goes, and what is wanted takes its place in the same update."""
        reverse = ["1.2.0.192.in-addr.arpa. PTR old.example.org.", "2.2.0.192.in-addr.arpa. PTR gone.example.org."]
        found = plans(["new.example.org. A 192.0.2.1"], reverse)
        self.assertEqual(ptr.body_of(found), {
            "prerequisites": [
                {"test": "rrset-equals", "name": "1.2.0.192.in-addr.arpa.", "type": "PTR", "data": "old.example.org."},
                {"test": "rrset-equals", "name": "2.2.0.192.in-addr.arpa.", "type": "PTR", "data": "gone.example.org."}],
            "operations": [
                {"op": "delete-record", "name": "1.2.0.192.in-addr.arpa.", "type": "PTR", "data": "old.example.org."},
                {"op": "add", "name": "1.2.0.192.in-addr.arpa.", "type": "PTR", "ttl": 300, "data": "new.example.org."},
                {"op": "delete-record", "name": "2.2.0.192.in-addr.arpa.", "type": "PTR", "data": "gone.example.org."}]})

    def test_cuts(self) -> None:
        """An alias at the owner, a delegation above it, and NS at the origin."""
        forward = ["a.example.org. A 192.0.2.1"]
        self.assertEqual(lines(forward, ["1.2.0.192.in-addr.arpa. CNAME 1.0/25.2.0.192.in-addr.arpa."]),
                         ["1.2.0.192.in-addr.arpa. is left out: 1.2.0.192.in-addr.arpa. is an alias or a delegation"])
        six = lines(["a.example.org. AAAA 2001:db8:f000::1"], ["f.8.b.d.0.1.0.0.2.ip6.arpa. NS ns.example.net."], REVERSE[1])
        self.assertEqual((len(six), six[0][-60:]), (1, "out: f.8.b.d.0.1.0.0.2.ip6.arpa. is an alias or a delegation"))
        self.assertEqual(len(lines(forward, ["2.0.192.in-addr.arpa. NS ns.example.net."])), 1)

    def test_within(self) -> None:
        """Names are labels, and not texts."""
        for name, is_within in ("example.org.", True), ("a.example.org.", True), ("aexample.org.", False), ("a\\.example.org.", False), \
                ("a\\\\.example.org.", True), ("org.", False):
            self.assertEqual(ptr.is_within(name, "example.org."), is_within, name)

    def test_nested(self) -> None:
        """The nearest of two reverse zones has the PTR."""
        both = ["0.192.in-addr.arpa.", "2.0.192.in-addr.arpa."]
        found = [len(ptr.plans_of(ptr.reverse_of(origin, []), wanted(["a.example.org. A 192.0.2.1"], origin), FORWARD, both))
                 for origin in both]
        self.assertEqual(found, [0, 1])

    def test_fixed_point(self) -> None:
        """After the operations of a plan the next plan is empty, each address has a PTR, and each PTR is right, for random zones."""
        rng = random.Random(5)
        for _ in range(300):
            forward = [f"{rng.choice('abcd')}.example.org. A 192.0.2.{rng.randrange(4)}" for _ in range(rng.randrange(8))]
            there = {(f"{rng.randrange(4)}.2.0.192.in-addr.arpa.", f"{rng.choice('abcd')}.example.{rng.choice(['org', 'net'])}.")
                     for _ in range(rng.randrange(6))}
            for plan in plans(forward, [f"{owner} PTR {target}" for owner, target in sorted(there)]):
                there -= {(plan.owner, one.data) for one in plan.stale}
                there |= {(plan.owner, plan.new[0])} if plan.new else set()
            left = [plan for plan in plans(forward, [f"{owner} PTR {target}" for owner, target in there]) if plan.operations()]
            pairs = {(ipaddress.ip_address(line.split()[2]).reverse_pointer + ".", line.split()[0]) for line in forward}
            wrong = [one for one in there if one[1].endswith(".org.") and one not in pairs]
            self.assertEqual((left, wrong, {owner for owner, _ in pairs} - {owner for owner, _ in there}), ([], [], set()))

    def test_batches(self) -> None:
        """Many plans make updates within the limits, in order and without loss."""
        found = plans([f"h{number}.example.org. A 192.0.2.{number}" for number in range(256)],
                      [f"{number}.2.0.192.in-addr.arpa. PTR {'x' * 60}.{'y' * 60}.{number}-{copy}.example.org."
                       for number in range(0, 256, 3) for copy in range(20)])
        groups = list(ptr.batches(found))
        self.assertEqual([plan for group in groups for plan in group], found)
        self.assertTrue(all(ptr.fits(ptr.body_of(group)) for group in groups))
        self.assertGreater(len(groups), 4)


class Program(unittest.TestCase):
    """What `zoneoffice reverse` prints, and when it does not."""

    def said(self, script: str, *short: str) -> Any:
        """The pointers by a program that is a script of the shell."""
        with tempfile.TemporaryDirectory() as folder:
            path = pathlib.Path(folder, "zoneoffice")
            path.write_text(f"#!/bin/sh\n{script}\n", encoding="ascii")
            path.chmod(0o755)
            return ptr.pointers_of(str(path), REVERSE[0], ptr.hosts_of(records(*(short or ["a.example.org. A 192.0.2.1"]))))

    def test_program(self) -> None:
        """It gets the addresses of the zone, and its records are those that are called for, without its comments."""
        found = self.said('test "$*" = "reverse --origin 2.0.192.in-addr.arpa. -" || exit 1\n'
                          'test "$(cat)" = "a.example.org. 300 IN A 192.0.2.1\nb.example.org. 300 IN A 192.0.2.1" || exit 1\n'
                          'echo "1.2.0.192.in-addr.arpa. 300 IN PTR a.example.org."\n'
                          'echo "; shared a.example.org. 300 IN A 192.0.2.1"',
                          "a.example.org. A 192.0.2.1", "c.example.org. A 198.51.100.1", "b.example.org. A 192.0.2.1")
        self.assertEqual([(owner, one.data, one.ttl) for owner, one in found.items()], [("1.2.0.192.in-addr.arpa.", "a.example.org.", 300)])

    def test_fails(self) -> None:
        """A refusal, and a program that does not end."""
        with self.assertRaisesRegex(ptr.Wrong, "the input .x1bis long"):
            self.said("echo refused 30; printf 'the input \\033is long' >&2; exit 1")
        with self.assertRaisesRegex(ptr.Wrong, "status 3"):
            self.said("exit 3")
        with mock.patch.object(ptr, "SECONDS", 0.2), self.assertRaisesRegex(ptr.Wrong, "more than"):
            self.said("exec sleep 5")

    def test_none(self) -> None:
        """Without an address in the zone nothing is asked."""
        self.assertEqual(self.said("exit 1", "c.example.org. A 198.51.100.1"), {})


class Pending(unittest.TestCase):
    """The update for which no reply came."""

    def test_pending(self) -> None:
        """It stays on the disk until it is decided, and is sent again as it was."""
        replies: list[Any] = [None, Reply(500, "", {"code": 2, "name": "SERVFAIL"}), Reply(412, "", {"code": 8, "name": "NXRRSET"})]
        sent: list[tuple[str, Any, str]] = []

        class Asked:  # pylint: disable=too-few-public-methods
            """An office that answers by a script."""

            def update(self, zone: str, body: Any, identifier: str) -> Reply:
                """The next reply; None is a lost one."""
                sent.append((zone, body, identifier))
                reply = replies.pop(0)
                if reply is None:
                    raise NoReply("lost")
                assert isinstance(reply, Reply)
                return reply

        with tempfile.TemporaryDirectory() as folder:
            keeper = ptr.Keeper(Asked(), Kept(folder + "/state"), FORWARD, REVERSE, "")
            keeper.kept.write("pending", json.dumps({"zone": "a.", "body": {"operations": []}, "id": "x"}).encode())
            for _ in range(2):
                self.assertRaises(NoReply, keeper.finish_earlier)
            keeper.finish_earlier()
            keeper.finish_earlier()
            self.assertEqual((sent, keeper.kept.names()), ([("a.", {"operations": []}, "x")] * 3, []))


class Zones:
    """An office in memory, which counts what is read, and makes updates of PTR, but at the owners of a set."""

    def __init__(self, forward: list[str]) -> None:
        self.lines = {FORWARD[0]: set(forward), REVERSE[0]: set[str]()}
        self.reads: list[str] = []
        self.updates = 0
        self.aliases: set[str] = set()

    def list_records(self, zone: str) -> list[str]:
        """The lines of a zone."""
        self.reads.append(zone)
        return sorted(self.lines[zone])

    def update(self, zone: str, body: Any, _: str) -> Reply:
        """Makes an update; an addition beside an alias is passed over."""
        self.updates += 1
        for item in body["operations"]:
            line = f"{item['name']} {item.get('ttl', 300)} IN PTR {item['data']}"
            if item["op"] == "delete-record":
                self.lines[zone].discard(line)
            elif item["name"] not in self.aliases:
                self.lines[zone].add(line)
        return Reply(200, "", {"code": 0, "name": "NOERROR"})


class Reads(unittest.TestCase):
    """How often a zone is read: once a round, however many updates it has."""

    def run_over(self, office: Zones) -> Any:
        """A keeper after a run of it over one reverse zone."""
        with tempfile.TemporaryDirectory() as folder, contextlib.redirect_stdout(io.StringIO()) as printed, \
                mock.patch.object(ptr, "pointers_of", pointers_of):
            keeper = ptr.Keeper(office, Kept(folder + "/state"), FORWARD, REVERSE[:1], "")
            keeper.run(False)
        self.assertTrue(keeper.is_whole)
        self.assertTrue(printed.getvalue().endswith("\n"))
        return keeper

    def test_reads(self) -> None:
        """16 updates: the forward zone is read once, and the reverse zone before and after them."""
        names = [f"{'x' * 50}.{'y' * 50}.{'z' * 50}.h{number}.example.org. 300 IN A 192.0.2.{number}" for number in range(250)]
        office = Zones(names)
        with mock.patch.object(ptr, "PREREQUISITES", 16):
            keeper = self.run_over(office)
        self.assertEqual((office.updates, keeper.status, len(office.lines[REVERSE[0]])), (16, 0, 250))
        self.assertEqual(office.reads, [FORWARD[0], REVERSE[0], REVERSE[0]])

    def test_unmade(self) -> None:
        """What was made and is not there is told, and is not sent again; all else is made."""
        office = Zones([f"h{number}.example.org. 300 IN A 192.0.2.{number}" for number in range(200)])
        office.aliases = {"7.2.0.192.in-addr.arpa."}
        keeper = self.run_over(office)
        self.assertEqual((office.updates, keeper.status, len(office.lines[REVERSE[0]]), len(office.reads)), (4, 1, 199, 3))
        self.assertEqual(keeper.words, {"7.2.0.192.in-addr.arpa.": "7.2.0.192.in-addr.arpa. is left out: its PTR went at once, or there is "
                                        "an alias"})


if __name__ == "__main__":
    unittest.main()
