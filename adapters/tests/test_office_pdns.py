"""What office-pdns makes of requests and of the sets that it reads; acceptance/try-pdns has the clients and the office."""

import hashlib
import json
import random
import unittest
from typing import Any

from loading import load
from office_asking import Reply, Right

pdns = load("office-pdns")
ZONE = "example.org."
NAME = "a.example.org."
NOERROR = Reply(200, "", {"code": 0, "name": "NOERROR"})
UNMET = Reply(412, "", {"code": 8, "name": "NXRRSET", "list": "prerequisites", "item": 0})


class Zone:
    """An office with a zone of A, TXT and NS records, which tests prerequisites and makes operations."""

    def __init__(self, *lines: str) -> None:
        self.lines = set(lines)
        self.updates: list[Any] = []
        self.replies: list[Any] = []  # in place of what it would answer; a function is called first

    def list_records(self, _: str, within: str | None = None) -> list[str]:
        """The records, or those at a name."""
        return sorted(one for one in self.lines if within is None or one.startswith(within + " "))

    def rights(self, name: str, _: str, __: str) -> Right:
        """Whether a set may be listed: all but one name's."""
        return Right(name != "hidden.example.org.", "closing")

    def data(self, item: Any) -> dict[str, str]:
        """The lines of a set by their data."""
        return {one.split(" ", 4)[4]: one for one in self.lines if one.split(" ")[0::3][:2] == [item["name"], item["type"]]}

    def update(self, _: str, body: Any, __: str) -> Reply:
        """Makes an update as RFC 2136 has it, as far as sets of addresses go."""
        self.updates.append(body)
        reply = self.replies.pop(0) if self.replies else None
        if isinstance(reply, Reply):
            return reply
        wanted: dict[tuple[str, str], set[str]] = {}
        for one in body["prerequisites"]:
            wanted.setdefault((one["name"], one["type"]), set()).update([one["data"]] if one["test"] == "rrset-equals" else [])
        for (name, kind), data in wanted.items():
            if self.data({"name": name, "type": kind}).keys() != data:
                return UNMET
        for one in body["operations"]:
            there = self.data(one)
            if one["op"] == "delete-record":
                self.lines.discard(there.get(one["data"], ""))
            else:
                self.lines -= set(there.values())
                self.lines |= {f"{one['name']} {one['ttl']} IN {one['type']} {data}" for data in {*there, one["data"]}}
        return NOERROR


def caller(zone: Any) -> Any:
    """A caller of this office."""
    return pdns.Caller(b"", zone, "a")


def replace(*contents: str, ttl: int = 300, **more: Any) -> Any:
    """An RRset that is to be so."""
    return {"name": NAME, "type": "A", "ttl": ttl, "changetype": "REPLACE", "records": [{"content": one} for one in contents], **more}


def patch(zone: Any, *rrsets: Any) -> None:
    """A PATCH of these."""
    caller(zone).patch(ZONE, pdns.wishes_of(json.dumps({"rrsets": rrsets}).encode(), ZONE))


class Patches(unittest.TestCase):
    """What is sent for a PATCH."""

    def fails(self, status: int, zone: Any, *rrsets: Any) -> str:
        """The words of a failure."""
        with self.assertRaises(pdns.Failure) as caught:
            patch(zone, *rrsets)
        self.assertEqual(caught.exception.status, status)
        return str(caught.exception)

    def test_guards(self) -> None:
        """The sets as they were read are prerequisites; deletions come before additions."""
        zone = Zone(f"{NAME} 300 IN A 192.0.2.1", f"{NAME} 300 IN A 192.0.2.2")
        patch(zone, replace("192.0.2.2", "192.0.2.3"), {"name": NAME, "type": "TXT", "changetype": "REPLACE", "ttl": 5,
                                                        "records": [{"content": '"b c"'}]})
        self.assertEqual(zone.updates, [{
            "prerequisites": [{"test": "rrset-equals", "name": NAME, "type": "A", "data": "192.0.2.1"},
                              {"test": "rrset-equals", "name": NAME, "type": "A", "data": "192.0.2.2"},
                              {"test": "rrset-absent", "name": NAME, "type": "TXT"}],
            "operations": [{"op": "delete-record", "name": NAME, "type": "A", "data": "192.0.2.1"},
                           {"op": "add", "name": NAME, "type": "A", "ttl": 300, "data": "192.0.2.3"},
                           {"op": "add", "name": NAME, "type": "TXT", "ttl": 5, "data": '"b c"'}]}])

    def test_same(self) -> None:
        """Other spellings of what is there are no change; another TTL is one."""
        zone = Zone("a.example.org. 300 IN NS ns.example.org.", f"{NAME} 300 IN TXT \"a\"")
        patch(zone, replace("NS.example.ORG.", type="NS"), replace("a", type="TXT"))
        self.assertEqual(zone.updates, [])
        patch(zone, replace("ns.example.org.", type="NS", ttl=60))
        self.assertEqual([one["ttl"] for one in zone.updates[0]["operations"]], [60])

    def test_random(self) -> None:
        """Whatever is there, a set is afterwards as it was asked for, with its TTL."""
        rng = random.Random(3)
        for _ in range(300):
            zone = Zone(*{f"{NAME} 300 IN A 192.0.2.{rng.randrange(4)}" for _ in range(rng.randrange(4))})
            wanted, ttl = {f"192.0.2.{rng.randrange(4)}" for _ in range(rng.randrange(4))}, rng.choice([60, 300])
            patch(zone, replace(*sorted(wanted), ttl=ttl))
            self.assertEqual(zone.lines, {f"{NAME} {ttl} IN A {one}" for one in wanted})

    def test_origin(self) -> None:
        """The NS of the origin are added before others go, so that one is always there."""
        zone = Zone("example.org. 300 IN NS a.", "example.org. 300 IN NS b.")
        patch(zone, replace("c.", type="NS", name=ZONE))
        self.assertEqual([one["op"] for one in zone.updates[0]["operations"]], ["add", "delete-record", "delete-record"])

    def test_meanwhile(self) -> None:
        """A set that changed is read again, three times at most."""
        zone = Zone()
        zone.replies = [UNMET, UNMET]
        patch(zone, replace("192.0.2.1"))
        self.assertEqual((len(zone.updates), zone.lines), (3, {f"{NAME} 300 IN A 192.0.2.1"}))
        zone.replies = [UNMET] * 3
        self.assertIn("changed meanwhile", self.fails(422, zone, replace("192.0.2.2")))

    def test_replies(self) -> None:
        """The office's refusals, and what it passes over."""
        for reply, status, words in (
                (Reply(403, "", {"code": 5, "name": "REFUSED", "by": "r", "list": "operations", "item": 0}), 403,
                 f"REFUSED operations 0 by r for RRset {NAME} IN A"),
                (Reply(404, "", {"code": 9, "name": "NOTAUTH"}), 404, "Could not find domain 'example.org.'"),
                (Reply(400, "", {"code": 1, "name": "FORMERR", "refusal": 88}), 422, "FORMERR refusal 88"),
                (Reply(500, "", {"code": 2, "name": "SERVFAIL"}), 500, "the office is not reached: SERVFAIL"),
                (Reply(401, "", {"front": 401, "reason": "x"}), 500, "the office is not reached: front 401"),
                (NOERROR, 422, f"RRset {NAME} IN A: Conflicts with pre-existing RRset, or was changed at once")):
            zone = Zone()
            zone.replies = [reply]
            self.assertEqual(self.fails(status, zone, replace("192.0.2.1")), words)

    def test_hidden(self) -> None:
        """A set that the caller may not list is not changed."""
        zone = Zone()
        self.assertIn("REFUSED by closing", self.fails(403, zone, replace("192.0.2.1", name="hidden.example.org.")))
        self.assertEqual(zone.updates, [])

    def test_large(self) -> None:
        """What one update cannot hold."""
        zone = Zone(*{f"{NAME} 300 IN A 192.0.2.{number}" for number in range(65)})
        for rrset in replace("192.0.2.1"), replace(*[f"198.51.100.{number}" for number in range(255)], name="b.example.org."), \
                replace(*[f'"{"x" * 250}{number:03}"' for number in range(256)], name="b.example.org.", type="TXT"):
            self.assertIn("too large", self.fails(422, zone, rrset, replace("192.0.2.1", "192.0.2.2", name="c.example.org.")))


class Service(unittest.TestCase):
    """Keys and paths."""

    def test_keys(self) -> None:
        """A key is known whole, and one of several."""
        callers = [pdns.Caller(hashlib.sha256(key).digest(), Zone(), key.decode()) for key in (b"one", b"two")]
        service = pdns.Service(callers, [ZONE])
        found = [service.caller(key) for key in ("one", "two", "", "on", "one ", "\xe4", "\u20ac")]
        self.assertEqual([one.name if one else None for one in found], ["one", "two"] + [None] * 5)

    def test_paths(self) -> None:
        """Identifiers of zones, and paths that are none."""
        service = pdns.Service([], [ZONE, "0/25.2.0.192.in-addr.arpa."])
        one = caller(Zone("example.org. 300 IN SOA a. b. 7 1 1 1 1"))
        zones = "/api/v1/servers/localhost/zones"
        for part in "example.org.", "example.org", "EXAMPLE.org", "example%2Eorg.":
            self.assertEqual(service.answer(one, "GET", f"{zones}/{part}", b"")["serial"], 7)
        self.assertEqual(service.answer(one, "GET", f"{zones}/0=2F25.2.0.192.in-addr.arpa.", b"")["id"], "0=2F25.2.0.192.in-addr.arpa.")
        for path in "/", "/api/v2", "/api/v1/servers/x", "/api/v1/servers/localhost/x", zones + "/example.net.", zones + "/%00", \
                zones + "/a b", f"{zones}/{ZONE}/x", f"{zones}/{ZONE}/notify/x", "//" * 5000:
            with self.assertRaises(pdns.Failure) as caught:
                service.answer(one, "GET", path, b"")
            self.assertEqual(caught.exception.status, 404, path)

    def test_query(self) -> None:
        """Parts of a zone, and odd queries."""
        service, one = pdns.Service([], [ZONE]), caller(Zone(f"{NAME} 300 IN A 192.0.2.1", f"{NAME} 300 IN TXT \"a\""))
        path = f"/api/v1/servers/localhost/zones/{ZONE}"
        found = [service.answer(one, "GET", f"{path}{query}", b"").get("rrsets") for query in (
            "", "?rrset_type=TXT", f"?rrset_name={NAME}&rrset_type=A", "?rrset_name=x.", "?rrsets=false", "?" + "a=b&" * 5000, "?%ff=%")]
        self.assertEqual([None if one is None else len(one) for one in found], [2, 1, 1, 0, None, 2, 2])


if __name__ == "__main__":
    unittest.main()
