"""Zones of the client: what operations do, what differs, guards, the rules for zones, master files, and parts of large updates."""
# pylint: disable=line-too-long

import pathlib
import sys
import unittest

sys.path.insert(0, str(pathlib.Path(__file__).parents[1]))

from office_client import checking, data, history, importing, rules, update, zone  # noqa: E402 pylint: disable=wrong-import-position
from office_client.master import File  # noqa: E402 pylint: disable=wrong-import-position
from office_client.planning import holds  # noqa: E402 pylint: disable=wrong-import-position
from office_client.reading import Table  # noqa: E402 pylint: disable=wrong-import-position
from office_client.telling import Bad, Refused  # noqa: E402 pylint: disable=wrong-import-position
from office_client.update import Group, Part, Update  # noqa: E402 pylint: disable=wrong-import-position
from office_client.zone import Zone  # noqa: E402 pylint: disable=wrong-import-position

BASE = """example.org. 3600 IN SOA ns1.example.org. admin.example.org. 7 3600 600 86400 60
example.org. 3600 IN NS ns1.example.org.
example.org. 3600 IN NS ns2.example.net.
ftp.example.org. 3600 IN CNAME www.example.org.
ns1.example.org. 3600 IN A 192.0.2.1
www.example.org. 300 IN A 192.0.2.5"""


def zone_of(text: str) -> Zone:
    """A zone of record lines in record order."""
    return Zone("example.org.", map(data.record_of, text.splitlines()))


def part(line: str) -> Part:
    """An operation of an item line."""
    word, name, *more = line.split(" ")
    ttl = int(more.pop(0)) if word == "add" else None
    return Part(word, name, more[0] if more else None, " ".join(more[1:]) or None, ttl)


class Effects(unittest.TestCase):
    """What RFC 2136 section 3.4.2 says of operations."""

    def test_what_does_nothing(self) -> None:
        """The silent cases, each with its reason."""
        for line, why in (("add ftp.example.org. 60 A 192.0.2.9", "an alias"), ("add www.example.org. 60 CNAME a.", "other records"),
                          ("add www.example.org. 300 A 192.0.2.5", "there already"), ("delete-rrset www.example.org. TXT", "no TXT"),
                          ("delete-record www.example.org. A 192.0.2.6", "not there"), ("delete-rrset example.org. NS", "stays"),
                          ("delete-name x.example.org.", "no record"), ("add example.org. 60 DS 1 8 2 ab", "the zone above"),
                          ("add example.org. 60 SOA a. b. 7 1 1 1 1", "not greater"), ("add www.example.org. 60 SOA a. b. 9 1 1 1 1", "no SOA"),
                          ("delete-record example.org. SOA a. b. 7 1 1 1 1", "stays")):
            self.assertIn(why, zone_of(BASE).make(part(line)) or "", line)

    def test_what_does_something(self) -> None:
        """Additions, with the TTL of their set; an alias in the place of another; deletions."""
        made = zone_of(BASE)
        for line in ("add www.example.org. 60 A 192.0.2.4", "add ftp.example.org. 60 CNAME a.", "delete-record example.org. NS ns2.example.net.",
                     "add example.org. 5 SOA a. b. 8 1 1 1 1"):
            self.assertIsNone(made.make(part(line)), line)
        self.assertEqual([one.line() for one in made.at("www.example.org.")],
                         ["www.example.org. 60 IN A 192.0.2.4", "www.example.org. 60 IN A 192.0.2.5"])
        self.assertEqual(made.at("ftp.example.org.")[0].data, "a.")
        self.assertEqual(made.make(part("delete-record example.org. NS ns1.example.org.")), "the last NS of the zone stays")

    def test_what_is_taken_back(self) -> None:
        """An update whose operations undo each other changes nothing."""
        wanted = Update("example.org.", [], [part("add x.example.org. 60 A 192.0.2.1"), part("delete-rrset x.example.org. A")])
        _, found = checking.foresee(zone_of(BASE), [wanted])
        self.assertTrue(found[0].is_idle())

    def test_prerequisites(self) -> None:
        """Whether they hold."""
        tests = Update("example.org.", [Part("rrset-equals", "www.example.org.", "A", "192.0.2.5"), Part("rrset-absent", "www.example.org.", "MX"),
                                        Part("name-used", "ftp.example.org."), Part("name-unused", "ftp.example.org."),
                                        Part("rrset-exists", "www.example.org.", "MX"), Part("rrset-equals", "ns1.example.org.", "A", "192.0.2.2")])
        self.assertEqual([holds(zone_of(BASE), tests, one) for one in tests.prerequisites], [True, True, True, False, False, False])


class Differences(unittest.TestCase):
    """What leads from one zone to another: the examples of docs/formats.md."""

    def test_operations(self) -> None:
        """New NS of the origin, what goes, what comes."""
        new = BASE.replace("ns2.example.net", "ns3.example.org").replace("www.example.org. 300 IN A 192.0.2.5", "www.example.org. 3600 IN CNAME web.example.org.")
        self.assertEqual([one.line() for one in importing.difference(zone_of(BASE), zone_of(new))],
                         ["add example.org. 3600 NS ns3.example.org.", "delete-record example.org. NS ns2.example.net.",
                          "delete-record www.example.org. A 192.0.2.5", "add www.example.org. 3600 CNAME web.example.org."])

    def test_guards(self) -> None:
        """Prerequisites of sets that change, and of new ones."""
        new = zone_of(BASE)
        new.put("ftp.example.org.", [data.record_of("ftp.example.org. 3600 IN A 192.0.2.8")])
        new.put("mail.example.org.", [data.record_of("mail.example.org. 3600 IN A 192.0.2.9")])
        new.put("www.example.org.", [*new.at("www.example.org."), data.record_of("www.example.org. 3600 IN AAAA 2001:db8::5")])
        found = [one.line() for group in zone.groups(zone_of(BASE), new, True) for one in group.prerequisites]
        self.assertEqual(sorted(found), ["name-unused mail.example.org.", "rrset-absent ftp.example.org. A", "rrset-absent www.example.org. AAAA",
                                         "rrset-absent www.example.org. CNAME", "rrset-equals ftp.example.org. CNAME www.example.org."])

    def test_soa(self) -> None:
        """It is added where another field than the serial changes, with a serial that is greater."""
        new = zone_of(BASE.replace("86400 60", "86400 90"))
        self.assertEqual([one.line() for one in importing.difference(zone_of(BASE), new)],
                         ["add example.org. 3600 SOA ns1.example.org. admin.example.org. 8 3600 600 86400 90"])
        self.assertEqual(importing.difference(zone_of(BASE), zone_of(BASE.replace(" 7 ", " 6 "))), [])


class Rules(unittest.TestCase):
    """The rules of `check zone`."""

    def test_each(self) -> None:
        """A record that breaks each of them."""
        for more, rule in (("a_b.example.org. 60 IN A 192.0.2.1", "host-name"), ("a.example.org. 60 IN MX 1 ftp.example.org.", "alias-target"),
                           ("a.example.org. 60 IN SRV 0 1 5 none.example.org.", "missing-address"), ("sub.example.org. 60 IN NS ns.sub.example.org.", "missing-glue"),
                           ("sub.example.org. 60 IN NS out.example.net.\nx.sub.example.org. 60 IN TXT \"x\"", "below-cut"),
                           (f"sub.example.org. 60 IN DS 1 8 2 {'ab' * 32}", "ds-without-ns"), ("*.sub.example.org. 60 IN NS out.example.net.", "wildcard-ns"),
                           ("sub.example.org. 60 IN NS out.example.net.\nsub.example.org. 60 IN DS 1 8 2 ab", "digest-length"),
                           (f"sub.example.org. 60 IN NS out.example.net.\nsub.example.org. 60 IN DS 1 8 1 {'ab' * 20}", "weak-digest"),
                           ("a.example.org. 60 IN MX 1 192.0.2.1.", "address-name"), ("a#b.example.org. 60 IN TXT \"x\"", "unread-octet"),
                           ("a.example.org. 60 IN CNAME none.example.org.", "dangling-alias")):
            self.assertEqual([one.rule for one in rules.new_findings(zone_of(BASE), zone_of(f"{BASE}\n{more}"))], [rule])

    def test_what_is_right(self) -> None:
        """Names that are no hosts' and need not be, wildcards, glue."""
        fine = ["_sip._tcp.example.org. 60 IN SRV 0 1 5 www.example.org.", "*.example.org. 60 IN A 192.0.2.1", "_dmarc.example.org. 60 IN TXT \"x\"",
                "1.2.0.192.in-addr.arpa. 60 IN PTR www.example.org.", "gc._msdcs.example.org. 60 IN A 192.0.2.1",
                "sub.example.org. 60 IN NS ns.sub.example.org.\nns.sub.example.org. 60 IN A 192.0.2.1",
                f"sub.example.org. 60 IN NS out.example.net.\nsub.example.org. 60 IN DS 1 8 4 {'ab' * 48}\nsub.example.org. 60 IN DS 1 8 9 ab",
                "a.example.org. 60 IN MX 1 192.0.2.256.", "a/b\\;c.example.org. 60 IN TXT \"x#y\"",
                "a.example.org. 60 IN CNAME b.w.example.org.\n*.w.example.org. 60 IN TXT \"x\""]
        for more in fine:
            self.assertEqual(rules.new_findings(zone_of(BASE), zone_of(f"{BASE}\n{more}")), [], more)


class Files(unittest.TestCase):
    """Master files."""

    def test_forms(self) -> None:
        """Owners, TTLs, parentheses, comments, directives."""
        text = "$TTL 1h\n@ IN SOA ns1 admin ( 7 1h ; refresh\n 10m 1d 1m )\n   NS ns1\n$ORIGIN sub.example.org.\na 5m IN A 192.0.2.1\nb IN 6m A 192.0.2.2 ; x\n" \
            "  TXT \"a;b\" c\nc.example.org. AAAA ::1\n"
        found = [record.line() for record, _ in File("example.org.", text).lined()]
        self.assertEqual(found, ["example.org. 3600 IN SOA ns1.example.org. admin.example.org. 7 3600 600 86400 60", "example.org. 3600 IN NS ns1.example.org.",
                                 "a.sub.example.org. 300 IN A 192.0.2.1", "b.sub.example.org. 360 IN A 192.0.2.2",
                                 "b.sub.example.org. 3600 IN TXT \"a;b\" \"c\"", "c.example.org. 3600 IN AAAA ::1"])

    def test_least_ttl(self) -> None:
        """Each set has its least TTL, and of equal records the last counts."""
        text = "a.example.org. 5 A 192.0.2.1\na.example.org. 9 A 192.0.2.1\na.example.org. 7 A 192.0.2.2\n"
        self.assertEqual([record.ttl for record, _ in File("example.org.", text).lined()], [7, 7])

    def test_mistakes(self) -> None:
        """Each with its line."""
        for text, line in (("a 5 A 192.0.2.1\nb 5 A 1\n", "line 2: A, address"), ("a A 192.0.2.1\n", "line 1: the record has no TTL"), (" 5 A 192.0.2.1\n", "line 1: no record"),
                           ("$INCLUDE x\n", "line 1: '$INCLUDE'"), ("a 5 A ( 192.0.2.1\n", "line 1: a parenthesis is not"), ("a 5 A )\n", "line 1: a parenthesis is closed"),
                           ("\na 5 TXT \"x\n", "line 2: a quote"), ("a 5 CH A 1.2.3.4\n", "line 1: class CH"), ("a 5 CAA 0\n", "line 1: 'CAA'"),
                           ("a.example.net. 5 A 192.0.2.1\n", "line 1: a.example.net. A is not within"), ("x 5 SOA a b 1 2 3 4 5\n", "line 1: x.example.org. SOA is not at"), ("a 5 A 1.2.3.4\na 5 CNAME b\n", "line 2: a.example.org. has a CNAME")):
            with self.assertRaises(Bad, msg=text) as caught:
                File("example.org.", text).lined()
            self.assertTrue(str(caught.exception).startswith(line), str(caught.exception))

    def test_a_missing_dot(self) -> None:
        """A whole name without its last dot is noted with its line."""
        file = File("example.org.", "\nwww.example.org 5 A 192.0.2.1\nmail 5 MX 1 mail\n")
        self.assertEqual([(one.name, one.other, where) for one, where in file.readings],
                         [("www.example.org.example.org.", "www.example.org.", "line 2: ")])


class Tables(unittest.TestCase):
    """Tables of records."""

    def test_rows(self) -> None:
        """Name and address, or name, type and data; headings, separators, quotes, names without a row of their own."""
        for text, wanted in (("Name,Address\npc1,192.0.2.1\r\n,2001:db8::1,5m\n", ["pc1.example.org. 3600 IN A 192.0.2.1", "pc1.example.org. 300 IN AAAA 2001:db8::1"]),
                             ('# hosts\nx;TXT;"a,b ""c"" d";60\n\nmail;mx;10 www.example.com\n',
                              ['x.example.org. 60 IN TXT "a,b \\"c\\" d"', "mail.example.org. 3600 IN MX 10 www.example.com."]),
                             ("b\u00fccher\t192.0.2.1\n@\tTXT\t\"\"\"a\"\" \"\"\u0105\"\"\"\n",
                              ["xn--bcher-kva.example.org. 3600 IN A 192.0.2.1", 'example.org. 3600 IN TXT "a" "\\196\\133"']), ("", [])):
            self.assertEqual([one.line() for one, _ in Table("example.org.", text.encode().decode("latin-1")).lined()], wanted)

    def test_mistakes(self) -> None:
        """Each with its line; a row of headings is one by its words only."""
        for text, said in (("pc1,192.0.2.1\npc2,CAA,0\n", "line 2: 'CAA' is neither"), ("pc1,AAA,192.0.2.1\n", "line 1: 'AAA' is neither"),
                           ("a,192.0.2.999\n", "line 1: A, address"), (",192.0.2.1\n", "line 1: no row"), ("a,192.0.2.1,5m,x\n", "line 1: 'x' is after"),
                           ("a,A,192.0.2.1,5x\n", "line 1: TTL"), ('a,TXT,"x\ny"\nb,A,1\n', "line 3: A, address"), ('\na,TXT,"x\n', "line 2: unexpected end"),
                           ("a.example.net,192.0.2.1\n", "line 1: a.example.net. A is not within"), ("a,A,1.2.3.4\nname,address\n", "line 2: 'address'")):
            with self.assertRaises(Bad, msg=text) as caught:
                Table("example.org.", text)
            self.assertTrue(str(caught.exception).startswith(said), str(caught.exception))


class Parts(unittest.TestCase):
    """Updates beyond the limits of one."""

    def test_parts(self) -> None:
        """No part is beyond them, order is kept, and what belongs together stays so."""
        groups = [Group([Part("name-unused", f"h{place}.example.org.")],
                        [Part("add", f"h{place}.example.org.", kind, text, 300) for kind, text in (("A", "192.0.2.1"), ("AAAA", "::1"))]) for place in range(500)]
        parts = update.parts_of("example.org.", groups)
        self.assertEqual(len(parts), 8)
        self.assertTrue(all(update.excess(one) is None for one in parts))
        self.assertEqual([one.name for each in parts for one in each.prerequisites], [f"h{place}.example.org." for place in range(500)])
        for each in parts:
            self.assertEqual({one.name for one in each.prerequisites}, {one.name for one in each.operations})

    def test_octets(self) -> None:
        """Long data fill a part before its items do."""
        text = " ".join(['"' + "x" * 250 + '"'] * 8)
        parts = update.parts_of("example.org.", [Group([], [Part("add", f"h{place}.example.org.", "TXT", text, 300)]) for place in range(100)])
        self.assertGreater(len(parts), 3)
        self.assertTrue(all(len(update.compact({"id": "x" * 64, **one.request()[1]})) <= 65536 for one in parts))

    def test_a_script(self) -> None:
        """The prerequisites of a divided update are in the first part; too many are not divided."""
        large = Update("example.org.", [Part("name-used", "example.org.")], [Part("delete-rrset", f"h{place}.example.org.", "A") for place in range(300)])
        large.sources = {"prerequisites": ["line 1"], "operations": [f"line {place + 2}" for place in range(300)]}
        parts = update.divided(large)
        self.assertEqual([(len(one.prerequisites), len(one.operations)) for one in parts], [(1, 256), (0, 44)])
        self.assertEqual(parts[1].sources["operations"][0], "line 258")
        large.prerequisites *= 65
        with self.assertRaises(Bad):
            update.divided(large)

    def test_points(self) -> None:
        """What items ask of the policy."""
        origin = "example.org."
        self.assertEqual(update.points(Part("add", "a.example.org.", "NS"), True, origin), [("a.example.org.", "NS", "delegate")])
        self.assertEqual(update.points(Part("add", origin, "NS"), True, origin), [(origin, "NS", "add")])
        self.assertEqual(len(update.points(Part("delete-name", "a.example.org."), True, origin)), 9)
        self.assertEqual(len(update.points(Part("delete-name", origin), True, origin)), 7)
        self.assertEqual(len(update.points(Part("name-used", origin), False, origin)), 9)


class Histories(unittest.TestCase):
    """Zones and their changes."""

    def test_past_zones(self) -> None:
        """The zone before changes is that in which they were made; a zone that is not the one after them is refused."""
        first = [data.record_of(line) for line in BASE.splitlines()]
        came, again = data.record_of("a.example.org. 60 IN A 192.0.2.9"), data.record_of("a.example.org. 90 IN A 192.0.2.9")
        changes = [history.Change(1, [], [came]), history.Change(2, [came], [again]), history.Change(4, [first[5]], [])]
        now = sorted([*first[:5], again], key=data.order)
        self.assertEqual(history.before(now, changes), sorted(first, key=data.order))
        self.assertEqual(history.before(now, changes[2:]), sorted([*first, again], key=data.order))
        self.assertEqual(history.before(now, []), now)
        with self.assertRaises(Refused):
            history.before(first, changes)

    def test_bringers(self) -> None:
        """Of the changes that brought a record the last one counts."""
        one, other = data.record_of("a.example.org. 60 IN A 192.0.2.9"), data.record_of("b.example.org. 60 IN A 192.0.2.9")
        changes = [history.Change(1, [], [one]), history.Change(2, [one], []), history.Change(3, [], [one])]
        self.assertEqual(history.bringers([one, other], changes), [(3, one), (0, other)])


if __name__ == "__main__":
    unittest.main()
