"""What office-takeover reads of named.conf and of zones; acceptance/try-takeover has BIND and the office."""

import os
import pathlib
import tempfile
import unittest
from typing import Any
from unittest import mock

import dns.message
import dns.name

from loading import load
from office_settings import Wrong
from office_takeover import clauses, drift, gateway, named, policy, records

takeover = load("office-takeover")
SECRET = "c2l4dGVlbiBvY3RldHMgYW5kIG1vcmU="
KEY = f'key "{{}}" {{{{ algorithm hmac-sha256; secret "{SECRET}"; }}}};\n'
ZONE = 'zone "example.org" {{ type primary; {} }};\n'


def statements(text: str, more: dict[str, str] | None = None) -> list[named.Statement]:
    """The statements of a file, beside which are others."""
    with tempfile.TemporaryDirectory() as folder:
        for name, content in {"named.conf": text.replace("FOLDER", folder), **(more or {})}.items():
            pathlib.Path(folder, name).write_text(content.replace("FOLDER", folder), encoding="latin-1")
        return named.read([f"{folder}/named.conf"])


def translated(text: str) -> policy.Translated:
    """The policy of a configuration."""
    return policy.translated(clauses.configuration(statements(text)))


def rules(said: str, keys: tuple[str, ...] = ("k",)) -> list[tuple[Any, ...]]:
    """The rules of a zone that says so, but those for prerequisites."""
    made = translated("".join(KEY.format(key) for key in keys) + ZONE.format(said))
    return [(one.effect, one.caller, one.scope, one.place.to_text(), one.types, one.actions) for one in made.rules if one.actions != ("check",)]


class Reading(unittest.TestCase):
    """named.conf."""

    def test_words(self) -> None:
        """Quotes, braces, comments of three kinds, also within words."""
        found = statements('a "b;{" /* x { */ c//d\n#e "\n f { g { h; }; !192.0.2.0/24; "i\\"j"; }; k#;\n;')
        self.assertEqual([(one.words, len(one.blocks)) for one in found], [(["a", "b;{", "c", "f"], 1), (["k"], 0)])
        self.assertEqual([one.words for one in found[0].block()], [["g"], ["!", "192.0.2.0/24"], ['i"j']])

    def test_faults(self) -> None:
        """Each has its place."""
        for text, words in (("a {\n b; ", "has no end"), ("a; }", "one too many"), ("a { b };", ":1: a semicolon"),
                            ("a;\n/* b", ":2: a quote or a comment"),
                            ("a " + "{" * 51, "braces"), ("b", "has no end"), ('include "FOLDER/no";', "/no"),
                            ('include "FOLDER/named.conf";', "include each other"),
                            ('include "FOLDER/no*";', "there is no file"), ('include "/dev/null";', "is not a file")):
            with self.subTest(text), self.assertRaisesRegex(named.Wrong, words):
                statements(text)

    def test_include(self) -> None:
        """Files, several by a pattern, and those relative to the directory; not in lists."""
        found = statements('options { directory "FOLDER"; };\ninclude "b*";\nacl x { include "c"; };',
                           {"b1": "one;", "b2": 'include "c";', "c": "two; three;"})
        self.assertEqual([one.words for one in found], [["options"], ["one"], ["two"], ["three"], ["acl", "x"]])
        self.assertTrue(found[2].where.endswith("/c:1"), found[2].where)

    def test_bounds(self) -> None:
        """Files that are too large together."""
        with self.assertRaisesRegex(named.Wrong, "octets"):
            statements('include "a"; include "a";'.replace('"a"', '"FOLDER/a"'), {"a": " " * (9 << 20)})


class Policy(unittest.TestCase):
    """update-policy and lists."""

    def test_kinds(self) -> None:
        """Each kind of rule, as far as it is within the zone."""
        own = ("add", "delete")
        for said, wanted in (("name www.example.org A", ("name", "www.example.org.")), ("subdomain a.example.org. A", ("subtree", "a.example.org.")),
                             ("wildcard *.a.example.org A", ("below", "a.example.org.")), ("zonesub A", ("subtree", "example.org.")),
                             ("subdomain org A", ("subtree", "example.org.")), ("wildcard *.org A", ("subtree", "example.org.")),
                             ("wildcard * A", ("subtree", "example.org.")), ("name org A", None),
                             ("subdomain example.net A", None), ("self k A", None)):
            with self.subTest(said):
                self.assertEqual(rules(f"update-policy {{ grant k {said}; }};"), [("grant", "k", *wanted, ("A",), own)] if wanted else [])
        for kind, scope in ("self", "name"), ("selfsub", "subtree"), ("selfwild", "below"):
            self.assertEqual(rules(f"update-policy {{ deny h.example.org {kind} h.example.org TXT; }};", ("H.example.org",)),
                             [("deny", "h.example.org", scope, "h.example.org.", ("TXT",), own)])

    def test_types(self) -> None:
        """BIND's default types, ANY, and types that are not kept."""
        found = rules("update-policy { grant k zonesub; grant k zonesub A any; grant k zonesub ns; grant k zonesub CAA TLSA; };")
        self.assertEqual([one[4] for one in found], [("A", "CNAME", "PTR", "MX", "TXT", "AAAA", "SRV", "DS"), ("*",), ("NS",)])
        self.assertEqual([one[5][2:] for one in found], [("delegate",)] * 3)
        made = translated(KEY.format("k") + ZONE.format("update-policy { grant k zonesub A CAA; deny k zonesub TLSA; };"))
        self.assertEqual((len(made.left), "taken without CAA" in made.left[0]), (1, True))

    def test_identities(self) -> None:
        """A wildcard is each key that it takes in; another name is no key."""
        found = rules("update-policy { grant *.a zonesub A; grant * zonesub A; };", ("x.a", "a", "y.x.a"))
        self.assertEqual([one[1] for one in found], ["x.a", "y.x.a", "x.a", "a", "y.x.a"])
        made = translated(KEY.format("k") + ZONE.format("update-policy { grant q zonesub A; };"))
        self.assertEqual((made.rules, "no key of this name" in made.left[0]), ([], True))

    def test_denials(self) -> None:
        """After a denial that is not taken nothing is granted; a grant that is not taken is only left out."""
        for first, count in ("deny k tcp-self . A", 0), ("grant k tcp-self . A", 1), ("deny k zonesub A(2)", 0), ("grant k zonesub A(2)", 1):
            with self.subTest(first):
                self.assertEqual(len(rules(f"update-policy {{ {first}; grant k zonesub A; }};")), count)

    def test_nested(self) -> None:
        """The statements of a zone above end at the zone within it, but for the delegation."""
        text = KEY.format("k") + KEY.format("l") + ZONE.format("update-policy { grant k zonesub ANY; };") + \
            'zone "a.example.org" { type master; update-policy { grant l zonesub ANY; }; };'
        found = [(one.effect, one.caller, one.scope, one.place.to_text(), one.actions) for one in translated(text).rules if "check" != one.actions[0]]
        self.assertEqual(found, [("grant", "l", "subtree", "a.example.org.", ("add", "delete")),
                                 ("grant", "l", "below", "a.example.org.", ("delegate",)),
                                 ("deny", "k", "subtree", "a.example.org.", ("list", "check", "add", "delete")),
                                 ("deny", "k", "below", "a.example.org.", ("delegate",)),
                                 ("grant", "k", "subtree", "example.org.", ("add", "delete", "delegate"))])

    def test_lists(self) -> None:
        """Keys of address match lists, until something narrows who uses them."""
        for said, count, left in (("allow-update { key k; };", 1, 0), ("allow-update { ! key k; key k; key l; };", 1, 0),
                                  ("allow-update { !10.0.0.0/8; key k; };", 0, 2),
                                  ("allow-update { { key k; }; };", 0, 1), ("allow-transfer { key l; 192.0.2.1; };", 1, 1),
                                  ("allow-update { any; };", 0, 1)):
            with self.subTest(said):
                made = translated(KEY.format("k") + KEY.format("l") + ZONE.format(said))
                self.assertEqual((len([one for one in made.rules if one.actions != ("check",)]), len(made.left)), (count, left))

    def test_text(self) -> None:
        """A rule in TOML, whatever the statement has."""
        rule = policy.Rule("grant", "k", "name", dns.name.from_text("a\\.b.example.org"), ("A", "TXT"), ("add",), "x\n[[rule]]")
        self.assertEqual(rule.text(7), '# x\\n[[rule]]\n[[rule]]\nid = "bind-7"\neffect = "grant"\ncaller = "k"\n'
                                       'scope = "name"\nat = "a\\\\.b.example.org."\n'
                                       'types = ["A", "TXT"]\nactions = ["add"]\n')


class Keys(unittest.TestCase):
    """The gateway's configuration."""

    def test_keys(self) -> None:
        """Names, secrets in pieces, and those that are not taken."""
        text = KEY.format("A.b") + 'key "weak" { algorithm hmac-md5; secret "eA=="; };\n' \
            'key "short" { secret "eA=="; algorithm "hmac-sha512"; };\n' + ZONE.format("")
        made, left = gateway.gateway_text(clauses.configuration(statements(text)), ["127.0.0.1:53"], "publisher")
        self.assertIn(f'name = "a.b."\nalgorithm = "hmac-sha256"\nsecret = "{SECRET}"\ncaller = "a.b"\n', made)
        self.assertEqual([one.split(": ", 1)[1][:18] for one in left], ["key weak: its algo", "key short: its sec"])
        self.assertNotIn("eA==", made + "".join(left))

    def test_twice(self) -> None:
        """The same key twice, and another one of the same name."""
        clauses.configuration(statements(KEY.format("k") * 2))
        with self.assertRaisesRegex(named.Wrong, "is another one"):
            clauses.configuration(statements(KEY.format("k") + KEY.format("K").replace(SECRET, "b3RoZXIgb2N0ZXRzIGFuZCBtb3JlIDE=")))

    def test_file(self) -> None:
        """A new file of mode 0600, and no other."""
        with tempfile.TemporaryDirectory() as folder:
            path = f"{folder}/gateway.toml"
            gateway.write_secret(path, "x")
            self.assertEqual(os.stat(path).st_mode & 0o777, 0o600)
            os.symlink(f"{folder}/other", f"{folder}/link")
            for one in path, f"{folder}/link":
                with self.assertRaises(FileExistsError):
                    gateway.write_secret(one, "y")
            self.assertEqual(pathlib.Path(path).read_text(encoding="ascii"), "x")
            self.assertEqual(sorted(os.listdir(folder)), ["gateway.toml", "link"])

    def test_broken(self) -> None:
        """A fault leaves nothing, and what a killed run left goes."""
        with tempfile.TemporaryDirectory() as folder:
            path = f"{folder}/gateway.toml"
            pathlib.Path(path + records.NEW).write_text("half", encoding="ascii")
            with mock.patch("os.fsync", side_effect=OSError(28, "full")), self.assertRaises(OSError):
                gateway.write_secret(path, "x")
            self.assertEqual(os.listdir(folder), [])
            pathlib.Path(path + records.NEW).write_text("half", encoding="ascii")
            records.write(path, ["x"])
            self.assertEqual(os.listdir(folder), ["gateway.toml"])


class Zones(unittest.TestCase):
    """A zone in two."""

    def zone(self, text: str, **more: Any) -> Any:
        """The parts of a text."""
        return records.read_master(text, dns.name.from_text("example.org."), "zone").parts(**more)

    def test_parts(self) -> None:
        """Kept types, a signer's, and the rest; the SOA first; a DS at the origin is in the rest; the least TTL of a set."""
        parts = self.zone("$TTL 60\n@ NS a\n@ 50 CAA 0 issue \"x\"\n@ SOA a b 1 1 1 1 1\n@ DS 1 8 2 " + "ab" * 32
                          + "\nc 70 A 192.0.2.1\nc 80 A 192.0.2.2\nC 90 A 192.0.2.2\n"
                          "@ NSEC c A\nt TYPE65280 \\# 1 01\nd DS 1 8 2 " + "ab" * 32 + "\n")
        self.assertEqual([one.split(" ", 4)[3] for one in parts.office], ["SOA", "NS", "A", "A", "DS"])
        self.assertEqual(parts.office[2:4], ["c.example.org. 70 IN A 192.0.2.1", "c.example.org. 70 IN A 192.0.2.2"])
        self.assertEqual([one.split(" ", 3)[3][:8] for one in parts.rest], ["CAA 0 is", "DS 1 8 2", "TYPE6528"])
        self.assertEqual(parts.signer, ["example.org. 60 IN NSEC c.example.org. A"])

    def test_generic(self) -> None:
        """Data whose text does not read back have the form of RFC 3597."""
        text = "@ 1 CLASS1 SOA a b 1 1 1 1 1\n@ 1 TYPE25 \\# 2 0102\n@ 1 CLASS1 TYPE1 \\# 4 c0000201\n"
        self.assertEqual(self.zone(text).office[1:], ["example.org. 1 IN A 192.0.2.1"])
        soa = "@ 1 CLASS1 TYPE6 \\# 52 036e7331076578616d706c65036f7267000161076578616d706c65036f726700" + " 0000000100000001" * 2 + "00000001\n"
        self.assertIn(" SOA ns1.example.org. a.example.org. 1 1 1 1 1", self.zone(soa).office[0])
        self.assertEqual(self.zone(text).rest[0], "example.org. 1 IN KEY \\# 2 0102")
        with self.assertRaisesRegex(named.Wrong, "unknownformat"):
            self.zone("@ 1 SOA a b 1 1 1 1 1\n@ 1 KEY 256 3 8 aGVsbG8=\n")

    def test_dhcid(self) -> None:
        """A DHCID as the gateway has it."""
        parts = self.zone("@ 1 SOA a b 1 1 1 1 1\np 9 DHCID AAIB Y2/A\n", dhcid_as_text=True)
        self.assertEqual((parts.office[1:], parts.rest), (['_dhcid.p.example.org. 9 IN TXT "dhcid=AAIBY2/A"'], []))

    def test_refused(self) -> None:
        """What is no zone, with its line."""
        for text, words in (("@ 1 NS a\n", "no SOA"), ("a.example.net. 1 A 192.0.2.1\n", "is not within"), ("\n$INCLUDE x\n", "zone:"),
                            ("a 1 CH A 192.0.2.1\n", "zone:"),
                            ("a A 192.0.2.1\n", "zone:"), ("@ 1 TXT \"\n", "zone:")):
            with self.subTest(text), self.assertRaisesRegex(named.Wrong, words):
                self.zone(text)


class Drift(unittest.TestCase):
    """Settings of `drift`."""

    def test_settings(self) -> None:
        """A primary has an address; a key has a secret."""
        for words in ('primary = "ns1"', 'primary = "192.0.2.1#0"', "primary = 1", 'primary = "192.0.2.1"\nkey = "k."',
                      'primary = "192.0.2.1"\nkey = "k."\nsecret = "?"'):
            with self.subTest(words), tempfile.TemporaryDirectory() as folder, self.assertRaises(Wrong):
                path = pathlib.Path(folder, "takeover.toml")
                path.write_text(f'url = "http://127.0.0.1:8053"\nzones = ["example.org."]\n{words}\n', encoding="ascii")
                path.chmod(0o600)
                drift.Drift(str(path))

    def test_dhcid(self) -> None:
        """A DHCID of the primary counts as a TXT where the settings say so."""
        wire = dns.message.from_text("id 1\nopcode QUERY\nrcode NOERROR\nflags QR AA\n;QUESTION\nexample.org. IN AXFR\n;ANSWER\n"
                                     "example.org. 60 IN SOA a. b. 1 1 1 1 1\np.example.org. 9 IN DHCID AAIBY2/A\n")
        for words, wanted in (("", (0, 1)), ("dhcid-as-txt = true\n", (1, 0))):
            with tempfile.TemporaryDirectory() as folder, mock.patch("dns.query.xfr", return_value=[wire]):
                path = pathlib.Path(folder, "takeover.toml")
                path.write_text('url = "http://127.0.0.1:8053"\nzones = ["example.org."]\nprimary = "192.0.2.1"\n' + words, encoding="ascii")
                path.chmod(0o600)
                parts = drift.Drift(str(path)).primary.zone("example.org.")
                texts = [one for one in parts.office if one == '_dhcid.p.example.org. 9 IN TXT "dhcid=AAIBY2/A"']
                self.assertEqual((len(texts), len(parts.rest)), wanted)


class Words(unittest.TestCase):
    """The command line."""

    def test_wrong(self) -> None:
        """Status 2, and no file."""
        for words in ([], ["merge"], ["split", "x"], ["split", "--origin", "a b", "x", "--office", "a", "--rest", "b"], ["policy"],
                      ["policy", "--rest", "x", "y"],
                      ["keys", "/nowhere"], ["policy", "/nowhere"], ["drift", "x"], ["policy", "--view", "a", "--view", "b", "/nowhere"]):
            with self.subTest(words):
                self.assertEqual(takeover.main(words), 2)


if __name__ == "__main__":
    unittest.main()
