"""Names and data of the client, by worked examples of the standards and of docs/formats.md."""
# pylint: disable=line-too-long

import pathlib
import re
import sys
import unittest

TOP = pathlib.Path(__file__).parents[2]
sys.path.insert(0, str(TOP / "client"))

from office_client import data, names, tables  # noqa: E402 pylint: disable=wrong-import-position
from office_client.telling import Bad  # noqa: E402 pylint: disable=wrong-import-position

ZONE = "example.org."


def items(kind: str, text: str) -> str:
    """Data of a line, whose names are within the zone by the client's rule."""
    return data.read(kind, data.line_items(text), lambda word: names.read(word, ZONE).name)


class Names(unittest.TestCase):
    """How names are read."""

    def test_one_rule_for_dots(self) -> None:
        """A name with a dot in it is absolute, and a single label is within the zone."""
        for word, name in (("www", "www.example.org."), ("www.example.com", "www.example.com."), ("www.", "www."), ("@", ZONE),
                           ("WWW.Example.ORG.", "www.example.org."), ("a\\.b", "a\\.b.example.org."), (".", ".")):
            self.assertEqual(names.read(word, ZONE).name, name)

    def test_the_other_reading(self) -> None:
        """What a name could mean too."""
        self.assertEqual(names.read("mail.physics", ZONE).other, "mail.physics.example.org.")
        self.assertEqual(names.read("mail", ZONE).other, "mail.")
        self.assertIsNone(names.read("mail.example.org", ZONE).other)
        self.assertIsNone(names.read("mail.", ZONE).other)

    def test_letters_beyond_ascii(self) -> None:
        """A-labels as RFC 5891 makes them, where ß is a letter of its own."""
        for word, name in (("bücher", "xn--bcher-kva."), ("BÜCHER", "xn--bcher-kva."), ("straße", "xn--strae-oqa."), ("日本", "xn--wgv71a."),
                           ("bücher.example.org", "xn--bcher-kva.example.org.")):
            self.assertEqual(names.absolute(names.octets(word)), name)
        self.assertEqual(names.u_name("xn--bcher-kva.example.org."), "bücher.example.org.")
        self.assertIsNone(names.u_name("xn--zzzzzz.example.org."))

    def test_wrong_names(self) -> None:
        """Names that no name is."""
        for word in ("", "a..b", ".a", "a\\", "a\\256", "a\\1", "a" * 64, ".".join(["a" * 63] * 4), "a b", "☺", "-ü", "\u202eab"):
            with self.assertRaises(Bad, msg=word):
                names.absolute(names.octets(word))

    def test_within(self) -> None:
        """Labels count, and not texts."""
        self.assertTrue(names.is_within("a.example.org.", ZONE))
        self.assertTrue(names.is_within(ZONE, ZONE))
        self.assertFalse(names.is_within("badexample.org.", ZONE))
        self.assertFalse(names.is_within("x\\.example.org.", ZONE))
        self.assertTrue(names.is_within("x\\\\.example.org.", ZONE))
        self.assertEqual(names.above("a.b.c.example.org.", ZONE), ["b.c.example.org.", "c.example.org."])

    def test_canonical_order(self) -> None:
        """The names of RFC 4034 section 6.1."""
        ordered = ["example.", "a.example.", "yljkjljk.a.example.", "z.a.example.", "zabc.a.example.", "z.example.", "\\001.z.example.",
                   "*.z.example.", "\\200.z.example."]
        self.assertEqual(sorted(reversed(ordered), key=names.order), ordered)


class Data(unittest.TestCase):
    """How data are read and printed."""

    def test_good_data(self) -> None:
        """Each type, as the office prints it."""
        for kind, text, wanted in (
                ("A", "192.0.2.1", "192.0.2.1"), ("NS", "ns1", "ns1.example.org."), ("CNAME", "WWW.example.com", "www.example.com."),
                ("SOA", "ns1 h.example.org 007 1h 2m 1w2d 5", "ns1.example.org. h.example.org. 7 3600 120 777600 5"), ("PTR", "a.b.", "a.b."),
                ("MX", "010 mail", "10 mail.example.org."), ("TXT", 'a "b c" \\065\\;', '"a" "b c" "A;"'), ("TXT", '"\\"\\\\\\255"', '"\\"\\\\\\255"'),
                ("AAAA", "2001:DB8:0:0:1:0:0:1", "2001:db8::1:0:0:1"), ("AAAA", "::", "::"), ("AAAA", "::ffff:192.0.2.1", "::ffff:c000:201"),
                ("AAAA", "1:0:2:3:4:5:6:7", "1:0:2:3:4:5:6:7"), ("SRV", "0 1 5060 sip", "0 1 5060 sip.example.org."),
                ("DS", "60485 5 1 2BB1 83AF", "60485 5 1 2bb183af")):
            self.assertEqual(items(kind, text), wanted)

    def test_wrong_data(self) -> None:
        """The field that is wrong is named."""
        for kind, text, field in (
                ("A", "192.0.2.256", "A, address"), ("A", "192.0.2.01", "A, address"), ("A", "1.2.3.4 ; new", "A: ';'"), ("A", "", "A, address: it is"),
                ("A", '"192.0.2.1"', "A, address: it is in quotes"), ("MX", "mail.example.org", "MX, preference"), ("MX", "10", "MX, server"),
                ("SRV", "0 1 65536 a.", "SRV, port"), ("DS", "1 2 3 abc", "DS, digest"), ("DS", "1 256 3 ab", "DS, algorithm"),
                ("SOA", "a. b. 1 2 3 4", "SOA, minimum"), ("SOA", "a. b. 1h 2 3 4 5", "SOA, serial"), ("AAAA", "1::2::3", "AAAA, address"),
                ("AAAA", "fe80::1%eth0", "AAAA, address"), ("TXT", "a\\300", "TXT, string"), ("TXT", "x" * 256, "TXT, string"),
                ("NS", "\\# 4 c0000201", "NS: the generic form")):
            with self.assertRaises(Bad) as caught:
                items(kind, text)
            self.assertTrue(str(caught.exception).startswith(field), str(caught.exception))

    def test_ttls(self) -> None:
        """Seconds, with units and without."""
        self.assertEqual([data.ttl_of(word) for word in ("0", "5m", "1H30M", "2147483647")], [0, 300, 5400, 2147483647])
        for word in ("", "5x", "-1", "2147483648", "9" * 5000, "1h-", "٣"):
            with self.assertRaises(Bad):
                data.ttl_of(word)

    def test_words_of_a_shell(self) -> None:
        """Each word of a TXT is one string, but for those in quotes."""
        read = [data.read("TXT", data.word_items("TXT", words)) for words in (["a b"], ['say "x"', "\\"], ['"a" "b"'])]
        self.assertEqual(read, ['"a b"', '"say \\"x\\"" "\\\\"', '"a" "b"'])

    def test_serials(self) -> None:
        """RFC 1982 section 3.2, around the end."""
        self.assertTrue(data.serial_less(4294967295, 0))
        self.assertFalse(data.serial_less(0, 2147483648))
        self.assertFalse(data.serial_less(5, 5))


class Tables(unittest.TestCase):
    """Lists that other files have too."""

    def test_rules(self) -> None:
        """The rules of docs/formats.md, in its order."""
        text = (TOP / "docs/formats.md").read_text(encoding="utf-8")
        self.assertEqual(re.findall(r"^\| `([a-z-]+)` \| .* \| RFC", text, re.M), list(tables.RULES))

    def test_fields(self) -> None:
        """Each field of a type with several has a name."""
        for kind, (_, kinds) in tables.TYPES.items():
            self.assertTrue(all(data.field_name(kind, number) for number in range(len(kinds))))


if __name__ == "__main__":
    unittest.main()
