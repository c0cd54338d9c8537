"""A run of the client: options, scripts, what is kept on disk, and what is said of names that could mean two."""
# pylint: disable=line-too-long

import json
import os
import pathlib
import sys
import unittest
from unittest import mock

sys.path.insert(0, str(pathlib.Path(__file__).parents[1]))

from office_client import completing, helping, options, script  # noqa: E402 pylint: disable=wrong-import-position
from office_client.main import command_of  # noqa: E402 pylint: disable=wrong-import-position
from office_client.pending import read_kept  # noqa: E402 pylint: disable=wrong-import-position
from office_client.sending import Send, prepare, sends  # noqa: E402 pylint: disable=wrong-import-position
from office_client.session import Session  # noqa: E402 pylint: disable=wrong-import-position
from office_client.telling import Bad, clean, harmless  # noqa: E402 pylint: disable=wrong-import-position


def session(*words: str) -> Session:
    """A session in the zone example.org."""
    return Session(options.read(["--zone", "example.org", *words])[0], "nsupdate")


class Options(unittest.TestCase):
    """Words of the command line."""

    def test_values(self) -> None:
        """Options anywhere among the words."""
        given, words = options.read(["add", "--tries=2", "a", "--json", "--", "-x"])
        self.assertEqual((given.tries, given.json, given.strict, words), (2, True, False, ["add", "a", "-x"]))

    def test_wrong_values(self) -> None:
        """Numbers and identifiers."""
        for words in (["--tries", "0"], ["--tries", "x"], ["--seconds", "1000000"], ["--id", "bad id"], ["--caller", "x" * 65], ["--sing"]):
            with self.assertRaises(Bad):
                options.read(words)

    def test_commands(self) -> None:
        """As many words as a command takes; a plan is a command that sends nothing."""
        given = options.Options()
        self.assertEqual(command_of(["plan", "delete", "a"], given), ("delete", ["a"]))
        self.assertTrue(given.dry_run)
        wrong: list[list[str]] = [[], ["sing"], ["add", "a", "5m", "A"], ["plan"], ["plan", "list"], ["undo"], ["file", "1", "2"], ["blame", "a", "b"], ["diff", "a", "b", "c"]]
        for words in wrong:
            with self.assertRaises(Bad):
                command_of(words, options.Options())

    def test_help(self) -> None:
        """Each command and option is in it, and no line is too long for a terminal of 140 columns."""
        text = helping.text()
        self.assertEqual([name for name in helping.COMMANDS if f"    office {name}" not in text], [])
        self.assertEqual([name for name, _, _ in options.LISTED if f"    --{name}" not in text], [])
        self.assertLess(max(map(len, text.split("\n"))), 141)


class Scripts(unittest.TestCase):
    """Scripts of nsupdate."""

    def test_updates(self) -> None:
        """Names are absolute, and the lines are kept."""
        lines = ["zone example.org\n", "ttl 60\n", "prereq yxrrset a.example.org A 192.0.2.1\n", "update add b.example.org. IN MX 10 mail\n",
                 "del b.example.org TXT\n", "\n", "; nothing\n", "add c.example.org 5 A 192.0.2.1\n"]
        found = sends(script.read_script(session(), lines))
        self.assertEqual([one.lines() for one in found],
                         [["rrset-equals a.example.org. A 192.0.2.1", "add b.example.org. 60 MX 10 mail.", "delete-rrset b.example.org. TXT"]])
        self.assertEqual(found[0].sources["operations"][0], "line 4: update add b.example.org. IN MX 10 mail")

    def test_mistakes(self) -> None:
        """A mistake in any line: nothing is done, and the line and the field are named."""
        for line, said in (("add a.example.org 5 MX mail", "line 2: MX, preference"), ("key a b", "line 2: key is refused"), ("sing", "line 2: sing is not"),
                           ("add a.example.org A 192.0.2.1", "line 2: the TTL"), ("nxrrset a", "line 2: nxrrset wants"), ("class CH", "line 2: class CH")):
            with self.assertRaises(Bad) as caught:
                script.read_script(session(), ["add x.example.org 5 A 192.0.2.1\n", line, "send\n"])
            self.assertTrue(str(caught.exception).startswith(said) and str(caught.exception).endswith("; nothing was sent"), str(caught.exception))

    def test_names_outside_the_zone(self) -> None:
        """They are refused before anything is sent, with the line; so are two SOA."""
        soa = "add example.org 5 SOA a. b. 1 2 3 4 5\n"
        for lines, said in (["prereq nxdomain a.example.net\n", "add a.example.org 5 A 192.0.2.1\n"], "line 2: prereq nxdomain a.example.net: a.example.net. is not within"), \
                (["add a.example.org 5 A 192.0.2.1\n", "del b.sub\n"], "line 3: del b.sub: b.sub. is not within"), ([soa, soa], "two operations add an SOA"):
            actions = script.read_script(session(), ["add x.example.org 5 A 192.0.2.1\n", *lines, "send\n"])
            with self.assertRaises(Bad) as caught:
                prepare(session(), actions)
            self.assertTrue(str(caught.exception).startswith(said) and str(caught.exception).endswith("; nothing was sent"), str(caught.exception))

    def test_a_name_that_could_mean_two(self) -> None:
        """It is noted where the zone has the other one, and refused with --strict."""
        for words, has, doubtful in ((["a.example.org", "5", "CNAME", "www.physics"], "www.physics.example.org.", True),
                                     (["a.example.org", "5", "CNAME", "www.physics"], "other.example.org.", False),
                                     (["a.example.org", "5", "CNAME", "www.physics."], "www.physics.example.org.", False)):
            one = session("--strict")
            self.assertIsInstance(script.read_script(one, ["add " + " ".join(words) + "\n", "send\n"])[0], Send)
            if doubtful:
                with self.assertRaises(Bad):
                    one.settle("example.org.", {has}.__contains__)
            else:
                one.settle("example.org.", {has}.__contains__)


class Kept(unittest.TestCase):
    """What waits for a reply."""

    def test_progress(self) -> None:
        """The number of updates that have a reply, also where the last line is cut."""
        text = json.dumps({"id": "i", "url": "u", "who": "w", "requests": [["/p", {"operations": []}]] * 30}) + "\n"
        for lines, done in (("", 0), ("1\n2\n", 2), ("9\n1", 9), ("x\n\n-1\n", 0), ("99\n", 30)):
            kept = read_kept(text + lines)
            self.assertEqual(kept.done if kept else None, done)

    def test_half_a_file(self) -> None:
        """Of half a file nothing was sent."""
        for text in ("", '{"id":"i', "[" * 100000, '{"id":5,"url":"","who":"","requests":[]}', '{"id":"i","url":"","who":"","requests":[[1]]}', "\ufffd"):
            self.assertIsNone(read_kept(text))


class Texts(unittest.TestCase):
    """What a terminal may show."""

    def test_control_characters(self) -> None:
        """They are escaped, whoever wrote them; letters of the user's are not."""
        self.assertEqual(clean("a\x1b[2J\x9b\u202eü"), "a\\u001b[2J\\u009b\\u202e\\u00fc")
        self.assertEqual(harmless("bücher\x1b\u202e"), "bücher\\u001b\\u202e")

    def test_completion(self) -> None:
        """Commands, options, types and actions, without a server."""
        with mock.patch.dict(os.environ, {}, clear=True):
            for words, wanted in (([""], "import"), (["plan", ""], "undo"), (["add", "a", "5m", ""], "AAAA"), (["rights", "a", "A", ""], "delegate"),
                                  (["add", "--"], "--zone"), (["--ca", ""], ":files"), (["import", ""], ":files"), (["help", "n"], "nsupdate")):
                self.assertIn(wanted, completing.candidates(words))


if __name__ == "__main__":
    unittest.main()
