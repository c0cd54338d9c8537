"""What words of ACME clients mean to office-acme, and what it refuses; acceptance/try-acme has the clients themselves."""

import json
import os
import tempfile
import unittest
from typing import Any
from unittest import mock

from loading import load
from office_asking import Kept, NoReply, Reply
from office_settings import Wrong, read_settings

acme = load("office-acme")
VALUE = "gfj9Xq...Rg85nM".replace(".", "x")
NAME = "_acme-challenge.www.example.org."
NOERROR = Reply(200, "", {"code": 0, "name": "NOERROR"})
REFUSED = Reply(403, "", {"code": 5, "name": "REFUSED", "by": "closing", "list": "operations", "item": 0})
FAILED = Reply(500, "", {"code": 2, "name": "SERVFAIL"})


class Asked:  # pylint: disable=too-few-public-methods
    """An office that keeps what it is asked, and answers by a script."""

    def __init__(self, *answers: Reply | None) -> None:
        self.answers = list(answers)
        self.sent: list[tuple[str, str, str]] = []

    def update(self, zone: str, body: dict[str, Any], identifier: str) -> Reply:
        """Keeps the operation, and gives the next answer; None is a lost one."""
        self.sent.append((zone, body["operations"][0]["op"], identifier))
        answer = self.answers.pop(0) if self.answers else NOERROR
        if answer is None:
            raise NoReply("lost")
        return answer


class Words(unittest.TestCase):
    """The names and values that the words of clients speak of."""

    def test_lego(self) -> None:
        """The mode without and with RAW; the digest is the one of RFC 8555's definition."""
        self.assertEqual(acme.records_of("present", [NAME, VALUE]), [(NAME, VALUE)])
        raw = acme.records_of("present", ["--", "www.example.org", "token", "token.thumb"])
        self.assertEqual(raw, [(NAME, "lCdftpJCXapaZHkBGIZbcubeKW8RmA0jSG_aZN01zbU")])  # by openssl and basenc

    def test_dehydrated(self) -> None:
        """Several domains in one call; a wildcard has the name of its parent."""
        words = ["www.example.org", "file", VALUE, "*.www.example.org", "file", VALUE]
        self.assertEqual(acme.records_of("deploy_challenge", words), [(NAME, VALUE), (NAME, VALUE)])
        for odd in [], words[:2], words[:5]:
            self.assertRaises(Wrong, acme.records_of, "deploy_challenge", odd)

    def test_certbot(self) -> None:
        """Its variables, and that they are missing."""
        with mock.patch.dict(os.environ, {"CERTBOT_DOMAIN": "WWW.example.org", "CERTBOT_VALIDATION": VALUE}):
            self.assertEqual(acme.records_of("present", []), [(NAME, VALUE)])
        self.assertRaises(Wrong, acme.records_of, "present", [])

    def test_odd(self) -> None:
        """What could be more than one record, or another one."""
        for value in 'a" "b', "a\nb", "", "a" * 256, "a;b", "a b", "ä":
            self.assertRaises(Wrong, acme.records_of, "present", [NAME, value])
        for name in "a b.", "a..b.", ".", "\\000.", "a" * 64 + ".", ("a" * 60 + ".") * 5, "-a.", "a\n.":
            self.assertRaises(Wrong, acme.records_of, "present", [name, VALUE])

    def test_servers(self) -> None:
        """Addresses with and without a port."""
        self.assertEqual((str(acme.server_of("::1")), str(acme.server_of("192.0.2.1#54"))), ("::1#53", "192.0.2.1#54"))
        for odd in "", "ns1.example.org", "192.0.2.1#x", "#53":
            self.assertRaises(Wrong, acme.server_of, odd)


class Steps(unittest.TestCase):
    """What is sent and kept, by the replies that come."""

    def setUp(self) -> None:
        self.folder = tempfile.TemporaryDirectory()  # pylint: disable=consider-using-with
        self.addCleanup(self.folder.cleanup)

    def challenges(self, office: Asked) -> Any:
        """The records of the folder at this office."""
        return acme.Challenges(office, Kept(self.folder.name + "/state"), "example.org.", 60)

    def steps(self) -> list[str]:
        """The steps of all that is kept."""
        return [one.step for one in self.challenges(Asked()).entries()]

    def test_lost_addition(self) -> None:
        """An addition without a reply is sent again under its identifier, also before the removal."""
        office = Asked(None, FAILED)
        challenges = self.challenges(office)
        for _ in range(2):
            self.assertRaises(NoReply, challenges.present, NAME, VALUE)
            self.assertEqual(self.steps(), ["adding"])
        challenges.remove(NAME, VALUE)
        self.assertEqual([op for _, op, _ in office.sent], ["add", "add", "add", "delete-record"])
        self.assertEqual(len({identifier for _, op, identifier in office.sent if op == "add"}), 1)
        self.assertEqual(self.steps(), [])

    def test_lost_removal(self) -> None:
        """A removal without a reply is settled before the same record is added again."""
        office = Asked(NOERROR, None)
        challenges = self.challenges(office)
        challenges.present(NAME, VALUE)
        self.assertRaises(NoReply, challenges.remove, NAME, VALUE)
        self.assertEqual(self.steps(), ["removing"])
        challenges.present(NAME, VALUE)
        self.assertEqual([op for _, op, _ in office.sent], ["add", "delete-record", "delete-record", "add"])
        self.assertEqual((office.sent[1], self.steps()), (office.sent[2], ["added"]))

    def test_refusals(self) -> None:
        """A refused addition is forgotten; a refused removal is kept, and tried under another identifier."""
        office = Asked(REFUSED, NOERROR, REFUSED)
        challenges = self.challenges(office)
        self.assertRaises(acme.Refused, challenges.present, NAME, VALUE)
        self.assertEqual(self.steps(), [])
        challenges.present(NAME, VALUE)
        self.assertRaises(acme.Refused, challenges.remove, NAME, VALUE)
        self.assertEqual(self.steps(), ["added"])
        challenges.remove(NAME, VALUE)
        self.assertEqual((self.steps(), len({identifier for _, _, identifier in office.sent})), ([], 4))

    def test_sweep(self) -> None:
        """Only what is old goes, or what was being removed; what cannot be removed is counted."""
        office = Asked(NOERROR, NOERROR, REFUSED)
        challenges = self.challenges(office)
        challenges.present(NAME, VALUE)
        self.assertEqual((challenges.sweep(100), self.steps()), (0, ["added"]))
        with mock.patch("time.time", return_value=2e9 + 1e9):
            challenges.present(NAME, VALUE + "2")
            with mock.patch("sys.stderr"), mock.patch("sys.stdout"):
                self.assertEqual((challenges.sweep(100), self.steps()), (1, ["added", "added"]))
        with mock.patch("sys.stdout"):
            self.assertEqual((challenges.sweep(0), self.steps()), (0, []))

    def test_broken_state(self) -> None:
        """A file that is none of an entry stays, and stops nothing."""
        challenges = self.challenges(Asked())
        for number, octets in enumerate((b"", b"{}", b"[1]", json.dumps({"zone": "a."}).encode(), b"\xff")):
            challenges.kept.write(f"odd{number}", octets)
        self.assertEqual((challenges.entries(), challenges.sweep(0)), ([], 0))


class Waiting(unittest.TestCase):
    """For which answers a hook waits."""
    entry = acme.Entry("example.org.", NAME, VALUE, 0.0, "added", "x")

    def wait(self, *turns: dict[str, bool | None]) -> int:
        """Waits for servers, which answer in turns by their addresses; two addresses of one name begin alike. How many turns it took."""
        asked: list[str] = []

        def answers(server: Any, _: Any) -> bool | None:
            asked.append(server.address)
            return turns[min(asked.count(server.address), len(turns)) - 1][server.address]

        servers = [acme.Server(address, 53, address[0]) for address in turns[0]]
        with mock.patch.object(acme, "servers_of", lambda _: servers), mock.patch.object(acme, "answers", answers), \
                mock.patch("time.sleep"):
            acme.wait([self.entry], [], 1)
        return max((asked.count(address) for address in turns[0]), default=0)

    def test_all(self) -> None:
        """All have to answer, some of them later; an address without a route counts only where its name has no other."""
        self.assertEqual(self.wait({"a1": True, "b1": True}), 1)
        self.assertEqual(self.wait({"a1": True, "b1": False}, {"a1": True, "b1": True}), 2)
        self.assertEqual(self.wait({"a1": True, "a2": None, "b1": True}), 1)
        self.assertEqual(self.wait({"a1": False, "a2": None}, {"a1": True, "a2": None}), 2)
        self.assertRaises(acme.Refused, self.wait, {})
        with mock.patch("time.monotonic", side_effect=range(1000)):
            self.assertRaises(acme.Refused, self.wait, {"a1": True, "b1": None})
            self.assertRaises(acme.Refused, self.wait, {"a1": True, "b1": False})


class OfSettings(unittest.TestCase):
    """Files of settings."""

    def test_files(self) -> None:
        """A file that others may read, that is not TOML, and keys that are not there."""
        with tempfile.TemporaryDirectory() as folder:
            path = folder + "/a.toml"
            good = 'url = "unix:/a"\n'
            for mode, text, works in (0o600, good, True), (0o640, good, True), (0o644, good, False), (0o660, good, False), \
                    (0o600, "url", False), (0o600, good + "odd = 1", False), (0o600, "url = 1", False), \
                    (0o600, 'url = "http://192.0.2.1"', False), (0o600, good + "tries = 0", False):
                with open(path, "w", encoding="utf-8") as file:
                    file.write(text)
                os.chmod(path, mode)
                with self.subTest(text=text, mode=mode):
                    if works:
                        read_settings(path).office()
                    else:
                        self.assertRaises(Wrong, self.read, path)
            self.assertRaises(Wrong, read_settings, folder)
            self.assertRaises(Wrong, read_settings, folder + "/none")

    @staticmethod
    def read(path: str) -> None:
        """Reads all that the office needs, and no more."""
        settings = read_settings(path)
        settings.office()
        settings.end()


if __name__ == "__main__":
    unittest.main()
