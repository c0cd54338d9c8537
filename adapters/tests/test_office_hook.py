"""How office-hook reads, hands over and waits; acceptance/try-hook has the office, commands and URLs."""

import contextlib
import os
import pathlib
import socket
import subprocess
import tempfile
import threading
import time
import unittest
from typing import Any
from unittest import mock

from loading import load
from office_asking import Change, Kept, NoReply
from office_settings import Wrong

hook = load("office-hook")
ZONE = "example.org."


class Asked:  # pylint: disable=too-few-public-methods
    """An office with so many changes, which answers or does not."""

    def __init__(self, number: int) -> None:
        self.number, self.is_away = number, False
        self.asked: list[int] = []

    def changes(self, _: str, first: int) -> list[Change]:
        """The changes from a number on."""
        self.asked.append(first)
        if self.is_away:
            raise NoReply("away")
        return [Change(number, [], [str(number)]) for number in range(first, self.number + 1)]


class Taking:  # pylint: disable=too-few-public-methods
    """What takes changes, but those of a set."""

    def __init__(self) -> None:
        self.taken: list[int] = []
        self.refused: set[int] = set()

    def take(self, _: str, number: int, __: bytes) -> str | None:
        """Takes one, or says why not."""
        if number in self.refused:
            return "not now"
        self.taken.append(number)
        return None


class Following(unittest.TestCase):
    """Order, bounds and state."""

    def setUp(self) -> None:
        folder = tempfile.TemporaryDirectory()  # pylint: disable=consider-using-with
        self.addCleanup(folder.cleanup)
        self.said: list[str] = []
        patch = mock.patch.object(hook, "say", self.said.append)
        patch.start()
        self.addCleanup(patch.stop)
        self.office, self.taker, self.kept = Asked(10), Taking(), Kept(folder.name + "/state")

    def follower(self, most: int = 100) -> Any:
        """A follower as after a start."""
        found = hook.Follower(self.office, self.kept, self.taker, most, 5)
        found.begin(ZONE, 1)
        return found

    def test_order(self) -> None:
        """All come in order, and after a restart only later ones."""
        self.assertEqual((self.follower().once(), self.taker.taken), (0, list(range(1, 11))))
        self.office.number = 12
        self.assertEqual((self.follower().once(), self.taker.taken), (0, list(range(1, 13))))

    def test_bound(self) -> None:
        """No more wait than may; it reads again when half of them are taken, and loses none."""
        follower = self.follower(4)
        feed = follower.feeds[0]
        self.taker.refused = {1}
        for _ in range(3):
            follower.look(feed)
            follower.hand_over(feed)
        self.assertEqual((len(feed.waiting), feed.is_full, self.office.asked), (4, True, [1]))
        self.assertEqual(len([one for one in self.said if "4 changes wait" in one]), 1)
        self.taker.refused = set()
        follower.hand_over(feed)
        follower.look(feed)
        self.assertEqual((self.office.asked, len(feed.waiting)), ([1], 3))
        follower.hand_over(feed)
        self.assertEqual((feed.look_at, feed.is_full), (0.0, False))
        self.assertEqual((follower.once(), self.taker.taken), (0, list(range(1, 11))))

    def test_pauses(self) -> None:
        """Pauses double up to the longest; what is told is told once; later changes wait."""
        follower = self.follower()
        feed = follower.feeds[0]
        self.taker.refused = {3}
        follower.look(feed)
        pauses = []
        for _ in range(14):
            follower.hand_over(feed)
            pauses.append(feed.pause)
        self.assertEqual(pauses, [0, 0, 1, 2, 4, 8, 16, 32, 64, 128, 256, 300, 300, 300])
        self.assertEqual((self.taker.taken, self.said), ([1, 2], [f"{ZONE}: change 3 is not taken: not now"]))
        self.assertGreater(feed.take_at, time.monotonic() + 200)

    def test_away(self) -> None:
        """An office that is away is told once, and that it is back."""
        self.office.is_away = True
        follower = self.follower()
        for _ in range(3):
            self.assertFalse(follower.look(follower.feeds[0]))
        self.assertEqual(follower.once(), 2)
        self.office.is_away = False
        follower.look(follower.feeds[0])
        self.assertEqual([one.split(": ")[1][:11] for one in self.said], ["the changes", "reading goe"])

    def test_refused_once(self) -> None:
        """A run that is to end has status 1 where a change is not taken."""
        self.taker.refused = {4}
        self.assertEqual((self.follower().once(), self.taker.taken), (1, [1, 2, 3]))


class Taker(unittest.TestCase):
    """Commands and URLs."""

    def test_command(self) -> None:
        """Its input, its variables, its failures, and that what it started ends with it."""
        with tempfile.TemporaryDirectory() as folder:
            script = f"cat > {folder}/in; echo $HOOK_ZONE $HOOK_NUMBER ${{SECRET-none}} > {folder}/env; sleep 987 & echo $! > {folder}/pid"
            with mock.patch.dict(os.environ, {"SECRET": "x"}):
                self.assertIsNone(hook.Command(["sh", "-c", script], 5).take(ZONE, 7, b"{}"))
            found = [pathlib.Path(folder, one).read_text(encoding="utf-8") for one in ("in", "env")]
            self.assertEqual(found, ["{}", f"{ZONE} 7 none\n"])
            started = pathlib.Path(folder, "pid").read_text(encoding="utf-8").strip()
            said = subprocess.run(["ps", "-o", "stat=", started], stdout=subprocess.PIPE, text=True, check=False).stdout
            self.assertIn(said.strip()[:1], ("", "Z"))
        self.assertEqual(hook.Command(["sh", "-c", "printf '\\033a'; exit 3"], 5).take(ZONE, 1, b""), "status 3: \\x1ba")
        self.assertEqual(hook.Command(["/nonexistent"], 5).take(ZONE, 1, b""), "/nonexistent: No such file or directory")
        self.assertEqual(hook.Command(["sleep", "9"], 1).take(ZONE, 1, b""), "it took more than 1 seconds")

    def test_post(self) -> None:
        """Each status, and answers that are cut off or come too slowly; no redirect is followed."""
        with socket.create_server(("127.0.0.1", 0)) as server:
            def serve(*pieces: bytes) -> None:
                connection, _ = server.accept()
                with connection, contextlib.suppress(OSError):
                    while (got := connection.recv(65536)) and not got.endswith(b"{}"):
                        pass  # a socket that is closed before all of it is read takes back what was sent
                    for piece in pieces:
                        connection.sendall(piece)
                        time.sleep(0.3 if len(pieces) > 1 else 0)

            post = hook.taker_of(hook.Settings({"post": f"http://127.0.0.1:{server.getsockname()[1]}/", "limit": 1}, "a"), "a")
            for pieces, why in ((b"HTTP/1.1 204 No\r\n\r\n",), None), ((b"HTTP/1.1 200 OK\r\nContent-Length: 9\r\n\r\n",), None), \
                    ((b"HTTP/1.1 302 No\r\nLocation: /x\r\n\r\n",), "status 302"), ((b"HTTP/1.1 500 No\r\n\r\n",), "status 500"), \
                    ((b"",), "Remote end closed connection without response"), ((b"odd\r\n",), "odd\\r\\n"), \
                    ((b"HTTP/1.1 200 OK\r\n",) + (b"a: b\r\n",) * 9, "it took more than 1 seconds"):
                with self.subTest(pieces=pieces):
                    thread = threading.Thread(target=serve, args=pieces)
                    thread.start()
                    self.assertEqual(post.take(ZONE, 1, b"{}"), why)
                    thread.join()
        self.assertIn("refused", post.take(ZONE, 1, b"{}") or "")

    def test_settings(self) -> None:
        """Either a command or a URL without a user."""
        settings = hook.Settings
        for odd in {}, {"command": ["a"], "post": "http://a/"}, {"post": "ftp://a/"}, {"post": "http://u:p@a/"}, {"post": "http://a:x/"}, \
                {"post": "http:///a"}, {"post": "http://a/", "fields": ["odd"]}:
            with self.subTest(odd):
                self.assertRaises(Wrong, hook.taker_of, settings(odd, "a"), "a")
        self.assertEqual(hook.taker_of(settings({"post": "http://a/", "fields": ["A: b: c"]}, "a"), "a").fields, {"A": "b: c"})


if __name__ == "__main__":
    unittest.main()
