"""How office-git follows an office, reads the trail and takes proposals; acceptance/try-git has the office, its front server and pushes."""

import contextlib
import gzip
import io
import json
import os
import pathlib
import random
import shutil
import subprocess
import tempfile
import time
import unittest
from collections.abc import Callable
from typing import Any
from unittest import mock

from loading import load
from office_asking import Change, Kept, NoReply, Reply, TooLong, Unsafe
from office_git import following, running, trail
from office_git.following import Feed, Follower
from office_git.merging import REF, Merger, Refused
from office_git.repository import Author, Commit, Repository, Unfit
from office_git.running import Exceeded, Failed
from office_git.trail import Trail, item_of, request_of
from office_git.zone import Diverged, Zone, file_of
from office_settings import Wrong

program = load("office-git")
ZONE = "example.org."
FILE = "example.org.zone"
OFFICE = "office.example.org"
# what stands for the program: the difference of two texts, unguarded, and the body of items of addresses
PROGRAM = """#!/usr/bin/python3
import json, sys
if sys.argv[1] == "diff":
    old, new = (open(path).read().splitlines() for path in sys.argv[-2:])
    if "odd" in new:
        sys.stderr.write("the new zone: line 3: odd")
        print("refused 29.11 line 3")
        sys.exit(1)
    for word, lines, others in ("delete-record", old, new), ("add", new, old):
        for line in lines:
            if line not in others:
                name, ttl, _, kind, data = line.split(" ", 4)
                print(f"{word} {name} {ttl + ' ' if word == 'add' else ''}{kind} {data}")
else:
    lines = [line.split(" ") for line in sys.stdin.read().splitlines()]
    items = [{"op": one[0], "name": one[1], "data": one[-1]} for one in lines]
    print(json.dumps({"id": sys.argv[3], "operations": items, "prerequisites": []}))
"""


def soa(serial: int) -> str:
    """The SOA record with a serial."""
    return f"{ZONE} 3600 IN SOA ns1.{ZONE} h.{ZONE} {serial} 3600 600 86400 60"


def address(name: str, data: str = "192.0.2.1", ttl: int = 300) -> str:
    """The line of an A record."""
    return f"{name}.{ZONE} {ttl} IN A {data}"


class Asked:  # pylint: disable=too-many-instance-attributes
    """An office with one zone in memory."""

    def __init__(self) -> None:
        self.zone = Zone(f"$ORIGIN {ZONE}\n{soa(1)}\n{ZONE} 3600 IN NS ns1.{ZONE}\n")
        self.texts, self.list = [self.zone.text()], list[Change]()
        self.asked: list[int] = []
        self.trouble: Exception | None = None
        self.before_file: Callable[[], None] = lambda: None
        self.name = "phys"
        self.sent: list[tuple[str, Any, str]] = []
        self.reply: Reply | None = Reply(200, "", {"code": 0, "name": "NOERROR"})

    def make(self, *added: str, removed: tuple[str, ...] = ()) -> None:
        """Makes a change."""
        number = len(self.list) + 1
        change = Change(number, [soa(number), *removed], [soa(number + 1), *added])
        self.zone.apply(change)
        self.list.append(change)
        self.texts.append(self.zone.text())

    def changes(self, _: str, first: int) -> list[Change]:
        """The changes from a number on."""
        self.asked.append(first)
        if self.trouble:
            raise self.trouble
        return self.list[max(first, 1) - 1:]

    def get(self, _: str, __: str) -> Reply:
        """The file."""
        self.before_file()
        return Reply(200, self.zone.text(), None)

    def update(self, zone: str, body: Any, identifier: str) -> Reply:
        """Notes an update."""
        self.sent.append((zone, body, identifier))
        if self.reply is None:
            raise NoReply("away")
        return self.reply


class Case(unittest.TestCase):
    """A folder, an office, and the repository."""

    def setUp(self) -> None:
        folder = tempfile.TemporaryDirectory()  # pylint: disable=consider-using-with
        self.addCleanup(folder.cleanup)
        self.folder, self.office, self.said = folder.name, Asked(), list[str]()
        self.kept = Kept(self.folder + "/state")
        self.repository = Repository(self.folder + "/zones.git", "main", OFFICE, self.kept.folder)

    def follower(self, first: int = 1, path: str | None = None, zones: tuple[str, ...] = (ZONE,)) -> Follower:
        """A follower as after a start."""
        feeds = [Feed(zone) for zone in zones]
        found = Follower(self.office, self.repository, self.kept, feeds, first, 5, self.said.append)  # type: ignore[arg-type]
        found.begin(path)
        if found.trail:
            self.addCleanup(found.trail.close)
        return found

    def git(self, *words: str) -> str:
        """What git prints."""
        return self.repository.git(*words, most=1 << 24).decode()

    def commits(self) -> list[tuple[int, str]]:
        """The numbers of the commits and their trees, the oldest first."""
        found = list(self.repository.commits())[::-1]
        names = "".join(f"{one.name}:{FILE}\n" for one in found).encode()
        out, texts = self.repository.git("cat-file", "--batch", given=names, most=1 << 24), []
        while out:
            head, _, out = out.partition(b"\n")
            size = int(head.split(b" ")[2])
            texts.append(out[:size].decode())
            out = out[size + 1:]
        return [(one.number, text) for one, text in zip(found, texts)]

    def check_commits(self, first: int = 0) -> None:
        """The branch has each change once, with the zone after it."""
        self.assertEqual(self.commits(), list(enumerate(self.office.texts))[first:])


class Zones(unittest.TestCase):
    """The text of a zone."""

    def test_order(self) -> None:
        """By owner from the right, SOA first, types by number, data by octets; escapes and upper case are octets of labels."""
        lines = [soa(1), f"{ZONE} 3600 IN NS ns1.{ZONE}", f"{ZONE} 3600 IN MX 10 a.{ZONE}", address("a"), address("a", "192.0.2.10"),
                 address("a", "192.0.2.9"), f"a.{ZONE} 1 IN AAAA ::1", f"a.{ZONE} 1 IN DS 1 8 2 00", address("a.a"), address("a\\.a"),
                 address("aa"), address("b.aa"), address("b")]
        zone, rng = Zone(f"$ORIGIN {ZONE}\n"), random.Random(1)
        for one in rng.sample(lines, len(lines)):
            zone.apply(Change(1, [], [one]))
        self.assertEqual(zone.lines, lines)
        self.assertEqual((zone.soa, zone.text()), (soa(1), "\n".join([f"$ORIGIN {ZONE}", *lines]) + "\n"))

    def test_undo(self) -> None:
        """To undo changes leads back, for random ones with new TTLs."""
        rng, office = random.Random(2), Asked()
        for _ in range(200):
            name, ttl = f"h{rng.randrange(9)}", rng.randrange(3)
            old = tuple(one for one in office.zone.lines if one.startswith(name + "."))
            office.make(*([address(name, ttl=ttl)] if rng.randrange(3) else []), removed=old)
        for text, change in zip(office.texts[-2::-1], office.list[::-1]):
            office.zone.undo(change)
            self.assertEqual(office.zone.text(), text)

    def test_diverged(self) -> None:
        """A record that is not there, is there with another TTL, or is there already."""
        pairs: list[tuple[list[str], list[str]]] = [
            ([address("a")], []), ([address("b", ttl=1)], []), ([], [address("b", ttl=2)]), ([], ["odd..name. 1 IN A x"])]
        for removed, added in pairs:
            with self.subTest(removed=removed, added=added):
                self.assertRaises(Diverged, Zone(f"$ORIGIN {ZONE}\n{address('b')}\n").apply, Change(1, removed, added))

    def test_file(self) -> None:
        """Each zone has a file of its own, in one folder."""
        self.assertEqual([file_of(one) for one in (ZONE, "0/25.2.0.192.in-addr.arpa.", "a\\.b.", "%2f.", "..\\047x.")],
                         [FILE, "0%2F25.2.0.192.in-addr.arpa.zone", "a%5C.b.zone", "%252f.zone", "..%5C047x.zone"])


class Following(Case):
    """The commits of changes."""

    def test_all(self) -> None:
        """All changes in order, in more batches than one; a restart goes on, and asks for nothing older."""
        for number in range(3):
            self.office.make(address(f"h{number}"))
        self.assertEqual(self.follower().once(), 0)
        with mock.patch.object(following, "BATCH", 4):
            for number in range(3, 14):
                self.office.make(address(f"h{number}"))
            self.office.asked.clear()
            self.assertEqual(self.follower().once(), 0)
        self.assertEqual(self.office.asked, [3])
        self.check_commits()
        self.assertEqual(self.git("log", "-1", "--format=%an|%ae|%s"), f"{OFFICE}|office-git@{OFFICE}|{ZONE}: h13.{ZONE}\n")

    def test_seen(self) -> None:
        """Without its state, or with that of another branch, it finds where it was."""
        self.office.make(address("a"))
        self.follower().once()
        other = b'{"head": "00", "since": 1, "zones": {"example.org.": [9, "", ""]}}'
        for octets in None, other, b'{"head": "00", "since": 1, "zones": {}}':
            self.kept.remove("seen")
            if octets:
                self.kept.write("seen", octets)
            self.office.make(address(f"h{len(self.office.list)}"))
            self.assertEqual(self.follower().once(), 0)
            self.check_commits()

    def test_state_is_old(self) -> None:
        """The state of before a kill is older than the branch."""
        self.follower().once()
        old = self.kept.read("seen") or b""
        self.office.make(address("a"))
        self.follower().once()
        self.kept.write("seen", old)
        self.office.make(address("b"))
        self.assertEqual(self.follower().once(), 0)
        self.check_commits()

    def test_killed(self) -> None:
        """A stream that is cut off anywhere adds whole commits or none, and the next run goes on."""
        streams: list[bytes] = []
        real = running.feed
        with mock.patch.object(running, "feed", lambda words, variables, pieces, kept: streams.append(b"".join(pieces))):
            for number in range(4):
                self.office.make(address(f"h{number}"))
            self.follower().once()
        stream, rng = b"".join(streams[:1]), random.Random(3)
        self.assertGreater(len(stream), 300)
        for cut in sorted(rng.sample(range(len(stream)), 12)):
            with contextlib.suppress(Failed):
                real(["git", "fast-import", "--quiet", "--done", "--date-format=raw"], self.repository.variables, [stream[:cut]])
            self.assertIn(len(self.commits()), (0, 1))
        self.kept.remove("seen")
        self.assertEqual(self.follower().once(), 0)
        self.check_commits()

    def test_first(self) -> None:
        """With `first` it begins with the zone as it was before; a later `first` leaves changes out."""
        for number in range(9):
            self.office.make(address(f"h{number}"), removed=(address(f"h{number - 1}"),) if number else ())
        self.follower(5).once()
        self.check_commits(4)
        for number in range(9, 20):
            self.office.make(address(f"h{number}"))
        self.follower(18).once()
        self.assertEqual(self.commits(), [pair for pair in enumerate(self.office.texts) if 4 <= pair[0] <= 9 or pair[0] >= 17])
        self.assertEqual(self.follower(22).once(), 1)
        self.assertEqual(self.said, [f"{ZONE}: there is no change 21"])

    def test_meanwhile(self) -> None:
        """A change comes before or after the file is read."""
        self.office.make(address("a"))
        self.office.before_file = lambda: self.office.make(address("b"))
        self.assertEqual(self.follower().once(), 0)
        self.check_commits()

    def test_other_history(self) -> None:
        """An office whose changes are others, fewer, or do not fit."""
        for number in range(3):
            self.office.make(address(f"h{number}"))
        self.follower().once()
        head, good = self.git("rev-parse", "main"), self.office.list
        lists: list[list[Change]] = [good[:2], [], [*good[:2], Change(3, [], [soa(9)])], [*good, Change(5, [], [])],
                                     [*good, Change(4, [address("x")], [])]]
        for changes in lists:
            with self.subTest(len(changes)):
                self.said.clear()
                self.office.list = changes
                self.assertEqual((self.follower().once(), len(self.said), self.git("rev-parse", "main")), (1, 1, head))

    def test_part(self) -> None:
        """Changes before one that does not fit are added."""
        self.follower().once()
        self.office.make(address("a"))
        self.office.list.append(Change(2, [address("x")], []))
        follower = self.follower()
        self.assertEqual((follower.once(), len(self.commits())), (1, 2))
        self.office.list.pop()
        self.office.make(address("b"))
        self.assertEqual(follower.once(), 0)
        self.check_commits()
        self.assertEqual(self.said, [f"{ZONE}: change 2 does not fit the branch: {address('x')} is not in the zone", f"{ZONE}: goes on"])

    def test_trouble(self) -> None:
        """What hinders is told once."""
        follower = self.follower()
        for trouble in NoReply("away"), NoReply("away"), TooLong("long"), None:
            self.office.trouble = trouble
            follower.once()
        self.assertEqual(self.said, [f"{ZONE}: away", f"{ZONE}: long", f"{ZONE}: goes on"])

    def test_unseen_soa(self) -> None:
        """A caller who does not see the zone whole."""
        self.office.zone = Zone(f"$ORIGIN {ZONE}\n{address('a')}\n")
        self.assertEqual((self.follower().once(), self.said), (1, [f"{ZONE}: the caller does not see the SOA record"]))

    def test_foreign_commits(self) -> None:
        """A branch with commits of others is refused."""
        self.follower().once()
        tree = self.git("rev-parse", "main^{tree}").strip()
        self.git("update-ref", "refs/heads/main", self.git("commit-tree", "-m", "mine", "-p", "main", tree).strip())
        self.assertRaises(Unsafe, self.follower)

    def test_zones(self) -> None:
        """Two zones have one branch; one that comes later begins as it is then, and is not begun twice."""
        self.follower().once()
        self.follower(zones=(ZONE, "other.")).once()
        self.follower(zones=("other.",)).once()
        self.follower(zones=(ZONE, "other.")).once()
        self.assertEqual([(one.zone, one.number) for one in self.repository.commits()], [("other.", 0), (ZONE, 0)])

    def test_subject(self) -> None:
        """Many and long names."""
        change = Change(1, [soa(1)], [soa(2)] + [address(f"{'x' * 30}{number}") for number in range(9)])
        self.assertEqual(following.subject_of(ZONE, change), f"{ZONE}: {'x' * 30}0.{ZONE} and 8 more")
        self.assertEqual(following.subject_of(ZONE, Change(1, [soa(1)], [soa(2)])), f"{ZONE}: SOA")


def line(caller: str, identifier: str, *operations: dict[str, Any], when: int = 0, seconds: float = 0.01, **more: str) -> bytes:
    """A line of the trail."""
    stamp = time.strftime("%Y-%m-%dT%H:%M:%S+00:00", time.gmtime(1795993371 + when))
    fields = {"time": stamp, "caller": caller, "address": "192.0.2.1", "method": "POST", "path": f"/zones/{ZONE}/updates", "status": "200",
              "office": "200", "seconds": f"{seconds:.3f}", "body": json.dumps({"id": identifier, "operations": operations}), **more}
    return json.dumps(fields, separators=(",", ":")).encode() + b"\n"


def add(name: str, data: str = "192.0.2.1", kind: str = "A") -> dict[str, Any]:
    """The operation that adds a record."""
    return {"op": "add", "name": f"{name}.{ZONE}", "ttl": 300, "type": kind, "data": data}


class Matching(unittest.TestCase):
    """Which requests explain which changes."""

    def explains(self, text: bytes, removed: list[str], added: list[str]) -> bool:
        """Whether the request of a line does."""
        found = request_of(text)
        assert found
        return found.explains({item_of(one) for one in removed}, {item_of(one) for one in added})

    def test_explains(self) -> None:
        """Each operation, spellings, new TTLs, aliases, and what they do not do."""
        gone = {"name": f"a.{ZONE}", "type": "A"}
        rows: list[tuple[dict[str, Any], list[str], list[str], bool]] = [
            (add("A"), [], [address("a")], True), (add("a"), [], [address("b")], False),
            (add("a"), [], [address("a", "192.0.2.2")], False),
            (add("\\097"), [soa(1)], [soa(2), address("a")], True), (add("a"), [address("a", ttl=1)], [address("a")], True),
            (add("a"), [address("a")], [], False), ({"op": "delete-name", "name": f"a.{ZONE}"}, [address("a")], [], True),
            ({"op": "delete-rrset", **gone}, [address("a"), address("a", "192.0.2.2")], [], True),
            ({"op": "delete-record", "data": "192.0.2.1", **gone}, [address("a")], [], True),
            ({"op": "delete-record", "data": "192.0.2.2", **gone}, [address("a")], [], False),
            ({"op": "delete-rrset", **gone}, [address("b")], [], False),
            (add("a", '"x" ; y', "TXT"), [], [f'a.{ZONE} 300 IN TXT "x"'], True),
            (add("a", "B.Example.org.", "CNAME"), [f"a.{ZONE} 1 IN CNAME c.{ZONE}"], [f"a.{ZONE} 300 IN CNAME b.{ZONE}"], True),
            (add("a"), [soa(1)], [soa(2)], False),
            ({**add("x", soa(2).split(" SOA ")[1], "SOA"), "name": ZONE}, [soa(1)], [soa(2)], True)]
        for operation, removed, added, wanted in rows:
            with self.subTest(operation=operation, removed=removed, added=added):
                self.assertEqual(self.explains(line("phys", "u", operation), removed, added), wanted)

    def test_delegation(self) -> None:
        """The servers of a child and their addresses."""
        body = json.dumps({"id": "u", "child": f"M.{ZONE}", "ttl": 1, "servers": []})
        text = line("med", "u", path=f"/zones/{ZONE}/delegations", body=body)
        servers = [f"m.{ZONE} 1 IN NS ns.m.{ZONE}", f"ns.m.{ZONE} 1 IN A 192.0.2.1"]
        self.assertTrue(self.explains(text, servers[:1], servers[1:]))
        self.assertFalse(self.explains(text, [], [address("a")]))

    def test_lines(self) -> None:
        """What is no update that was made, or no line at all."""
        for text in (line("phys", "u", add("a"), office="403"), line("phys", "u", add("a"), method="GET"), line("p h", "u", add("a")),
                     line("phys", "u", add("a"), path="/zones/a/b/updates"), line("phys", "u", add("a"), body="(not text)"),
                     line("phys", "u", add("a"), body="[]"), line("phys", "\n", add("a")), b'"method":"POST" "office":"200"', b"\xff\n"):
            with self.subTest(text=text):
                self.assertIsNone(request_of(text))


class Trails(Case):
    """The trail as a file, and the authors of commits."""

    def setUp(self) -> None:
        super().setUp()
        self.path = pathlib.Path(self.folder, "audit.json")
        self.path.write_bytes(b"")
        patch = mock.patch.object(following, "PATIENCE", 0.0)
        patch.start()
        self.addCleanup(patch.stop)

    def trail(self, since: float | None = None, zone: str = ZONE) -> Trail:
        """The trail from a time on."""
        found = Trail(str(self.path), [zone], since)
        self.addCleanup(found.close)
        return found

    def write(self, *lines: bytes) -> None:
        """Adds lines to the trail."""
        with open(self.path, "ab") as file:
            file.write(b"".join(lines))

    def authors(self) -> list[str]:
        """Who made the changes, by the commits."""
        form = "%an %at %(trailers:key=Office-Update,valueonly,separator=)"
        return self.git("log", "--reverse", f"--format={form}").splitlines()[1:]

    def test_authors(self) -> None:
        """Requests without effect are passed over: before, between, repeated, and by others."""
        start = 1795993371
        self.write(line("lib", "l1", add("a"), when=-9, office="403"), line("phys", "p1", add("a")), line("phys", "p1", add("a"), when=1),
                   line("lib", "l2", add("a"), when=2), line("admin", "x", {"op": "delete-name", "name": f"a.{ZONE}"}, when=3),
                   line("lib", "l3", add("a"), when=4))
        self.office.make(address("a"))
        self.office.make(removed=(address("a"),))
        self.office.make(address("a"))
        self.follower(path=str(self.path)).once()
        self.assertEqual(self.authors(), [f"phys {start} p1", f"admin {start + 3} x", f"lib {start + 4} l3"])
        self.assertEqual(self.git("log", "-1", "--format=%ae|%(trailers:key=Office-Caller,valueonly)").strip(), f"lib@{OFFICE}|lib")

    def test_without_effect(self) -> None:
        """A request whose change would have come is forgotten: it does not take a later one."""
        follower = self.follower(path=str(self.path))
        self.write(line("lib", "l1", add("a")))
        follower.once()
        self.write(line("phys", "p1", add("a")))
        self.office.make(address("a"))
        follower.once()
        self.assertEqual([one.split(" ")[0] for one in self.authors()], ["phys"])

    def test_restart(self) -> None:
        """After a restart requests of changes that are known do not take later ones, also where the state is lost or is older."""
        for number in range(4):
            old = self.kept.read("seen")
            if number == 2:
                self.kept.remove("seen")
            for name, operation in (("phys", add("a")), ("admin", {"op": "delete-name", "name": f"a.{ZONE}"})):
                self.write(*[line(name, f"{name}-{number}", operation)] * 2)
                self.office.make(*([address("a")] if name == "phys" else []), removed=(address("a"),) if name == "admin" else ())
            self.assertEqual(self.follower(path=str(self.path)).once(), 0)
            if number == 1:
                self.kept.write("seen", old or b"")
        self.assertEqual([one.split(" ")[2] for one in self.authors()],
                         [f"{name}-{number}" for number in range(4) for name in ("phys", "admin")])

    def test_at_once(self) -> None:
        """Two requests at once may end in the other order."""
        self.write(line("lib", "l1", add("b"), when=5, seconds=3), line("phys", "p1", add("a"), when=5, seconds=4))
        self.office.make(address("a"))
        self.office.make(address("b"))
        self.follower(path=str(self.path)).once()
        self.assertEqual([one.split(" ")[0] for one in self.authors()], ["phys", "lib"])

    def test_late_line(self) -> None:
        """The line of a change may come a moment later."""
        follower = self.follower(path=str(self.path))
        self.office.make(address("a"))
        with mock.patch.object(following, "PATIENCE", 60.0), \
                mock.patch.object(time, "sleep", lambda _: self.write(line("phys", "p1", add("a")))):
            follower.once()
        self.assertEqual([one.split(" ")[0] for one in self.authors()], ["phys"])

    def test_late_again(self) -> None:
        """While the line of a change may come, no earlier request is taken for it; then one that was made at once may be."""
        found = self.trail()
        self.write(line("lib", "l1", add("a")), line("admin", "x1", {"op": "delete-name", "name": f"a.{ZONE}"}))
        found.read()
        gone, come = Change(1, [address("a")], []), Change(2, [], [address("a")])
        first, second = found.request(ZONE, gone, False), found.request(ZONE, come, False)
        self.write(line("phys", "p1", add("a")))
        found.read()
        third, fourth = found.request(ZONE, come, False), found.request(ZONE, come, True)
        self.assertEqual([one and one.caller for one in (first, second, third, fourth)], ["admin", None, "phys", "lib"])

    def test_rotation(self) -> None:
        """Lines of compressed files, of the one before the last rotation, into which nginx still writes, and of the new one."""
        for number in range(6):
            self.office.make(address(f"h{number}"))
        lines = [line(f"c{number}", "u", add(f"h{number}"), when=number) for number in range(6)]
        with gzip.open(f"{self.path}-1.gz", "wb") as file:
            file.write(lines[0])
        pathlib.Path(f"{self.path}-2").write_bytes(lines[1])
        os.utime(f"{self.path}-1.gz", (1, 1))
        self.write(lines[2])
        found = self.trail()
        found.read()
        with open(self.path, "ab") as old:
            os.rename(self.path, f"{self.path}-3")
            self.write(lines[3])
            found.read()
            old.write(lines[4])
            old.flush()
            self.write(lines[5])
            found.read()
        callers = [request.caller for change in self.office.list for request in [found.request(ZONE, change, True)] if request]
        self.assertEqual(callers, [f"c{number}" for number in range(6)])

    def test_parts(self) -> None:
        """A line that is being written is taken when it is whole; one that is too long is passed over."""
        found, text = self.trail(), line("phys", "p1", add("a"))
        self.write(text[:50])
        self.assertEqual(found.read(), 0)
        self.write(text[50:])
        self.assertEqual(found.read(), 1)
        with mock.patch.object(trail, "LONGEST", len(text) + 10):
            self.write(line("phys", "p2", *[add("a")] * 5), text)
            self.assertEqual(found.read(), 2)

    def test_seek(self) -> None:
        """It begins not far before a time, and never after it."""
        self.write(*[line("phys", f"u{number}", add("a"), when=number) for number in range(4000)])
        for when in -1, 0, 1, 2000, 3999, 5000:
            found = self.trail(1795993371 + when)
            number = found.read()
            self.assertGreaterEqual(number, min(4000, 4000 - when))
            self.assertLess(number, max(0, 4000 - when) + 600)

    def test_other_zones(self) -> None:
        """Of zones that are not followed nothing is kept."""
        found = self.trail(zone="example.net.")
        self.write(line("phys", "u", add("a")))
        self.assertEqual(found.read(), 0)


class Running(unittest.TestCase):
    """Commands within bounds."""

    def test_bounds(self) -> None:
        """What is printed, how long it takes, and what is seen."""
        words: dict[str, Any] = {"most": 100, "seconds": 1}
        self.assertEqual(running.run(["env"], {"A": "b"}, **words).out, b"A=b\n")
        self.assertEqual(running.run(["cat"], {}, b"x" * 100, **words).out, b"x" * 100)
        self.assertRaises(Exceeded, running.run, ["yes"], {}, **words)
        self.assertRaises(Exceeded, running.run, ["sh", "-c", "sleep 60 & sleep 60"], {"PATH": "/usr/bin:/bin"}, **words)
        done = running.run(["sh", "-c", "printf '\\033x' >&2; exit 3"], {}, **words)
        self.assertEqual((done.status, done.said), (3, "\\x1bx"))

    def test_lines(self) -> None:
        """No more is read than is asked for."""
        lines = running.lines(["yes"], {})
        self.assertEqual([next(lines), next(lines)], ["y", "y"])
        lines.close()  # type: ignore[attr-defined]
        self.assertRaises(Failed, list, running.lines(["false"], {}))


@unittest.skipUnless(shutil.which("git"), "needs git")
class Merging(Case):
    """Proposals."""

    def setUp(self) -> None:
        super().setUp()
        self.office.make(address("a"))
        self.follower().once()
        path = self.folder + "/program"
        with open(path, "w", encoding="utf-8") as file:
            file.write(PROGRAM)
            os.chmod(file.fileno(), 0o755)
        callers = {"alice": self.office}
        zones = {FILE: ZONE, "other.zone": "other."}
        self.merger = Merger(self.repository, zones, callers, path, self.kept, self.said.append)  # type: ignore[arg-type]

    def propose(self, text: str | None, name: str = "x", file: str = FILE, mode: str = "100644") -> str:
        """A commit with a text in the place of the zone's file; its name."""
        main = self.git("rev-parse", "main").strip()
        blob = self.repository.git("hash-object", "-w", "--stdin", given=(text or "").encode()).decode().strip()
        entries = [one for one in self.git("ls-tree", main).splitlines() if not one.endswith("\t" + file)]
        entries += [f"{mode} blob {blob}\t{file}"] if text is not None else []
        tree = self.repository.git("mktree", given="".join(one + "\n" for one in sorted(entries)).encode()).decode().strip()
        commit = self.git("commit-tree", "-m", "proposal", "-p", main, tree).strip()
        self.git("update-ref", f"refs/heads/proposed/{name}", commit)
        return commit

    def answer(self, commit: str, name: str = "x", pusher: str | None = "alice") -> tuple[int, str]:
        """The status of a proposal, and what is told."""
        self.said.clear()
        status = self.merger.merge(f"refs/heads/proposed/{name}", pusher)
        return status, self.said[0].removeprefix(f"refs/heads/proposed/{name} {commit}: ")

    def test_made(self) -> None:
        """The difference is sent as the caller, under the commit's name, and the same again; the note has the answer."""
        commit = self.propose(self.office.zone.text() + address("b") + "\n")
        for _ in range(2):
            self.assertEqual(self.answer(commit), (0, "NOERROR for phys"))
        body = {"operations": [{"op": "add", "name": f"b.{ZONE}", "data": "192.0.2.1"}], "prerequisites": []}
        self.assertEqual(self.office.sent, [(ZONE, body, f"git-{commit}")] * 2)
        self.assertEqual(self.repository.note(commit), f"Office-Answer: NOERROR\nOffice-Zone: {ZONE}\nOffice-Caller: phys\n"
                         f"Office-Update: git-{commit}\n")
        self.assertEqual((self.kept.read("answers") or b"").decode().count(f"{commit}: NOERROR for phys\n"), 2)
        self.assertEqual(self.merger.show("refs/heads/proposed/x"), f"add b.{ZONE} 300 A 192.0.2.1\n")

    def test_base(self) -> None:
        """The difference is to the zone where the proposal left the branch, and takes nothing back."""
        commit = self.propose(self.office.zone.text() + address("b") + "\n")
        self.office.make(address("c"))
        self.follower().once()
        self.answer(commit)
        self.assertEqual([one["name"] for one in self.office.sent[0][1]["operations"]], [f"b.{ZONE}"])

    def test_refused(self) -> None:
        """The office's refusals, with the rule and the item."""
        commit = self.propose(self.office.zone.text() + address("b") + "\n")
        for reply, words in (
                (Reply(403, "", {"by": "vault", "code": 5, "item": 0, "list": "operations", "name": "REFUSED"}),
                 f"refused: REFUSED operations 0 by vault: add b.{ZONE} 300 A 192.0.2.1 for phys"),
                (Reply(412, "", {"code": 8, "item": 9, "list": "prerequisites", "name": "NXRRSET"}),
                 "refused: NXRRSET prerequisites 9 for phys"),
                (Reply(409, "", {"refusal": 61}), "refused: 409 refusal 61 for phys")):
            self.office.reply = reply
            self.assertEqual(self.answer(commit), (1, words))

    def test_no_reply(self) -> None:
        """Without an answer there is no note, and the proposal is taken again."""
        commit = self.propose(self.office.zone.text() + address("b") + "\n")
        for reply in None, Reply(500, "", {"code": 2, "name": "SERVFAIL"}), Reply(502, "", {"front": 502}):
            self.office.reply = reply
            self.assertRaises(NoReply, self.answer, commit)
            self.assertEqual((self.repository.note(commit), self.merger.proposed()), (None, ["refs/heads/proposed/x"]))
        self.office.reply = Reply(200, "", {"code": 0, "name": "NOERROR"})
        self.answer(commit)
        self.assertEqual(self.merger.proposed(), [])

    def test_unfit(self) -> None:
        """What is no proposal is not sent."""
        text = self.office.zone.text()
        more = f"{FILE} is more than another text in the file of a zone"
        rows: list[tuple[str, dict[str, Any]]] = [
            ("it changes nothing", {"text": text}), (more, {"text": text + "x", "mode": "120000"}), (more, {"text": None}),
            (more, {"text": text + "x", "mode": "100755"}),
            ("odd is more than another text in the file of a zone", {"text": "x", "file": "odd"}),
            ("other.zone is more than another text in the file of a zone", {"text": "x", "file": "other.zone"}),
            (f"{FILE} has 4194305 octets, and may have 4194304", {"text": "x" * 4194305}),
            ("zoneoffice diff: refused 29.11 line 3 the new zone: line 3: odd", {"text": text + "odd\n"}),
            ("it is more than one update: propose it in parts",
             {"text": text + "".join(address(f"h{number}") + "\n" for number in range(1500))})]
        for words, given in rows:
            with self.subTest(words):
                self.assertEqual(self.answer(self.propose(**given)), (1, f"refused: {words}"))
        self.assertEqual(self.office.sent, [])

    def test_elsewhere(self) -> None:
        """A commit without the branch's history."""
        commit = self.git("commit-tree", "-m", "x", self.git("rev-parse", "main^{tree}").strip()).strip()
        self.git("update-ref", "refs/heads/proposed/x", commit)
        self.assertEqual(self.answer(commit), (1, "refused: it does not come from the branch"))

    def test_callers(self) -> None:
        """Nobody is a caller but who has a table, by the pusher, or else by the committer."""
        commit = self.propose(self.office.zone.text() + address("b") + "\n")
        for pusher in "mallory", "", "Alice", "alice\n", f"office-git@{OFFICE}":
            self.assertEqual(self.answer(commit, pusher=pusher)[0], 1)
            self.assertIn("is no caller", self.said[0])
        self.assertEqual(self.answer(commit, pusher=None), (1, f"refused: office-git@{OFFICE} is no caller"))
        self.merger.callers = {f"office-git@{OFFICE}": self.office}  # type: ignore[dict-item]
        self.assertEqual(self.answer(commit, pusher=None), (0, "NOERROR for phys"))

    def test_refs(self) -> None:
        """Which refs are proposals."""
        good = "refs/heads/proposed/"
        for name in "x", "a/b", "a.b-c_d", "a" * 200:
            self.assertTrue(REF.fullmatch(good + name), name)
        odd = ["-x", "a/", "a..b", "../main", "a b", "a\n", "$(x)", "a.lock", "a//b", ".a", "a/.b", "a" * 201, "a.lock/b", "a.", ""]
        for ref in ("refs/heads/main", "--help", "HEAD", *(good + one for one in odd)):
            self.assertFalse(REF.fullmatch(ref), ref)
            self.assertEqual(self.merger.merge(ref, "alice"), 1)
        self.assertRaises(Refused, self.merger.show, "HEAD")

    def test_answers(self) -> None:
        """The file of answers stays small."""
        for number in range(210):
            self.merger._keep(f"answer {number}")  # pylint: disable=protected-access
        lines = (self.kept.read("answers") or b"").decode().splitlines()
        self.assertEqual((len(lines), lines[-1].split(" ", 1)[1]), (200, "answer 209"))

    def test_turn(self) -> None:
        """One run at a time."""
        with self.merger.turn(), mock.patch("office_git.merging.TURN", -1):
            with self.assertRaises(NoReply), self.merger.turn():
                pass
        with self.merger.turn():
            pass


class Repositories(Case):
    """The repository itself."""

    def test_begin(self) -> None:
        """It is made once, and to its end; others may not write to it."""
        for _ in range(2):
            self.repository.begin()
        os.unlink(self.repository.path + "/office-git")
        self.repository.begin()
        self.assertEqual(self.git("config", "receive.maxInputSize"), "16m\n")
        os.chmod(self.repository.path, 0o770)
        self.assertRaises(Unsafe, self.repository.begin)
        os.rename(self.repository.path, self.folder + "/x")
        os.symlink(self.folder + "/x", self.repository.path)
        self.assertRaises(Unsafe, self.repository.begin)

    def test_blob(self) -> None:
        """Files that are not there, are links, or too large."""
        self.repository.begin()
        self.repository.add([Commit(Author("a", "b", 1), "m\n", "f", "text\n")], 1)
        self.assertEqual((self.repository.blob("main", "f"), self.repository.blob("main", "g")), (b"text\n", None))
        self.assertRaises(Unfit, self.repository.blob, "main", "f", 4)

    def test_moved(self) -> None:
        """A branch that somebody else moved is not moved back."""
        self.repository.begin()
        self.repository.add([Commit(Author("a", "b", 1), "m\n", "f", "1\n")], 1)
        first = self.git("rev-parse", "main").strip()
        self.repository.add([Commit(Author("a", "b", 1), "m\n", "f", "2\n")], 1)
        with mock.patch.object(self.repository, "commit_of", lambda _: first):
            self.assertRaises(Failed, self.repository.add, [Commit(Author("a", "b", 1), "m\n", "f", "3\n")], 1)
        self.assertEqual(self.git("show", "main:f"), "2\n")

    def test_hooks(self) -> None:
        """No hook of the repository runs, and no settings of the machine count."""
        self.repository.begin()
        for name in "reference-transaction", "post-commit":
            path = pathlib.Path(self.repository.path, "hooks", name)
            path.write_text(f"#!/bin/sh\ntouch {self.folder}/ran\n", encoding="utf-8")
            path.chmod(0o755)
        with mock.patch.dict(os.environ, {"GIT_DIR": "/nonexistent", "GIT_CONFIG_COUNT": "x"}):
            self.repository.add([Commit(Author("a", "b", 1), "m\n", "f", "1\n")], 1)
        self.repository.set_note("main", "x")
        self.assertEqual((os.path.exists(self.folder + "/ran"), self.repository.note("main")), (False, "x\n"))


class Program(Case):
    """The words and the settings."""

    def settings(self, text: str) -> str:
        """The path of a file of settings."""
        path = self.folder + "/git.toml"
        with open(path, "w", encoding="utf-8") as file:
            os.chmod(path, 0o600)
            file.write(f'url = "http://127.0.0.1:9"\ncaller = "git"\nstate = "{self.folder}/other"\n{text}')
        return path

    def test_settings(self) -> None:
        """Who proposes is found by one kind of name, each once."""
        table = '[[proposer]]\n{} = "alice"\ncaller = "phys"\n'
        found = program.set_up(self.settings('zones = ["a"]\n' + table.format("pusher")))
        self.assertEqual((found.by_committer, found.callers["alice"].name, found.office.name), (False, "phys", "git"))
        self.assertEqual((found.repository.ref, found.repository.office), ("refs/heads/main", "127.0.0.1"))
        self.assertTrue(program.set_up(self.settings('zones = ["a"]\n' + table.format("committer"))).by_committer)
        for text in ('zones = ["a"]\n' + table.format("pusher") + table.format("committer"),
                     'zones = ["a"]\n' + table.format("pusher") * 2,
                     'zones = ["a"]\n[[proposer]]\ncaller = "phys"\n', 'zones = ["a"]\nbranch = "../x"\n', 'zones = ["a"]\nname = "a>b"\n',
                     'zones = ["a"]\nrepository = "zones.git"\n', f'zones = ["{".".join(["a" * 60] * 5)}"]\n', 'zones = ["a"]\nodd = 1\n'):
            with self.subTest(text):
                self.assertRaises(Wrong, program.set_up, self.settings(text))

    def test_words(self) -> None:
        """Words that do not go together."""
        path = self.settings('zones = ["a"]\n[[proposer]]\npusher = "alice"\ncaller = "phys"\n')
        for words in (["odd"], ["--odd"], ["merge", "--odd"], ["merge", "--config", path], ["--config", path, "--pusher", "x"]):
            with self.subTest(words):
                self.assertRaises(Wrong, program.main, words)
        with contextlib.redirect_stdout(io.StringIO()) as printed:
            self.assertEqual(program.main(["merge", "--help"]), 0)
        self.assertIn("usage: office-git", printed.getvalue())

    def test_lock(self) -> None:
        """A second one over the same state waits a moment, and gives up."""
        program.lock(self.kept)
        with mock.patch.object(program, "LOCKED", 0.0):
            self.assertRaises(Wrong, program.lock, Kept(self.folder + "/state"))

    def test_help(self) -> None:
        """The file itself runs, in a surrounding without anything."""
        path = str(pathlib.Path(__file__).parents[1] / "office-git")
        done = subprocess.run([path, "--help"], env={"LC_ALL": "C"}, stdout=subprocess.PIPE, check=False)
        self.assertEqual((done.returncode, done.stdout[:11]), (0, b"Keeps zones"))


if __name__ == "__main__":
    unittest.main()
