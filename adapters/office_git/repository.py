"""A bare git repository, of which one branch has a commit for each change of each zone.

A commit says in its trailers (`Office-Zone`, `Office-Change`) which change it is. The branch's ref is moved by git, from one commit to a
later one, and is the only state: what else a killed process left is not reached from it."""

import contextlib
import dataclasses
import os
import stat
from collections.abc import Iterable, Iterator

from office_asking import Unsafe, printable

from . import running
from .running import Failed

LONG = 64 << 10  # octets of what git prints, if no more are wanted
LARGEST = 1 << 30  # octets of a zone's file
SECONDS = 120
OPTIONS = ("-c", "core.hooksPath=/dev/null", "-c", "core.fsync=all", "-c", "pack.threads=1",
           "-c", "pack.windowMemory=64m")
FIRST = {"receive.fsckObjects": "true", "receive.maxInputSize": "16m"}  # of a new repository
TRAILERS = "Office-Zone", "Office-Change", "Office-Caller", "Office-Update"
FORMAT = "%x09".join(["%H", "%at", *(f"%(trailers:key={name},valueonly,separator=%x2C)" for name in TRAILERS)])
NOTES = "refs/notes/office"


@dataclasses.dataclass(frozen=True)
class Author:
    """Who made a change, and when: seconds since 1970."""
    name: str
    email: str
    time: int

    def text(self) -> str:
        """As git writes it."""
        return f"{self.name} <{self.email}> {self.time} +0000"


@dataclasses.dataclass(frozen=True)
class Commit:
    """A commit that is to be made: of a zone's file."""
    author: Author
    message: str
    file: str
    text: str


@dataclasses.dataclass(frozen=True)
class Found:
    """A commit that is there."""
    name: str
    time: int
    zone: str
    number: int
    caller: str  # of its request, or nothing
    update: str


class Unfit(Failed):
    """A file of a commit is not one that is taken."""


class Repository:
    """The repository, and the name under which commits are made."""

    def __init__(self, path: str, branch: str, office: str, lock: int | None = None) -> None:
        self.path, self.ref, self.office, self.lock = path, f"refs/heads/{branch}", office, lock
        self.email = f"office-git@{office}"
        self.variables = {
            "PATH": "/usr/bin:/bin", "HOME": "/nonexistent", "LC_ALL": "C", "TZ": "UTC", "GIT_DIR": path, "GIT_CONFIG_NOSYSTEM": "1",
            "GIT_CONFIG_GLOBAL": "/dev/null", "GIT_NO_REPLACE_OBJECTS": "1", "GIT_TERMINAL_PROMPT": "0",
            **{f"GIT_{who}_{what}": value for who in ("AUTHOR", "COMMITTER")
               for what, value in (("NAME", "office-git"), ("EMAIL", self.email))}}

    def begin(self) -> None:
        """Makes the repository, if it is not there, or was not made to its end."""
        with contextlib.suppress(FileExistsError):
            os.mkdir(self.path, 0o700)
        found = os.lstat(self.path)
        if not stat.S_ISDIR(found.st_mode) or found.st_uid != os.geteuid() or found.st_mode & 0o022:
            raise Unsafe(f"{printable(self.path)} is no folder of this user's, or others may write to it")
        if not os.path.exists(os.path.join(self.path, "office-git")):
            self.git("init", "--quiet", "--bare", f"--initial-branch={self.ref.removeprefix('refs/heads/')}")
            for name, value in FIRST.items():
                self.git("config", name, value)
            with open(os.path.join(self.path, "office-git"), "xb"):
                pass

    def git(self, *words: str, given: bytes = b"", most: int = LONG, seconds: int = SECONDS) -> bytes:
        """What git prints; Failed if it fails, prints too much or takes too long."""
        done = running.run(["git", *OPTIONS, *words], self.variables, given, most=most, seconds=seconds)
        if done.status:
            raise Failed(f"git {words[0]}: status {done.status}: {done.said}", done.status)
        return done.out

    def commit_of(self, ref: str) -> str | None:
        """The commit that a ref names, if it is there."""
        with contextlib.suppress(Failed):
            return self.git("rev-parse", "--verify", "--quiet", "--end-of-options", f"{ref}^{{commit}}").decode().strip()
        return None

    def commits(self, since: str | None = None) -> Iterator[Found]:
        """The commits of the branch, the newest first, down to one."""
        if self.commit_of(self.ref) is None:
            return
        words = ["log", "--first-parent", f"--format={FORMAT}", "--end-of-options", self.ref, *([f"^{since}"] if since else []), "--"]
        for line in running.lines(["git", *OPTIONS, *words], self.variables):
            name, time, zone, number, caller, update = line.split("\t")
            if not zone or not number.isdigit():
                raise Unsafe(f"{self.ref} has {name}, which is no commit of office-git")
            yield Found(name, int(time), zone, int(number), caller, update)

    def has(self, name: str) -> bool:
        """Whether a commit is of the branch."""
        with contextlib.suppress(Failed):
            self.git("merge-base", "--is-ancestor", name, self.ref)
            return True
        return False

    def blob(self, commit: str, file: str, most: int = LARGEST) -> bytes | None:
        """A file of a commit, if it is there; Unfit if it is a link, say, or has more octets than it may."""
        entry = self.git("ls-tree", "-z", commit, "--", file).decode()
        if not entry:
            return None
        kind, _, name = entry.partition("\t")[0].split(" ")
        if kind != "100644":
            raise Unfit(f"{file} is not an ordinary file")
        size = int(self.git("cat-file", "-s", name))
        if size > most:
            raise Unfit(f"{file} has {size} octets, and may have {most}")
        return self.git("cat-file", "blob", name, most=most)

    def add(self, commits: Iterable[Commit], now: int) -> None:
        """Adds commits to the branch, in order: all of them, or if it is killed perhaps none."""
        words = ["git", *OPTIONS, "fast-import", "--quiet", "--done", "--date-format=raw"]
        running.feed(words, self.variables, self._stream(commits, now), () if self.lock is None else (self.lock,))

    def _stream(self, commits: Iterable[Commit], now: int) -> Iterator[bytes]:
        committer = Author("office-git", self.email, now).text()
        head = self.commit_of(self.ref)
        for one in commits:
            message, text = one.message.encode(), one.text.encode()
            parent = f"from {head}\n" if head else ""
            head = None  # the next one follows this one
            yield (f"commit {self.ref}\nauthor {one.author.text()}\ncommitter {committer}\ndata {len(message)}\n".encode() + message
                   + f"\n{parent}M 100644 inline {one.file}\ndata {len(text)}\n".encode())
            yield text + b"\n"
        yield b"done\n"

    def tidy(self) -> None:
        """Packs what has become many files, so that each object is packed a few times only."""
        self.git("repack", "--geometric=2", "-d", "--quiet", seconds=3600)

    def note(self, commit: str) -> str | None:
        """The answer that a commit has."""
        with contextlib.suppress(Failed):
            return self.git("notes", f"--ref={NOTES}", "show", commit).decode("utf-8", "replace")
        return None

    def set_note(self, commit: str, text: str) -> None:
        """Gives a commit its answer, in the place of an earlier one."""
        self.git("notes", f"--ref={NOTES}", "add", "-f", "-F", "-", commit, given=text.encode())
