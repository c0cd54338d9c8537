"""Updates that wait for a reply: their identifiers are kept on disk until the office has decided on each."""

import contextlib
import datetime
import fcntl
import hashlib
import json
import os
import secrets
from collections.abc import Iterator
from typing import Any

from .server import Server, fits
from .telling import Bad, say
from .update import Request

LARGEST = 256 << 20  # octets of a file


def state_folder() -> str:
    """Where the files are."""
    home = os.environ.get("XDG_STATE_HOME") or os.path.expanduser("~/.local/state")
    return os.path.join(home, "office")


class Kept:  # pylint: disable=too-few-public-methods
    """What a file keeps: the updates of a command, their identifier, and how many of them have a reply."""

    def __init__(self, fields: dict[str, Any], done: int) -> None:
        self.id: str = fields["id"]  # pylint: disable=invalid-name
        self.url: str = fields["url"]
        self.who: str = fields["who"]
        self.requests: list[Request] = [(one[0], one[1]) for one in fields["requests"]]
        self.done = done


def read_kept(text: str) -> Kept | None:
    """What a file keeps, or None. Its first line is whole before anything is sent, so that nothing was sent of half a one; each line
    after it is the number of updates that had a reply."""
    first, _, rest = text.partition("\n")
    try:
        fields = json.loads(first)
    except (ValueError, RecursionError):
        return None
    if not fits(fields, {"id": str, "url": str, "who": str, "requests": [list]}):
        return None
    if not all(len(one) == 2 and fits(one[0], str) and isinstance(one[1], dict) for one in fields["requests"]):
        return None
    done = [int(line) for line in rest.split("\n") if line.isascii() and line.isdigit() and len(line) < 9]
    return Kept(fields, min(max(done, default=0), len(fields["requests"])))


class Pending:
    """The identifier of a command's updates, kept in a file until each has a reply. The same command finds it again; while it runs,
    another run of it waits."""

    def __init__(self, server: Server, what: Any) -> None:
        self.url, self.who = server.base, server.who()
        text = json.dumps([self.url, self.who, what], sort_keys=True)
        self.path = os.path.join(state_folder(), hashlib.sha256(text.encode()).hexdigest()[:32] + ".json")
        os.makedirs(state_folder(), mode=0o700, exist_ok=True)
        self.file = self.locked()
        self.kept = read_kept(self.file.read(LARGEST))
        # whether an update may have been made under it; else it is given up where the office is not asked
        self.counts = self.kept is not None
        if self.kept:
            self.id = self.kept.id  # pylint: disable=invalid-name
            say(f"sent again under {self.id}: an earlier run got no reply")
        else:
            now = datetime.datetime.now(datetime.timezone.utc)
            self.id = f"office-{now:%Y%m%dT%H%M%SZ}-{secrets.token_hex(8)}"

    def locked(self) -> Any:
        """The file, once no other process has it; it is the one at the path then."""
        while True:
            number = os.open(self.path, os.O_RDWR | os.O_CREAT | os.O_NOFOLLOW | os.O_CLOEXEC, 0o600)
            file = open(number, "r+", encoding="utf-8", errors="replace")  # pylint: disable=consider-using-with
            fcntl.flock(file, fcntl.LOCK_EX)
            try:
                if os.path.samestat(os.fstat(file.fileno()), os.stat(self.path)):
                    return file
            except FileNotFoundError:
                pass
            file.close()

    def keep(self, requests: list[Request]) -> None:
        """Is called before anything is sent; what is to be sent is on the disk then."""
        if self.kept:
            return
        fields = {"id": self.id, "url": self.url, "who": self.who, "requests": requests}
        self.file.seek(0)
        self.file.truncate(0)
        self.file.write(json.dumps(fields) + "\n")
        self.file.flush()
        os.fsync(self.file.fileno())
        folder = os.open(state_folder(), os.O_RDONLY)
        os.fsync(folder)
        os.close(folder)
        self.kept = Kept(fields, 0)

    def done(self, count: int) -> None:
        """Is called when so many updates have a reply: the next run goes on behind them."""
        self.file.write(f"{count}\n")
        self.file.flush()

    def first(self) -> int:
        """How many updates have a reply."""
        return self.kept.done if self.kept else 0

    def end(self) -> None:
        """Is called when nothing waits any more."""
        os.unlink(self.path)
        self.file.close()


class NotKept(Pending):
    """In the place of Pending where the caller gives the identifier."""

    def __init__(self, identifier: str) -> None:  # pylint: disable=super-init-not-called
        self.id = identifier
        self.kept = None
        self.counts = False

    def keep(self, requests: list[Request]) -> None:
        pass

    def done(self, count: int) -> None:
        pass

    def end(self) -> None:
        pass


def waiting() -> Iterator[tuple[str, Kept]]:
    """The updates that wait for a reply: the path and what is in it."""
    with contextlib.suppress(FileNotFoundError):
        for name in sorted(os.listdir(state_folder())):
            place = os.path.join(state_folder(), name)
            if name.endswith(".json"):
                with open(place, encoding="utf-8", errors="replace") as file:
                    one = read_kept(file.read(LARGEST))
                if one:
                    yield place, one


def forget(identifier: str) -> None:
    """Drops the updates of an identifier."""
    for place, one in waiting():
        if one.id == identifier:
            os.unlink(place)
            return
    raise Bad(f"no update waits under the identifier {identifier}")
