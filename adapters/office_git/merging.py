"""Takes what is proposed by a commit to the office: one update of one zone, by the caller of whoever proposes it, or a refusal.

The update leads from the zone in the branch's commit that the proposal comes from to the zone as proposed, only if nobody changed these
record sets meanwhile. Its identifier is that of the commit, so that it is made once."""

import contextlib
import dataclasses
import datetime
import fcntl
import json
import os
import re
import tempfile
import time
from collections.abc import Callable, Iterator

from office_asking import Kept, NoReply, Office, Reply, printable

from . import running
from .repository import Repository, Unfit
from .running import Exceeded, Failed

PROPOSED = "refs/heads/proposed/"
REF = re.compile(PROPOSED + r"(?!.*(?:\.\.|//|/\.|\.lock(?:/|\Z)|\.(?:/|\Z)))[A-Za-z0-9_][A-Za-z0-9._/-]{0,199}(?<!/)")
REFS = 1000  # proposals that are looked at in one run
LARGEST = 4 << 20  # octets of a file
ITEMS = 1 << 20  # octets of the items of an update
BODY = 65536  # octets of the body of an update
SECONDS = 60  # for each command
TURN = 300  # seconds to wait for another run
KEPT = 200  # lines of the file of answers


class Refused(Exception):
    """A proposal is not made, and nothing has changed."""


@dataclasses.dataclass(frozen=True)
class Proposal:
    """What a commit proposes."""
    commit: str
    zone: str
    base: str  # the commit of the branch that it comes from
    old: bytes
    new: bytes

    @property
    def identifier(self) -> str:
        """The identifier of its update."""
        return self.commit if len(self.commit) > 60 else f"git-{self.commit}"


@dataclasses.dataclass(frozen=True)
class Answer:
    """What came of a proposal: its status (0 made, 1 refused), in words, and for whom it was sent."""
    status: int
    words: str
    caller: str = ""
    zone: str = ""

    def note(self, identifier: str) -> str:
        """The answer as the note of the commit."""
        fields = {"Office-Answer": self.words, "Office-Zone": self.zone, "Office-Caller": self.caller, "Office-Update": identifier}
        return "".join(f"{name}: {value}\n" for name, value in fields.items() if value)


@dataclasses.dataclass
class Merger:
    """Takes proposals to the office."""
    repository: Repository
    zones: dict[str, str]  # the zones by their files
    callers: dict[str, Office]  # the office as each caller asks it, by the names of pushers or the addresses of committers
    program: str
    kept: Kept
    tell: Callable[[str], None]

    @contextlib.contextmanager
    def turn(self) -> Iterator[None]:
        """One run at a time."""
        file = os.open("merging", os.O_RDWR | os.O_CREAT | os.O_NOFOLLOW | os.O_CLOEXEC, 0o600, dir_fd=self.kept.folder)
        try:
            until = time.monotonic() + TURN
            while True:
                try:
                    fcntl.flock(file, fcntl.LOCK_EX | fcntl.LOCK_NB)
                    break
                except BlockingIOError:
                    if time.monotonic() > until:
                        raise NoReply("another run goes on") from None
                    time.sleep(0.1)
            yield
        finally:
            os.close(file)

    def proposed(self) -> list[str]:
        """The proposals that have no answer yet."""
        said = self.repository.git("for-each-ref", f"--count={REFS}", "--format=%(objectname) %(refname)", PROPOSED, most=1 << 20)
        pairs = [line.split(" ", 1) for line in said.decode("utf-8", "replace").splitlines()]
        return [ref for commit, ref in pairs if REF.fullmatch(ref) and self.repository.note(commit) is None]

    def merge(self, ref: str, pusher: str | None) -> int:
        """Takes a proposal to the office, and writes down what came of it. The status."""
        commit = self.repository.commit_of(ref) if REF.fullmatch(ref) else None
        if commit is None:
            self.tell(f"{printable(ref)}: it is no proposal: {PROPOSED}NAME")
            return 1
        try:
            answer, identifier = self._answer(commit, pusher)
        except (Refused, Unfit, Exceeded) as problem:
            answer, identifier = Answer(1, f"refused: {printable(str(problem), 600)}"), ""
        with contextlib.suppress(Failed):  # the answer stands as it is
            self.repository.set_note(commit, answer.note(identifier))
        words = f"{ref} {commit}: {answer.words}" + (f" for {answer.caller}" if answer.caller else "")
        self._keep(words)
        self.tell(words)
        return answer.status

    def show(self, ref: str) -> str:
        """The items of the update that a proposal would be."""
        commit = self.repository.commit_of(ref) if REF.fullmatch(ref) else None
        if commit is None:
            raise Refused(f"{printable(ref)} is no proposal: {PROPOSED}NAME")
        return self._items(self._proposal(commit)).decode()

    def _answer(self, commit: str, pusher: str | None) -> tuple[Answer, str]:
        name = self._committer(commit) if pusher is None else pusher
        office = self.callers.get(name)
        if office is None:
            raise Refused(f"{printable(name, 100)} is no caller")
        proposal, caller = self._proposal(commit), office.name
        items = self._items(proposal)
        if not items:
            return Answer(0, "nothing to do", caller, proposal.zone), ""
        reply = office.update(proposal.zone, self._body(proposal, items), proposal.identifier)
        if not reply.is_of_office or reply.status == 500:
            raise NoReply(reply.cause())
        words = "NOERROR" if reply.status == 200 else f"refused: {reply.cause()}{self._item(reply, items)}"
        return Answer(0 if reply.status == 200 else 1, words, caller, proposal.zone), proposal.identifier

    def _committer(self, commit: str) -> str:
        return self.repository.git("show", "--no-patch", "--no-notes", "--format=%ce", commit).decode("utf-8", "replace").rstrip("\n")

    def _proposal(self, commit: str) -> Proposal:
        """What a commit proposes: other octets in the file of one zone, and nothing else."""
        try:
            base = self.repository.git("merge-base", commit, self.repository.ref).decode().strip()
        except Failed as problem:
            if problem.status != 1:
                raise
            raise Refused("it does not come from the branch") from None
        said = self.repository.git("diff-tree", "--raw", "-z", "--no-renames", "--no-commit-id", base, commit).decode("utf-8", "replace")
        fields = said.split("\0")
        entries = list(zip(fields[::2], fields[1::2]))
        for entry, path in entries:
            if path not in self.zones or entry.split(" ")[:2] != [":100644", "100644"]:
                raise Refused(f"{printable(path)} is more than another text in the file of a zone")
        if len(entries) != 1:
            raise Refused("it changes more than one zone" if entries else "it changes nothing")
        file = entries[0][1]
        old, new = (self.repository.blob(one, file, LARGEST) for one in (base, commit))
        assert old is not None and new is not None
        return Proposal(commit, self.zones[file], base, old, new)

    def _items(self, proposal: Proposal) -> bytes:
        """The item lines of the update."""
        with tempfile.TemporaryDirectory() as folder:
            paths = [os.path.join(folder, name) for name in ("old", "new")]
            for path, octets in zip(paths, (proposal.old, proposal.new)):
                with open(path, "wb") as file:
                    file.write(octets)
            return self._run(["diff", "--origin", proposal.zone, "--guard", *paths], b"")

    def _body(self, proposal: Proposal, items: bytes) -> dict[str, object]:
        """The update as a body without its identifier."""
        body: dict[str, object] = json.loads(self._run(["request", "--id", proposal.identifier], items))
        if len(json.dumps(body)) > BODY:
            raise Refused("it is more than one update: propose it in parts")
        del body["id"]
        return body

    def _run(self, words: list[str], given: bytes) -> bytes:
        done = running.run([self.program, *words], {"PATH": "/usr/bin:/bin", "LC_ALL": "C"}, given, most=ITEMS, seconds=SECONDS)
        if done.status == 1:
            raise Refused(f"zoneoffice {words[0]}: {printable(done.out.decode('utf-8', 'replace').strip(), 200)} {done.said}".rstrip())
        if done.status:
            raise Failed(f"{self.program} {words[0]}: status {done.status}: {done.said}")
        return done.out

    @staticmethod
    def _item(reply: Reply, items: bytes) -> str:
        """The item that a refusal is about, as a line."""
        if reply.place is None:
            return ""
        lines = items.decode("utf-8", "replace").splitlines()
        is_operation = reply.place[0] == "operations"
        found = [line for line in lines if line.startswith(("add ", "delete-")) == is_operation][reply.place[1]:][:1]
        return f": {printable(found[0])}" if found else ""

    def _keep(self, words: str) -> None:
        """Adds a line to the file of answers."""
        old = (self.kept.read("answers") or b"").decode().splitlines()[1 - KEPT:]
        now = datetime.datetime.now(datetime.timezone.utc).isoformat(timespec="seconds")
        self.kept.write("answers", "".join(f"{line}\n" for line in [*old, f"{now} {words}"]).encode())
