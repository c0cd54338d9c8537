"""Reads named.conf (BIND 9.18): words, quotes, braces, comments of three kinds, and include."""

import dataclasses
import glob
import os
import re
import stat

from office_asking import printable

MOST = 16 << 20  # octets of all files
FILES = 1000
DEPTH = 50  # of braces, and of files that include others
TOKEN = re.compile(r'(?P<space>\s+|//[^\n]*|\#[^\n]*|/\*.*?\*/)|"(?P<quoted>(?:[^"\\]|\\.)*)"|(?P<mark>[{};!])'
                   r"|(?P<word>(?:[^\s{};!\"#/]|/(?![/*]))+)", re.S)
HOLDERS = {"options", "view", "zone"}  # what may have an include, besides a file


class Wrong(Exception):
    """A file is not right, or more than is read."""


@dataclasses.dataclass
class Statement:
    """A statement: its words, and those of its blocks, each of which is a list of statements."""
    where: str  # FILE:LINE
    words: list[str] = dataclasses.field(default_factory=list)
    blocks: list[list["Statement"]] = dataclasses.field(default_factory=list)
    text: str = ""  # the words as they are written, for people

    def word(self, number: int) -> str:
        """A word, or nothing."""
        return self.words[number] if number < len(self.words) else ""

    def block(self) -> list["Statement"]:
        """The statements of its first block."""
        return self.blocks[0] if self.blocks else []


class _State:
    """How far a file was read: the statement that is being read, and those around it with the lists that they are in."""

    def __init__(self, path: str, into: list[Statement]) -> None:
        self.path, self.line, self.into, self.statement = path, 1, into, Statement("")
        self.around: list[tuple[Statement, list[Statement]]] = []

    def where(self) -> str:
        """The place of what is read now."""
        return f"{self.path}:{self.line}"

    def finished(self) -> tuple[Statement | None, Statement | None]:
        """The statement that a semicolon ends, unless it is empty, and the one around it."""
        statement, self.statement = self.statement, Statement("")
        return statement if statement.text else None, self.around[-1][0] if self.around else None

    def take(self, found: re.Match[str]) -> None:
        """Takes a word or a brace in."""
        self.statement.where = self.statement.where or self.where()
        if found["mark"] == "{":
            self._open()
        elif found["mark"] == "}":
            self._close()
        else:
            quoted = found["quoted"]
            self.statement.words.append(quoted.replace('\\"', '"') if quoted is not None else found[0])
            self.statement.text += (" " if self.statement.text else "") + found[0]

    def _open(self) -> None:
        self.statement.text += (" " if self.statement.text else "") + "{ "
        self.around.append((self.statement, self.into))
        self.into = []
        self.statement.blocks.append(self.into)
        self.statement = Statement("")
        if len(self.around) > DEPTH:
            raise Wrong(f"{printable(self.where())}: more than {DEPTH} braces are open")

    def _close(self) -> None:
        if self.statement.text or not self.around:
            raise Wrong(f"{printable(self.where())}: a semicolon is missing before }}, or }} is one too many")
        self.statement, self.into = self.around.pop()
        self.statement.text += " ".join(f"{one.text};" for one in self.statement.blocks[-1]) + " }"


class _Reader:
    """Reads a file and what it includes, within bounds for all of them."""

    def __init__(self) -> None:
        self.octets, self.files, self.folder = 0, 0, ""

    def file(self, path: str, into: list[Statement], inside: int) -> None:
        """Reads a file into a list of statements."""
        self.files += 1
        if self.files > FILES or inside > DEPTH:
            raise Wrong(f"{printable(path)}: more than {FILES} files, or {DEPTH} that include each other")
        self.text(self._content(path), path, into, inside)

    def _content(self, path: str) -> str:
        try:
            handle = os.open(path, os.O_RDONLY | os.O_NONBLOCK | os.O_CLOEXEC)
        except (OSError, ValueError) as error:
            raise Wrong(f"{printable(path)}: {getattr(error, 'strerror', None) or error}") from None
        with open(handle, "rb") as file:
            if not stat.S_ISREG(os.fstat(handle).st_mode):
                raise Wrong(f"{printable(path)} is not a file")
            octets = file.read(MOST + 1 - self.octets)
        self.octets += len(octets)
        if self.octets > MOST:
            raise Wrong(f"{printable(path)}: the files have more than {MOST} octets")
        return octets.decode("latin-1")

    def text(self, text: str, path: str, into: list[Statement], inside: int) -> None:
        """Reads the text of a file."""
        state = _State(path, into)
        place = 0
        while place < len(text):
            found = TOKEN.match(text, place)
            if not found:
                raise Wrong(f"{printable(state.where())}: a quote or a comment has no end")
            if found["mark"] == ";":
                statement, outer = state.finished()
                if statement:
                    self._end(statement, state.into, outer, inside)
            elif found["space"] is None:
                state.take(found)
            state.line += text.count("\n", place, found.end())
            place = found.end()
        if state.statement.text or state.around:
            raise Wrong(f"{printable(state.statement.where or state.around[-1][0].where)}: the statement has no end")

    def _end(self, statement: Statement, into: list[Statement], outer: Statement | None, inside: int) -> None:
        """Takes a statement in, or the files that it includes."""
        holder = outer.word(0) if outer else ""
        if statement.word(0) == "directory" and holder == "options":
            self.folder = statement.word(1)
        if statement.word(0) != "include" or statement.blocks or (outer and holder not in HOLDERS):
            into.append(statement)
            return
        wanted = os.path.join(self.folder, statement.word(1))
        paths = sorted(glob.glob(wanted)) if re.search(r"[*?\[]", wanted) else [wanted]
        if not paths or len(statement.words) != 2:
            raise Wrong(f"{printable(statement.where)}: there is no file {printable(wanted)}")
        for path in paths:
            self.file(path, into, inside + 1)


def read(paths: list[str]) -> list[Statement]:
    """The statements of some files, with those of the files that they include in their places."""
    reader, found = _Reader(), list[Statement]()
    for path in paths:
        reader.file(path, found, 0)
    return found
