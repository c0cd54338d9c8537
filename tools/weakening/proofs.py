"""Files of proofs, read: what they bring in, their records and lemmas, and the lemmas within these."""

from __future__ import annotations

import dataclasses
import functools
import re

from making import antt
from making.files import Wrong, read
from weakening import terms
from weakening.terms import Binder, Node

MARKS = re.compile(r"(?:pattern |unfoldable |abbrev |axiom )*(?:pub )?")
TYPE_LINE = re.compile(r"(?:pub )?(record|data) ")
SKIPPED = re.compile(r"(?:(?:pub )?mod |infix|unfolding |-- |open )")


@dataclasses.dataclass(eq=False)
class Clause:
    """A clause of a lemma: what is on its left, what it says, and the lemmas below it."""
    patterns: list[Node]
    body: Node
    inner: Block


@dataclasses.dataclass(eq=False)
class Lemma:
    """A lemma or a definition that is a function."""
    name: str
    path: str
    line: int
    type: Node
    clauses: list[Clause]


@dataclasses.dataclass(eq=False)
class Record:
    """A record: its parameters and the types of its fields."""
    name: str
    path: str
    line: int
    parameters: list[Binder]
    fields: dict[str, Node]


@dataclasses.dataclass(eq=False)
class Data:
    """A type by its constructors, each with its type."""
    name: str
    path: str
    line: int
    parameters: list[Binder]
    constructors: dict[str, Node]


@dataclasses.dataclass(eq=False)
class Block:
    """What is declared in one place, under the parameters of a module if it is one."""
    path: str
    parameters: list[Binder] = dataclasses.field(default_factory=list)
    margin: int = 0  # how far its lines stand in
    imports: dict[str, antt.Import] = dataclasses.field(default_factory=dict)
    lemmas: dict[str, Lemma] = dataclasses.field(default_factory=dict)
    types: dict[str, Record | Data] = dataclasses.field(default_factory=dict)
    modules: list[tuple[str, Block]] = dataclasses.field(default_factory=list)
    unread: list[str] = dataclasses.field(default_factory=list)

    def read(self, lines: list[str], first: int) -> Block:
        """Reads what begins in the first column of these lines."""
        for line, _, chunk in antt.chunks(lines, first):
            try:
                self.add(line, chunk)
            except Wrong as wrong:
                self.unread.append(str(wrong))
        return self

    def add(self, line: int, chunk: list[str]) -> None:
        head = chunk[0]
        if head.startswith(("use ", "pub use ")):
            self.imports.update((one.name, one) for one in antt.imports(self.path, "\n".join(chunk), line))
        elif re.match(r"(?:pub )?module ", head):
            self.add_module(line, chunk)
        elif TYPE_LINE.match(head):
            self.add_type(line, chunk)
        elif not SKIPPED.match(head):
            self.add_function(line, chunk)

    def add_module(self, line: int, chunk: list[str]) -> None:
        """A module, whose first lines up to `where` have its parameters."""
        end = next(at for at, text in enumerate(chunk) if text.rstrip().endswith("where"))
        found = terms.tokens("\n".join(chunk[:end + 1]), line, self.margin)
        found = found[found[0].text == "pub":]
        lines, margin = dedented(chunk[end + 1:])
        inner = Block(self.path, binders(found[2:-1], self.path), self.margin + margin)
        self.modules.append((found[1].text, inner.read(lines, line + end + 1)))

    def add_type(self, line: int, chunk: list[str]) -> None:
        end = next(at for at, text in enumerate(chunk) if text.rstrip().endswith("where"))
        head, _ = antt.cut(terms.tokens("\n".join(chunk[:end + 1]), line, self.margin), ":")
        head = head[head[0].text == "pub":]
        kind = Record if head[0].text == "record" else Data
        rows = dict(entries(self.path, chunk[end + 1:], line + end + 1, self.margin))
        self.types[head[1].text] = kind(head[1].text, self.path, line, binders(head[2:], self.path), rows)

    def add_function(self, line: int, chunk: list[str]) -> None:
        """A signature, or a clause of the lemma whose signature stands before it."""
        marks = MARKS.match(chunk[0])[0]
        body, inner = without_locals(chunk)
        found = terms.tokens("\n".join(body), line, self.margin)
        found = found[len(marks.split()):]
        left, right = antt.cut(found, "=")
        name = found[0].text.strip("«»")
        if marks or not right:
            _, kind = antt.cut(found, ":")
            self.lemmas[name] = Lemma(name, self.path, line, terms.parsed(kind, self.path), [])
            return
        owner = self.owner(left)
        if owner:
            lines, margin = dedented(inner)
            block = Block(self.path, [], self.margin + margin).read(lines, line + len(chunk) - len(inner))
            words = (owner.name, *antt.parts_of(owner.name))
            owner.clauses.append(Clause(patterns([one for one in left if one.text not in words], self.path), terms.parsed(right, self.path), block))
            self.unread += block.unread

    def owner(self, left: list[antt.Token]) -> Lemma | None:
        """The function that a clause is of, by what is on its left: its name first, or its words as an operator."""
        named = self.lemmas.get(left[0].text.strip("«»"))
        if named:
            return named
        texts = {one.text for one in left}
        return next((one for one in self.lemmas.values() if texts & set(antt.parts_of(one.name))), None)


def entries(path: str, lines: list[str], first: int, inset: int) -> list[tuple[str, Node]]:
    """The fields of a record with their types."""
    found: list[tuple[int, list[str]]] = []
    for at, text in enumerate(lines, first):
        if re.match(r"  (?!--)[^ ]", text):
            found.append((at, [text]))
        elif found:
            found[-1][1].append(text)
    rows = []
    for at, texts in found:
        names, kind = antt.cut(terms.tokens("\n".join(texts), at, inset), ":")
        rows += [(one.text.strip("«»"), terms.parsed(kind, path)) for one in names if one.text != "pub"]
    return rows


def binders(found: list[antt.Token], path: str) -> list[Binder]:
    """The binders of a module or of a record, one after the other."""
    return [one for one in patterns(found, path) if isinstance(one, Binder)]


def patterns(found: list[antt.Token], path: str) -> list[Node]:
    """Terms without operators, one after the other, as they stand on the left of a clause."""
    reader, rows = terms.Reader(found, path), []
    while reader.at < len(found):
        if found[reader.at].text in terms.infixes():
            reader.take()
        else:
            rows.append(reader.atom())
    return rows


def dedented(lines: list[str]) -> tuple[list[str], int]:
    """Lines without the margin that all have, and that margin."""
    margin = min((len(line) - len(line.lstrip()) for line in lines if line.strip()), default=0)
    return [line[margin:] for line in lines], margin


def without_locals(chunk: list[str]) -> tuple[list[str], list[str]]:
    """The lines of a clause up to its `where`, and those behind it."""
    for at, line in enumerate(chunk):
        text = line.partition(" --")[0].rstrip()
        if text.strip() == "where" or text.endswith(" where"):
            return [*chunk[:at], text[:-len("where")]], chunk[at + 1:]
    return chunk, []


@functools.cache
def proof(path: str) -> Block:
    """A file of proofs."""
    return Block(path).read(read(path).split("\n"), 1)
