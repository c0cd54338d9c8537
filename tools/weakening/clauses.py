"""The clauses of the definitions that the top contracts reach: fields, factors, cases and premises."""

from __future__ import annotations

import dataclasses
import functools
from collections.abc import Iterator

from making import antt, believe
from weakening import scopes, terms, typing
from weakening.proofs import Block, Data, Lemma, Record
from weakening.repository import crate_of
from weakening.scopes import Scope, Type
from weakening.terms import Binder, Call, Infix, Lambda, Let, Name, Node, Row, Tuple

# names of the kit that are types of values, and no statements
COMPARED = frozenset(("≡", "≢", "<", "≤", "≤ℤ", "<ℤ"))
VALUES = set("ℕ ℤ List Option Result Bool Unit Vec String Box Float".split())


@dataclasses.dataclass(eq=False)
class Clause:
    """A clause: what it is of, its name there, what it says, and the part of a proof that reads it."""
    crate: str
    path: str
    line: int
    definition: str
    name: str
    kind: str  # field, factor, case, premise, value (a field or factor that is no statement)
    node: Node
    key: tuple
    sign: str  # the operator of an equation or a comparison
    beside: tuple[Node, ...] = ()  # the other parts of the same record or product
    bound: str = ""  # the name by which these speak of it
    is_constructor: bool = False

    def title(self) -> str:
        return f"{self.definition}.{self.name}" if self.name else self.definition

    def text(self) -> str:
        """What it says, in one line."""
        return text_of(self.path, self.node)


def text_of(path: str, node: Node) -> str:
    lines = scopes.read_lines(path)[node.start.line - 1:node.end.line]
    lines[-1] = lines[-1][:node.end.column - 1 + len(node.end.text)]
    lines[0] = lines[0][node.start.column - 1:]
    return " ".join(" ".join(line.partition(" --")[0].split()) for line in lines)


# Statements and values

def is_statement(kind: Type, depth: int = 0) -> bool:
    """Whether a type is a statement, and not the type of values."""
    if depth > 12:
        return False
    return any(says(one, depth) for one in typing.unfolded(kind)[:4])


def says(kind: Type, depth: int) -> bool:
    node = typing.stripped(kind.node)
    if isinstance(node, Infix):
        return says_infix(kind, node, depth)
    if isinstance(node, Row):
        return any(is_statement(Type(kind.scope, one), depth + 1) for one in node.fields.values())
    if isinstance(kind.head, Record):
        return is_fact(kind.head.name) if kind.head.path.startswith("/") else is_statement_record(kind.head)
    if isinstance(kind.head, Data):
        return is_fact(kind.head.name) if kind.head.path.startswith("/") else is_statement_data(kind.head)
    if isinstance(node, Name):
        return says_name(kind, node)
    return False


def says_infix(kind: Type, node: Infix, depth: int) -> bool:
    sign = node.signs[0]
    if sign == "→":
        return is_statement(Type(bound(kind.scope, node.terms[:-1]), node.terms[-1]), depth + 1)
    if sign == "×":
        return any(is_statement(Type(bound(kind.scope, node.terms), one), depth + 1) for _, one in typing.items(node) if one)
    if sign == "⊎":
        return any(is_statement(Type(kind.scope, one), depth + 1) for one in node.terms)
    return sign == "↔" or bool(COMPARED & set(node.signs))


def says_name(kind: Type, node: Name) -> bool:
    """Of names that do not unfold: those of the kit and of ghosts, by their first letter; a variable for a type is none."""
    word, variable = node.path[-1], kind.scope.variable(node.path[0])
    if variable:  # a statement that a definition is given has a small letter, a type of values a capital
        found = [one.node for one in labelled(variable.types, node.path[1:])]
        return any(codomain(one) == "Type" and (word[0].islower() or isinstance(typing.stripped(one), Infix)) for one in found)
    if word in VALUES or word == "Type":
        return False
    imports = kind.scope.imported(node.path[0])
    if imports and ".declared." in imports.module:
        return False
    return word in ("¬", "⊥", "⊤") or word[0].isupper() or bool(kind.given)


def labelled(types: list[Type], labels: list[str]) -> list[Type]:
    """The types of what labels take of something."""
    for label in labels:
        found = [typing.field(one, label)[1] for kind in types for one in typing.unfolded(kind)]
        types = [one for one in found if one]
    return types


def codomain(node: Node) -> str:
    """The word in front of what a function gives."""
    node = typing.stripped(node)
    if isinstance(node, Infix) and node.signs[0] == "→":
        return codomain(node.terms[-1])
    if isinstance(node, Call):
        return codomain(node.of)
    return node.path[0] if isinstance(node, Name) else ""


def bound(scope: Scope, rows: list[Node]) -> Scope:
    """A scope in which binders have their types."""
    inner = Scope(scope)
    for term in rows:
        for one in typing.binders(term):
            for name in one.names:
                inner.variables[name] = scopes.Variable([Type(inner, one.type)] if one.type else [])
    return inner


def is_fact(name: str) -> bool:
    """Whether a record of the kit is a statement, by its name."""
    return name.startswith(("Is", "Are", "Has"))


@functools.cache
def is_statement_record(record: Record) -> bool:
    scope = record_scope(record)
    return any(is_statement(Type(scope, node)) for node in record.fields.values())


@functools.cache
def is_statement_data(kind: Data) -> bool:
    """A type of cases is a statement if some case holds one."""
    scope = scopes.file_scope(kind.path)
    for node in kind.constructors.values():
        node = typing.stripped(node)
        if isinstance(node, Infix) and node.signs[0] == "→":
            inner = bound(scope, node.terms)
            rows = [one.type if isinstance(one, Binder) else one for term in node.terms[:-1] for one in (typing.binders(term) or [term])]
            if any(one is not None and not mentions(one, kind.name) and is_statement(Type(inner, one)) for one in rows):
                return True
    return False


def mentions(node: Node, name: str) -> bool:
    return any(isinstance(one, Name) and one.path[0] == name for one in terms.walk(node))


def record_scope(record: Record) -> Scope:
    scope = scopes.file_scope(record.path)
    for block, inner in modules(scope):
        if record.name in block.types:
            scope = inner
    return typing.record_scope(Type(scope, Tuple.__new__(Tuple), [], record))


def modules(scope: Scope) -> Iterator[tuple[Block, Scope]]:
    for _, block in scope.block.modules:
        inner = scopes.inner_scope(block, scope)
        yield block, inner
        yield from modules(inner)


# The clauses of a definition

class Lister:
    """Lists the clauses of one definition."""

    def __init__(self, path: str, definition: str) -> None:
        self.path, self.definition = path, definition
        self.found: list[Clause] = []

    def add(self, name: str, kind: str, node: Node, key: tuple, beside: tuple[Node, ...] = (), bound: str = "") -> None:
        inner = typing.stripped(node)
        signs = inner.signs if isinstance(inner, Infix) else []
        sign = next((one for one in signs if one in COMPARED), signs[0] if signs else "")
        self.found.append(Clause(crate_of(self.path), self.path, node.start.line, self.definition, name, kind, node, key, sign, beside, bound))

    def record(self, record: Record) -> None:
        scope = record_scope(record)
        for name, node in record.fields.items():
            is_said = is_statement(Type(scope, node))
            beside = tuple(other for label, other in record.fields.items() if label != name)
            self.add(name, "field" if is_said else "value", node, ("field", record.path, record.name, name), beside, name)
            if is_said:
                self.inside(scope, node, name)

    def data(self, kind: Data) -> None:
        for name, node in kind.constructors.items():
            self.add(name, "case", node, ("case", kind.path, name))
            self.found[-1].is_constructor = True

    def function(self, scope: Scope, lemma: Lemma) -> None:
        """The cases of a function, if there are several, and what they say if they are statements."""
        is_said = codomain(lemma.type) == "Type" and self.is_said(scope, lemma)
        for at, clause in enumerate(lemma.clauses):
            name = str(at + 1) if len(lemma.clauses) > 1 else ""
            inner = Scope(scope)
            inner.block = clause.inner
            telescope = typing.Telescope(Type(scope, lemma.type))
            for pattern in clause.patterns:
                row = None if isinstance(pattern, Binder) and pattern.is_hidden else telescope.next()
                typing.bind_unknown(inner, pattern) if row is None or row[1] is None else typing.bind(inner, pattern, [row[1]])
            if name:
                self.add(name, "case", clause.body, ("case", lemma.path, lemma.name))
            if is_said:
                self.inside(inner, clause.body, name)

    @staticmethod
    def is_said(scope: Scope, lemma: Lemma) -> bool:
        return any(is_statement(Type(scope, clause.body)) for clause in lemma.clauses)

    def inside(self, scope: Scope, node: Node, name: str) -> None:
        """The factors and premises in a statement."""
        node = typing.stripped(node)
        if isinstance(node, Infix):
            self.infix(scope, node, name)
        elif isinstance(node, Lambda):
            self.inside(bound(scope, node.binders), node.body, name)
        elif isinstance(node, Let):
            self.inside(scope, node.body, name)
        elif isinstance(node, Call) and not (isinstance(node.of, Name) and node.of.path == ["¬"]):
            for at, (_, one) in enumerate(node.given):
                inner = typing.stripped(one)
                is_part = isinstance(inner, Lambda) or isinstance(inner, Infix) and inner.signs[0] in ("×", "→", "↔")
                if is_part and is_statement_part(scope, inner):
                    self.inside(scope, inner, f"{name}/{at}" if name else f"/{at}")

    def infix(self, scope: Scope, node: Infix, name: str) -> None:
        sign = node.signs[0]
        if sign == "×":
            self.factors(scope, node, name)
        elif sign == "↔":
            for at, one in enumerate(node.terms):
                self.add(f"{name}.{at}".lstrip("."), "factor", one, ("factor", *scopes.place(scope, node), at), (node.terms[1 - at],))
        elif sign == "→":
            self.premises(scope, node, name)
        elif sign == "⊎":
            for at, one in enumerate(node.terms):
                self.inside(scope, one, f"{name}|{at}" if name else f"|{at}")

    def factors(self, scope: Scope, node: Infix, name: str) -> None:
        inner = bound(scope, node.terms)
        for at, (title, one) in enumerate(typing.items(node)):
            if one is None:
                continue
            is_said = is_statement(Type(inner, one))
            path = f"{name}.{at}".lstrip(".")
            beside = tuple(other for place, (_, other) in enumerate(typing.items(node)) if place != at and other is not None)
            self.add(path, "factor" if is_said else "value", one, ("factor", *scopes.place(scope, node), at), beside, title or "")
            if is_said:
                self.inside(inner, one, path)

    def premises(self, scope: Scope, node: Infix, name: str) -> None:
        inner = bound(scope, node.terms)
        for at, term in enumerate(node.terms[:-1]):
            rows = typing.binders(term)
            for one in [one.type for one in rows] if rows else [term]:
                if one is not None and is_statement(Type(inner, one)):
                    self.add(f"{name}→{at}", "premise", one, ("premise", *scopes.place(scope, node), at), (node.terms[-1],))
        self.inside(inner, node.terms[-1], name)


def is_statement_part(scope: Scope, node: Node) -> bool:
    while isinstance(node, Lambda):
        scope, node = bound(scope, node.binders), typing.stripped(node.body)
    return is_statement(Type(scope, node))


def clauses_of(one: antt.Declaration) -> list[Clause]:
    """The clauses of a definition."""
    scope = scopes.file_scope(one.spec.path)
    found = scopes.declared(scope.block, [one.name], scope)
    lister = Lister(one.spec.path, one.name)
    if found is None:
        return []
    if isinstance(found.what, Record):
        lister.record(found.what)
    elif isinstance(found.what, Data):
        lister.data(found.what)
    elif isinstance(found.what, Lemma):
        lister.function(found.scope, found.what)
    return lister.found


@functools.cache
def clauses() -> list[Clause]:
    """The clauses of all definitions that the top contracts reach, by crate, file and line."""
    found = [clause for one in believe.reached().definitions for clause in clauses_of(one)]
    return sorted(found, key=lambda one: (one.path, one.line, one.name))
