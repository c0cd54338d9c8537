"""The types of terms, as far as they are read off signatures: which record or product a term is of."""

from __future__ import annotations

from collections.abc import Iterator

from weakening import scopes
from weakening.proofs import Data, Lemma, Record
from weakening.scopes import Scope, Type, Variable
from weakening.terms import Binder, Call, Infix, Lambda, Let, Literal, Name, Node, Projection, Row, Tuple

CONSTRUCTORS = ("[]", "None", "Some", "Ok", "Err", "true", "false")  # of the kit
DEEPEST, WIDEST = 24, 30  # how often definitions are unfolded, and how many cases are kept


def stripped(node: Node) -> Node:
    """A term without brackets around it."""
    while isinstance(node, Tuple) and len(node.items) == 1:
        node = node.items[0]
    return node


def unfolded(kind: Type, depth: int = 0) -> list[Type]:
    """What a type may be, with definitions unfolded: each by what stands in front."""
    scope, node, given = kind.scope, stripped(kind.node), kind.given
    if depth > DEEPEST:
        return []
    if isinstance(node, Let):
        inner = Scope(scope)
        bind(inner, node.pattern, [], Type(scope, node.value))
        return unfolded(Type(inner, node.body, given), depth + 1)
    if isinstance(node, Lambda) and given:
        return unfolded(entered(scope, node, given), depth + 1)
    if isinstance(node, Call):
        if isinstance(node.of, Name) and node.of.path == ["if"]:
            return [one for _, arm in node.given[1:] for one in unfolded(Type(scope, arm, given), depth + 1)]
        if isinstance(node.of, Name) and node.of.path == ["¬"]:
            return [Type(scope, scopes.denied(node))]
        return unfolded(Type(scope, node.of, [*(Type(scope, one) for name, one in node.given if name is None), *given]), depth + 1)
    if isinstance(node, (Name, Projection)):
        return named(scope, node, given, depth)
    return [Type(scope, node, given)]


def entered(scope: Scope, node: Lambda, given: list[Type]) -> Type:
    """The body of a λ, with what it is applied to."""
    inner, at = Scope(scope), 0
    for binder in node.binders:
        for pattern in ([Name(binder.start, [name]) for name in binder.names] if isinstance(binder, Binder) else [binder]):
            bind(inner, pattern, [], given[at] if at < len(given) else None)
            at += 1
    return Type(inner, node.body, given[at:])


def bind(scope: Scope, pattern: Node, types: list[Type], value: Type | None = None) -> None:
    """Binds a name, if the pattern is one."""
    pattern = stripped(pattern)
    if isinstance(pattern, Name):
        scope.variables[pattern.path[0]] = Variable(types, value)


def named(scope: Scope, node: Name | Projection, given: list[Type], depth: int) -> list[Type]:
    """What a name, or a field of something, unfolds to."""
    if isinstance(node, Projection):
        return fields_of(Type(scope, node.of), node.path, given, depth)
    variable = scope.variable(node.path[0])
    if variable:
        if variable.value is None:
            return [Type(scope, node, given)]
        return fields_of(variable.value, node.path[1:], given, depth)
    found = scope.find(node.path)
    if found is None:
        return [Type(scope, node, given)]
    if isinstance(found.what, Lemma) and found.what.clauses:
        return list(clauses_of(found, given, depth))[:WIDEST]
    return [Type(found.scope, node, given, found.what)]


def fields_of(value: Type, labels: list[str], given: list[Type], depth: int) -> list[Type]:
    """The value of fields, if it is known by its literal."""
    if not labels:
        return unfolded(Type(value.scope, value.node, [*value.given, *given]), depth + 1)
    for one in unfolded(value, depth + 1):
        if isinstance(one.node, Literal) and labels[0] in one.node.fields:
            return fields_of(Type(one.scope, one.node.fields[labels[0]]), labels[1:], given, depth + 1)
    return []


def clauses_of(found: scopes.Found, given: list[Type], depth: int) -> Iterator[Type]:
    """What the clauses of a definition that may apply unfold to."""
    lifted = sum(len(one.names) for one in found.lifted if not one.is_hidden)
    outer = Scope(found.scope)
    bind_all(outer, [name for one in found.lifted if not one.is_hidden for name in one.names], given)
    for clause in found.what.clauses:
        patterns = [one for one in clause.patterns if not (isinstance(one, Binder) and one.is_hidden)]
        inner, rest = Scope(outer), given[lifted:]
        if len(patterns) <= len(rest) and all(fits(inner, pattern, value, depth) for pattern, value in zip(patterns, rest)):
            inner.block = clause.inner
            yield from unfolded(Type(inner, clause.body, rest[len(patterns):]), depth + 1)


def bind_all(scope: Scope, names: list[str], given: list[Type]) -> None:
    for name, value in zip(names, given):
        scope.variables[name] = Variable([], value)


def fits(scope: Scope, pattern: Node, value: Type, depth: int) -> bool:
    """Whether a value may be of a pattern, whose names are bound to its parts."""
    pattern = stripped(pattern)
    if isinstance(pattern, Name) and not is_constructor(scope, pattern):
        bind(scope, pattern, [], value)
        return True
    if depth > DEEPEST // 2:
        parts: list[Type] | None = None
        title = None
    else:
        title, parts = built(value, depth + 1)
    if title is not None and title != title_of(pattern):
        return False
    for at, part in enumerate(arguments(pattern)):
        fits(scope, part, parts[at], depth) if parts and at < len(parts) else bind_unknown(scope, part)
    return True


def bind_unknown(scope: Scope, pattern: Node) -> None:
    """Binds the names of a pattern to nothing that is known."""
    pattern = stripped(pattern)
    if isinstance(pattern, Name) and not is_constructor(scope, pattern):
        bind(scope, pattern, [])
    for part in arguments(pattern):
        bind_unknown(scope, part)


def arguments(pattern: Node) -> list[Node]:
    """The parts of a pattern."""
    pattern = stripped(pattern)
    if isinstance(pattern, Call):
        return [one for _, one in pattern.given]
    return pattern.terms if isinstance(pattern, Infix) else pattern.items if isinstance(pattern, Tuple) else []


def title_of(pattern: Node) -> str | None:
    """The constructor of a pattern or of a value."""
    pattern = stripped(pattern)
    if isinstance(pattern, Infix):
        return pattern.signs[0]
    if isinstance(pattern, Call):
        return title_of(pattern.of)
    return pattern.path[-1] if isinstance(pattern, Name) else None


def is_constructor(scope: Scope, name: Name) -> bool:
    """Whether a name in a pattern is a constructor: one that a file declares, or brings in and no lemma is called so."""
    if scope.variable(name.path[0]) and len(name.path) == 1 and name.path[0][0].islower():
        return False
    if len(name.path) > 1 or name.path[0] in ("[]", "tt", "zero", "true", "false", "refl") or name.path[0][0].isdigit():
        return True
    found = scope.find(name.path)
    return isinstance(found.what, str) if found else name.path[0][0].isupper() and scope.imported(name.path[0]) is not None


def built(value: Type, depth: int) -> tuple[str | None, list[Type] | None]:
    """The constructor that a value is built by, and its parts, where that can be seen."""
    found = unfolded(value, depth)
    if len(found) != 1:
        return None, None
    scope, node, given = found[0].scope, found[0].node, found[0].given
    if isinstance(node, Infix) and node.signs[0] == "∷":
        return "∷", [Type(scope, node.terms[0]), Type(scope, scopes.later(node))]
    is_known = isinstance(found[0].head, str) or isinstance(node, Name) and node.path[-1] in CONSTRUCTORS
    if isinstance(node, Name) and is_known and not scope.variable(node.path[0]):
        return node.path[-1], given
    return None, None


# Products, sums, functions and records

def items(node: Infix) -> list[tuple[str | None, Node | None]]:
    """The factors of a product, each with the name that it binds."""
    found: list[tuple[str | None, Node | None]] = []
    for term in node.terms:
        rows = binders(term)
        found += [(name, one.type) for one in rows for name in one.names] if rows else [(None, term)]
    return found


def binders(term: Node) -> list[Binder]:
    """The binders that a term is, none if it is something else."""
    if isinstance(term, Binder):
        return [term]
    if isinstance(term, Call) and isinstance(term.of, Binder):
        return [term.of, *(one for _, one in term.given if isinstance(one, Binder))]
    return []


class Telescope:
    """The arguments that a function takes, one after the other."""

    def __init__(self, kind: Type) -> None:
        self.kind, self.rows = kind, []
        self.key: tuple = ()  # of the argument that was taken last

    def next(self) -> tuple[str | None, Type | None] | None:
        """The next explicit argument: its name and its type; None if it takes no more."""
        while not self.rows:
            found = next((one for one in unfolded(self.kind) if isinstance(one.node, Infix) and one.node.signs[0] == "→"), None)
            if found is None:
                return None
            scope = Scope(found.scope)
            for at, term in enumerate(found.node.terms[:-1]):
                rows, key = binders(term), ("premise", *scopes.place(found.scope, found.node), at)
                self.rows += [(name, one.type, one.is_hidden, key) for one in rows for name in one.names] if rows else [(None, term, False, key)]
            self.kind = Type(scope, found.node.terms[-1])
        name, node, is_hidden, self.key = self.rows.pop(0)
        kind = Type(self.kind.scope, node) if node else None
        if is_hidden:
            self.kind.scope.variables[name] = Variable([kind] if kind else [])
            return self.next()
        return name, kind

    def bind(self, name: str | None, types: list[Type], value: Type | None) -> None:
        if name:
            self.kind.scope.variables[name] = Variable(types, value)

    def result(self) -> Type:
        """What is left, as a type."""
        return Type(self.kind.scope, self.kind.node) if not self.rows else self.rest()

    def rest(self) -> Type:
        terms = [Binder(node.start, [name or "_"], node) for name, node, *_ in self.rows]
        return Type(self.kind.scope, scopes.joined("→", [*terms, self.kind.node]))


def field(kind: Type, label: str) -> tuple[tuple | None, Type | None]:
    """A field or a factor of a type: by what it is known, and its type."""
    node = kind.node
    if isinstance(kind.head, Record) and label in kind.head.fields:
        return ("field", kind.head.path, kind.head.name, label), Type(record_scope(kind), kind.head.fields[label])
    if isinstance(node, Row) and label in node.fields:
        return ("row", *scopes.place(kind.scope, node), label), Type(kind.scope, node.fields[label])
    if isinstance(node, Infix) and node.signs[0] == "×" and label.isdigit():
        return factor(kind, int(label))
    if isinstance(node, Infix) and node.signs[0] == "↔" and label in ("0", "1"):
        return ("factor", *scopes.place(kind.scope, node), int(label)), Type(kind.scope, scopes.half(node) if label == "0" else scopes.swapped(node))
    return None, None


def factor(kind: Type, at: int) -> tuple[tuple | None, Type | None]:
    rows = items(kind.node)
    if at >= len(rows) or rows[at][1] is None:
        return None, None
    scope = Scope(kind.scope)
    for name, node in rows[:at]:
        if name:
            scope.variables[name] = Variable([Type(kind.scope, node)] if node else [])
    return ("factor", *scopes.place(kind.scope, kind.node), at), Type(scope, rows[at][1])


def record_scope(kind: Type) -> Scope:
    """Where the types of a record's fields stand: its parameters, and its other fields."""
    scope = Scope(kind.scope)
    scope.variables.update({name: Variable([Type(scope, one.type)] if one.type else []) for one in kind.head.parameters for name in one.names})
    names = [(name, one.type) for one in kind.head.parameters if not one.is_hidden for name in one.names]
    for at, (name, node) in enumerate(names):
        scope.variables[name] = Variable([Type(scope, node)] if node else [], kind.given[at] if at < len(kind.given) else None)
    for name, node in kind.head.fields.items():
        scope.variables[name] = Variable([Type(scope, node)])
    return scope


def of_sum(kind: Type, title: str) -> Type | None:
    """An arm of a sum, or what an option or a result holds."""
    node = kind.node
    if isinstance(node, Infix) and node.signs[0] == "⊎" and title in ("inl", "inr"):
        return Type(kind.scope, node.terms[0] if title == "inl" else scopes.later(node))
    place = {"Some": 0, "Ok": 0, "Err": 1}.get(title)
    return kind.given[place] if place is not None and place < len(kind.given) else None


def of_constructor(kind: Type, title: str) -> list[Type]:
    """The types of the parts of a constructor of a declared type."""
    if not isinstance(kind.head, Data) or title not in kind.head.constructors:
        return []
    scope = Scope(kind.scope)
    bind_all(scope, [name for one in kind.head.parameters if not one.is_hidden for name in one.names], kind.given)
    telescope, found = Telescope(Type(scope, kind.head.constructors[title])), []
    while (row := telescope.next()):
        telescope.bind(row[0], [row[1]] if row[1] else [], None)
        found.append(row[1])
    return found
