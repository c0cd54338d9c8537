"""Who reads the parts of definitions: each projection, each pattern, and each literal, by the type of what it is taken from."""

from __future__ import annotations

import collections
import dataclasses
import functools

from making import antt
from weakening import contracts, facts, scopes, terms, typing
from weakening.proofs import Block, Clause, Data, Lemma, Record
from weakening.scopes import Scope, Type, Variable
from weakening.terms import Binder, Call, Cases, Infix, Lambda, Let, Literal, Name, Node, Projection, Row, Tuple

TACTICS = {"cc": "≡≢", "omega": "≡≢<≤", "grind": "≡≢<≤", "search": "", "assumption": ""}  # with the signs that each reads, none for all
REWRITES = {"rw", "simp", "rw⁻¹", "grw"}


def by_use() -> dict[str, list[str]]:
    return collections.defaultdict(list)


@dataclasses.dataclass
class Uses:
    """What was found: by part, how it is used and where; and the labels that were taken of what has no known type."""
    parts: dict[tuple, dict[str, list[str]]] = dataclasses.field(default_factory=lambda: collections.defaultdict(by_use))
    untyped: dict[str, list[str]] = dataclasses.field(default_factory=lambda: collections.defaultdict(list))
    named: dict[tuple[str, str], set[str]] = dataclasses.field(default_factory=lambda: collections.defaultdict(set))
    typed: int = 0


FOREIGN = Type(Scope(), Name(antt.Token("", 0, 0), ["foreign"]))  # the type of what is of the sources or the kit


class Walker:
    """Walks the terms of a file."""

    def __init__(self, path: str, uses: Uses) -> None:
        self.path, self.uses = path, uses
        self.passing: tuple | None = None
        self.made: list[tuple[tuple, Node]] = []  # the terms by which parts are made, in the order of the file

    def note(self, key: tuple, how: str, node: Node) -> None:
        self.uses.parts[key][how].append(f"{self.path}:{node.start.line}")

    # Blocks

    def block(self, scope: Scope) -> None:
        for kind in scope.block.types.values():
            self.fields(scope, kind)
        for lemma in scope.block.lemmas.values():
            self.visit(scope, lemma.type, [])
            for clause in lemma.clauses:
                self.clause(scope, lemma, clause)
        for _, inner in scope.block.modules:
            self.block(scopes.inner_scope(inner, scope))

    def fields(self, scope: Scope, kind: Record | Data) -> None:
        inner = Scope(scope)
        for binder in kind.parameters:
            self.binder(inner, binder, [])
        for name, node in (kind.fields if isinstance(kind, Record) else kind.constructors).items():
            self.visit(inner, node, [])
            inner.variables[name] = Variable([Type(inner, node)])

    def clause(self, scope: Scope, lemma: Lemma, clause: Clause) -> None:
        """Walks a clause of a lemma, whose arguments have the types that the lemma says."""
        inner, telescope = Scope(scope), typing.Telescope(Type(scope, lemma.type))
        is_answer = isinstance(lemma.type, Name) and lemma.type.path[0] == "goal"
        for pattern in clause.patterns:
            if isinstance(pattern, Binder) and pattern.is_hidden:
                self.hidden(inner, telescope, pattern)
                continue
            row = telescope.next()
            self.pattern(inner, pattern, [row[1]] if row and row[1] else [])
            if row:
                self.premise(telescope.key, pattern, [clause.body, *bodies(clause.inner)])
                telescope.bind(row[0], [row[1]] if row[1] else [], Type(inner, pattern))
            elif is_answer and isinstance(pattern, Name) and pattern.path[0] in ("c", "l", "g"):
                inner.variables[pattern.path[0]].is_context = True
        inner.block = clause.inner
        self.block(inner)
        result = facts.wanted(self.path, lemma.name) if is_answer else [telescope.result()]
        self.opened(self.visit(inner, clause.body, result), result, clause.body)

    @staticmethod
    def hidden(scope: Scope, telescope: typing.Telescope, pattern: Binder) -> None:
        for name in pattern.names:
            known = telescope.kind.scope.variable(name)
            scope.variables[name] = Variable(known.types if known else [])

    def premise(self, key: tuple, pattern: Node, where: list[Node]) -> None:
        """Notes whether a proof of a statement uses a premise of it."""
        pattern = typing.stripped(pattern)
        named = {one.path[0] for body in where for one in terms.walk(body) if isinstance(one, Name)}
        used = not isinstance(pattern, Name) or bool(named & {pattern.path[0], "hlevel", "first_of", *TACTICS})
        self.note(key, "used" if used else "ignored", pattern)

    # Patterns

    def pattern(self, scope: Scope, pattern: Node, types: list[Type]) -> None:
        """Binds the names of a pattern, and notes which parts it takes."""
        pattern = typing.stripped(pattern)
        if isinstance(pattern, Binder):
            for name in pattern.names:
                scope.variables[name] = Variable([Type(scope, pattern.type)] if pattern.type else types)
        elif isinstance(pattern, Name):
            if not typing.is_constructor(scope, pattern):
                scope.variables[pattern.path[0]] = Variable(types)
        elif isinstance(pattern, Tuple):
            for at, part in enumerate(pattern.items):
                is_left = isinstance(part, Name) and part.path[0].startswith("_")
                self.pattern(scope, part, [] if is_left else self.take(types, str(at), part))
        elif isinstance(pattern, Literal):
            for label, part in pattern.fields.items():
                self.pattern(scope, part, self.take(types, label, part))
        else:
            self.built(scope, pattern, types)

    def built(self, scope: Scope, pattern: Node, types: list[Type]) -> None:
        """A constructor with patterns for its parts."""
        title, rows = typing.title_of(pattern), typing.arguments(pattern)
        head = pattern.of if isinstance(pattern, Call) else pattern
        found = scope.find(head.path) if isinstance(head, Name) else None
        if found and isinstance(found.what, str):
            self.uses.named[(found.scope.path(), found.what)].add(self.path)
        known = self.unfolded(types)
        for at, part in enumerate(rows):
            found = []
            for one in known:
                arm = typing.of_sum(one, title)
                inner = typing.of_constructor(one, title)
                if isinstance(pattern, Infix) and title == "∷" and one.given:
                    found += [one.given[0]] if at == 0 else [one]
                elif arm:
                    found.append(arm)
                elif at < len(inner) and inner[at]:
                    found.append(inner[at])
            self.pattern(scope, part, found)

    # What is taken

    @staticmethod
    def unfolded(types: list[Type]) -> list[Type]:
        found = [one for kind in types for one in typing.unfolded(kind)]
        return found[:typing.WIDEST]

    def take(self, types: list[Type], label: str, node: Node) -> list[Type]:
        """What a label takes of a term that may be of these types; it is noted for each of these that has it."""
        known, found = self.unfolded(types), []
        for one in known:
            key, kind = typing.field(one, label)
            if key:
                self.note(key, "passed" if key == self.passing else "read", node)
            if kind:
                found.append(kind)
        if found:
            self.uses.typed += 1
        elif any(self.is_foreign(one) for one in known):
            return [FOREIGN]
        else:
            self.uses.untyped[label].append(f"{self.path}:{node.start.line}")
        return found

    @staticmethod
    def is_foreign(kind: Type) -> bool:
        """Whether a type is of the kit or of the sources, whose fields are no parts of definitions."""
        if kind is FOREIGN or isinstance(kind.head, (Data, str)):
            return True
        return kind.head is None and isinstance(kind.node, Name) and kind.scope.variable(kind.node.path[0]) is None

    def taken(self, types: list[Type], labels: list[str], node: Node) -> list[Type]:
        for label in labels:
            types = self.take(types, label, node)
        return types

    # Terms

    def visit(self, scope: Scope, node: Node, wanted: list[Type]) -> list[Type]:
        """Walks a term of which these types are wanted, and says which it may have."""
        node = typing.stripped(node)
        passing, self.passing = self.passing, None
        if isinstance(node, (Name, Projection)):
            self.passing = passing
        return WAYS[type(node)](self, scope, node, wanted)

    def name(self, scope: Scope, node: Name, wanted: list[Type]) -> list[Type]:
        """A variable, what is known of a function, a tactic, or something declared, with the labels behind it."""
        variable = scope.variable(node.path[0])
        if variable and (variable.is_context or not variable.types and facts.KINDS & set(node.path)):
            return self.known(node)
        if variable:
            return self.taken(variable.types, node.path[1:], node)
        if node.path[0] in TACTICS:
            self.tactic(scope, node)
            return []
        found = scope.find(node.path)
        if found is None:
            return []
        if isinstance(found.what, str):
            self.uses.named[(found.scope.path(), found.what)].add(self.path)
            return []
        self.uses.named[(found.what.path, found.what.name)].add(self.path)
        if not isinstance(found.what, Lemma):
            return []
        return self.taken([lifted(found)], found.labels, node)

    def projection(self, scope: Scope, node: Projection, wanted: list[Type]) -> list[Type]:
        passing, self.passing = self.passing, None
        types = self.visit(scope, node.of, [])
        types = self.taken(types, node.path[:-1], node)
        self.passing = passing
        return self.taken(types, node.path[-1:], node)

    def call(self, scope: Scope, node: Call, wanted: list[Type]) -> list[Type]:
        head = typing.stripped(node.of)
        word = head.path[0] if isinstance(head, Name) else ""
        given = [one for _, one in node.given]
        if word in REWRITES and scope.variable(word) is None:
            return self.rewritten(scope, given, wanted)
        if word in ("subst", "if", "absurd"):
            return self.replaced(scope, word, given, wanted)
        if word in ("inl", "inr") and len(given) == 1:
            arms = [typing.of_sum(one, word) for one in self.unfolded(wanted)]
            self.visit(scope, given[0], [one for one in arms if one])
            return []
        types = self.visit(scope, node.of, [])
        return self.applied(scope, types, node.given)

    def rewritten(self, scope: Scope, given: list[Node], wanted: list[Type]) -> list[Type]:
        """What is left of a goal after a rewriting, or a fact that is rewritten, which is still of the same shape."""
        at = next((at for at, one in enumerate(given) if isinstance(one, Name) and one.path == ["at"]), None)
        if at is None:
            for one in given[:-1]:
                self.visit(scope, one, [])
            return self.visit(scope, given[-1], wanted) if given else []
        for one in given[:at]:
            self.visit(scope, one, [])
        types = self.visit(scope, given[at + 1], []) if at + 1 < len(given) else []
        return self.applied(scope, types, [(None, one) for one in given[at + 2:]])

    def replaced(self, scope: Scope, word: str, given: list[Node], wanted: list[Type]) -> list[Type]:
        for one in given:
            self.visit(scope, one, wanted if word == "if" else [])
        motive = typing.stripped(given[0]) if word == "subst" and len(given) == 3 else None
        if isinstance(motive, Lambda):
            return [typing.entered(scope, motive, [])]
        return [Type(scope, motive, [Type(scope, given[2])])] if isinstance(motive, Name) else []

    def opened(self, types: list[Type], wanted: list[Type], node: Node) -> None:
        """Notes which definitions are unfolded where terms of some types are taken for those of others."""
        ends = {heading(one) for one in wanted}
        for one in types:
            heads = heading(one)
            if heads and heads not in ends:
                self.note(("opened", *heads), "read", node)

    def applied(self, scope: Scope, types: list[Type], given: list[tuple[str | None, Node]]) -> list[Type]:
        """A term of some type applied to others."""
        telescope = next((typing.Telescope(one) for one in types if self.is_function(one)), None)
        for name, one in given:
            row = telescope.next() if telescope and name is None else None
            found = self.visit(scope, one, [row[1]] if row and row[1] else [])
            if telescope is None or row and row[1]:
                self.opened(found, [row[1]] if row else [], one)
            if row:
                telescope.bind(row[0], found or ([row[1]] if row[1] else []), Type(scope, one))
        return [telescope.result()] if telescope else []

    @staticmethod
    def is_function(kind: Type) -> bool:
        return any(isinstance(one.node, Infix) and one.node.signs[0] == "→" for one in typing.unfolded(kind))

    def infix(self, scope: Scope, node: Infix, wanted: list[Type]) -> list[Type]:
        inner = Scope(scope) if node.signs[0] in ("→", "×") else scope
        for term in node.terms:
            for one in typing.binders(term) or [term]:
                self.opened(self.visit(inner, one, []), [], one)
        return []

    def binder(self, scope: Scope, node: Binder, wanted: list[Type]) -> list[Type]:
        if node.type:
            self.visit(scope, node.type, [])
        for name in node.names:
            scope.variables[name] = Variable([Type(scope, node.type)] if node.type else [])
        return []

    def function(self, scope: Scope, node: Lambda, wanted: list[Type]) -> list[Type]:
        """A λ, whose arguments have the types that are wanted of them."""
        inner = Scope(scope)
        telescope = next((typing.Telescope(one) for one in wanted if self.is_function(one)), None)
        for binder in node.binders:
            if isinstance(binder, Binder):
                rows = [Name(binder.start, [name]) for name in binder.names]
                self.binder(inner, binder, [])
            else:
                rows = [binder]
            for pattern in rows:
                row = telescope.next() if telescope else None
                if not isinstance(binder, Binder):
                    self.pattern(inner, pattern, [row[1]] if row and row[1] else [])
                if row:
                    self.premise(telescope.key, pattern, [node.body])
                    telescope.bind(row[0], [row[1]] if row[1] else [], Type(inner, pattern))
        self.visit(inner, node.body, [telescope.result()] if telescope else [])
        return []

    def let(self, scope: Scope, node: Let, wanted: list[Type]) -> list[Type]:
        if node.type:
            self.visit(scope, node.type, [])
        types = self.visit(scope, node.value, [Type(scope, node.type)] if node.type else [])
        inner = Scope(scope)
        self.pattern(inner, node.pattern, [Type(scope, node.type)] if node.type else types)
        pattern = typing.stripped(node.pattern)
        if isinstance(pattern, Name) and pattern.path[0] in inner.variables:
            inner.variables[pattern.path[0]].value = Type(scope, node.value)
        return self.visit(inner, node.body, wanted)

    def cases(self, scope: Scope, node: Cases, wanted: list[Type]) -> list[Type]:
        if node.of is not None:
            types, result = self.visit(scope, node.of, []), wanted
        else:
            telescope = next((typing.Telescope(one) for one in wanted if self.is_function(one)), None)
            row = telescope.next() if telescope else None
            types, result = ([row[1]] if row and row[1] else []), ([telescope.result()] if telescope else [])
        for pattern, body in node.rows:
            inner = Scope(scope)
            self.pattern(inner, pattern, types)
            self.visit(inner, body, result)
        return []

    def tuple(self, scope: Scope, node: Tuple, wanted: list[Type]) -> list[Type]:
        known = self.unfolded(wanted)
        for at, part in enumerate(node.items):
            rows = [(key, kind) for key, kind in (typing.field(one, str(at)) for one in known) if key]
            for key, _ in rows:
                self.note(key, "made", part)
                self.made.append((key, part))
            self.passing = rows[0][0] if rows else None
            self.visit(scope, part, [kind for _, kind in rows if kind])
        return []

    def literal(self, scope: Scope, node: Literal, wanted: list[Type]) -> list[Type]:
        base = self.visit(scope, node.base, []) if node.base else []
        known = self.unfolded(wanted) or self.unfolded(base)
        known = [one for one in known if not isinstance(one.head, Record) or set(node.fields) <= set(one.head.fields)]
        for label, part in node.fields.items():
            rows = [(key, kind) for key, kind in (typing.field(one, label) for one in known) if key]
            for key, _ in rows:
                self.note(key, "made", part)
                self.made.append((key, part))
            self.passing = rows[0][0] if rows else None
            self.visit(scope, part, [kind for _, kind in rows if kind])
        return wanted or base

    def row(self, scope: Scope, node: Row, wanted: list[Type]) -> list[Type]:
        inner = Scope(scope)
        for label, part in node.fields.items():
            self.visit(inner, part, [])
            inner.variables[label] = Variable([Type(inner, part)])
        return []

    # What is known by contracts, and what tactics read

    def known(self, node: Name) -> list[Type]:
        """What is known of a function's steps at a path: what a call ensures, what a loop keeps, what the function requires."""
        at = next((at for at, label in enumerate(node.path) if label in facts.KINDS), None)
        if at is None:
            return []
        types, labels = facts.at_step(self.path, node.path[at - 1], node.path[at], node.path[at + 1:])
        return self.taken(types, labels, node)

    def tactic(self, scope: Scope, node: Name) -> None:
        """A tactic may read the parts of each variable."""
        around: Scope | None = scope
        while around and around.around:
            for variable in around.variables.values():
                self.within_reach(variable.types, node, 2)
            around = around.around

    def within_reach(self, types: list[Type], node: Name, deep: int) -> None:
        for one in self.unfolded(types):
            for label in labels_of(one):
                key, kind = typing.field(one, label)
                if key:
                    self.note(key, node.path[0], node)
                if kind and deep > 1:
                    self.within_reach([kind], node, deep - 1)


WAYS = {Name: Walker.name, Projection: Walker.projection, Call: Walker.call, Infix: Walker.infix, Binder: Walker.binder, Lambda: Walker.function,
        Let: Walker.let, Cases: Walker.cases, Tuple: Walker.tuple, Literal: Walker.literal, Row: Walker.row}


def heading(kind: Type) -> tuple[str, str] | None:
    """The definition that a type names in front, by its file and its name."""
    node, scope = typing.stripped(kind.node), kind.scope
    while isinstance(node, Call):
        node = typing.stripped(node.of)
    if not isinstance(node, Name) or scope.variable(node.path[0]):
        return None
    found = scope.find(node.path)
    return (found.what.path, found.what.name) if found and isinstance(found.what, Lemma) else None


@functools.cache
def lifted_node(lemma: Lemma, binders: tuple[Binder, ...]) -> Node:
    return scopes.joined("→", [*binders, lemma.type]) if binders else lemma.type


def lifted(found: scopes.Found) -> Type:
    """The type of a lemma as it is seen outside the modules that it is in."""
    return Type(found.scope, lifted_node(found.what, tuple(found.lifted)))


def bodies(block: Block) -> list[Node]:
    """The terms of the lemmas in a block."""
    own = [clause for lemma in block.lemmas.values() for clause in lemma.clauses]
    inner = [one.inner for one in own] + [one for _, one in block.modules]
    return [one.body for one in own] + [body for one in inner for body in bodies(one)]


def labels_of(kind: Type) -> list[str]:
    """The labels of a record or of a product."""
    if isinstance(kind.head, Record):
        return list(kind.head.fields)
    if isinstance(kind.node, Infix) and kind.node.signs[0] == "×":
        return [str(at) for at in range(len(typing.items(kind.node)))]
    return []


def uses_of(paths: list[str]) -> Uses:
    """What some files of definitions or proofs use."""
    uses = Uses()
    for path in paths:
        Walker(path, uses).block(scopes.file_scope(path))
    return uses


def uses_in_contracts(rows: list[contracts.Contract]) -> Uses:
    """What clauses of contracts use."""
    uses = Uses()
    for one in rows:
        if one.type:
            Walker(one.path, uses).visit(Scope(one.scope), one.type.node, [])
    return uses
