"""Which parts of definitions contracts promise, and which are conditions of what they promise.

What is promised and becomes weaker is still proved. A condition that becomes weaker makes a promise say more, and its proof has to hold of
more: it notices if it rests on the condition. Either half of a `↔`, and what stands in it, is both: weaker, the equivalence is another one.
"""

from __future__ import annotations

import collections
import functools

from weakening import clauses, contracts, scopes, typing
from weakening.proofs import Data, Lemma, Record
from weakening.repository import crate_of, is_test
from weakening.scopes import Scope
from weakening.terms import Binder, Call, Infix, Lambda, Let, Name, Node, Row

PROMISED, CONDITION, EXACT = 1, -1, 2  # EXACT: within a half of an equivalence


def span(scope: Scope, node: Node) -> tuple:
    """Where an expression begins and ends."""
    return scope.path(), node.start.line, node.start.column, node.end.line, node.end.column


class Signs:
    """Walks contracts and the definitions that they name."""

    def __init__(self) -> None:
        self.found: dict[tuple, set[int]] = collections.defaultdict(set)
        self.done: set[tuple] = set()
        self.waiting: list[tuple[Scope, Lemma | Record | Data, int]] = []

    def of_contracts(self) -> None:
        for one in contracts.contracts():
            if one.type and not is_test(crate_of(one.path)) and one.kind != "invariant":
                self.visit(one.scope, one.type.node, PROMISED if one.kind == "ensures" else CONDITION)
        while self.waiting:
            self.definition(*self.waiting.pop())

    def name(self, scope: Scope, node: Name, sign: int) -> None:
        found = None if scope.variable(node.path[0]) else scope.find(node.path)
        if found and not isinstance(found.what, str) and (id(found.what), sign) not in self.done:
            self.done.add((id(found.what), sign))
            self.waiting.append((found.scope, found.what, sign))

    def definition(self, scope: Scope, what: Lemma | Record | Data, sign: int) -> None:
        """What a definition says, where it is promised or a condition itself."""
        if isinstance(what, Record):
            scope = clauses.record_scope(what)
            for node in what.fields.values():
                self.visit(scope, node, sign)
        elif isinstance(what, Data):
            for node in what.constructors.values():
                self.constructor(scope, node, sign)
        elif clauses.codomain(what.type) == "Type":
            for clause in what.clauses:
                inner = Scope(scope)
                inner.block = clause.inner
                for pattern in clause.patterns:
                    typing.bind_unknown(inner, pattern)
                self.visit(inner, clause.body, sign)

    def constructor(self, scope: Scope, node: Node, sign: int) -> None:
        node = typing.stripped(node)
        if isinstance(node, Infix) and node.signs[0] == "→":
            for term in node.terms[:-1]:
                self.visit(scope, term, sign)

    def visit(self, scope: Scope, node: Node, sign: int) -> None:
        """Notes the sign of a part, and goes on to what is in it."""
        self.found[span(scope, node)].add(sign)
        node = typing.stripped(node)
        if isinstance(node, Infix):
            self.infix(scope, node, sign)
        elif isinstance(node, Call):
            self.call(scope, node, sign)
        elif isinstance(node, Name):
            self.name(scope, node, sign)
        elif isinstance(node, Binder) and node.type:
            self.visit(scope, node.type, sign)
        elif isinstance(node, Lambda):
            self.visit(clauses.bound(scope, node.binders), node.body, sign)
        elif isinstance(node, Let):
            self.visit(scope, node.body, sign)
        elif isinstance(node, Row):
            for one in node.fields.values():
                self.visit(scope, one, sign)

    def infix(self, scope: Scope, node: Infix, sign: int) -> None:
        word = node.signs[0]
        inner = clauses.bound(scope, node.terms) if word in ("→", "×") else scope
        for at, term in enumerate(node.terms):
            is_condition = word == "→" and at < len(node.terms) - 1
            one = EXACT if word == "↔" else turned(sign) if is_condition else sign
            for part in (typing.binders(term) or [term]) if word in ("→", "×", "⊎", "↔") else []:
                self.visit(inner, part, one)

    def call(self, scope: Scope, node: Call, sign: int) -> None:
        head = typing.stripped(node.of)
        is_not = isinstance(head, Name) and head.path == ["¬"]
        if isinstance(head, Name):
            self.name(scope, head, sign)
        for _, one in node.given:
            self.argument(scope, typing.stripped(one), turned(sign) if is_not else sign, is_not)

    def argument(self, scope: Scope, node: Node, sign: int, is_not: bool) -> None:
        """What a definition is applied to: statements, and functions that give some."""
        is_part = isinstance(node, (Lambda, Binder)) or isinstance(node, Infix) and node.signs[0] in ("→", "×", "⊎", "↔")
        names = isinstance(node, Name) or isinstance(node, Call)
        if is_not or is_part or names and self.is_type(scope, node):
            self.visit(scope, node, sign)

    @staticmethod
    def is_type(scope: Scope, node: Node) -> bool:
        """Whether an argument is a statement, or a definition that gives one."""
        while isinstance(node, Call):
            node = typing.stripped(node.of)
        found = scope.find(node.path) if isinstance(node, Name) and not scope.variable(node.path[0]) else None
        what = found.what if found else None
        return isinstance(what, (Record, Data)) or isinstance(what, Lemma) and clauses.codomain(what.type) == "Type"


def turned(sign: int) -> int:
    return sign if sign == EXACT else -sign


@functools.cache
def signs() -> dict[tuple, set[int]]:
    """By the place of each part of a definition, whether it is promised, a condition, or both."""
    found = Signs()
    found.of_contracts()
    return found.found


def is_exact(one: clauses.Clause) -> bool:
    """Whether a clause stands in a half of an equivalence, or is a condition everywhere."""
    found = signs().get(span(scopes.file_scope(one.path), one.node), set())
    return EXACT in found or CONDITION in found and PROMISED not in found
