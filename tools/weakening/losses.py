"""What is lost without a clause: what nothing else in its definition speaks of, and whose contracts promise less."""

from __future__ import annotations

import collections
import functools

from weakening import clauses, scopes, survey, terms, typing
from weakening.clauses import Clause
from weakening.repository import crate_of, is_test
from weakening.terms import Infix, Name, Node

MOST = 4  # so many names are listed


def spoken(one: Clause, node: Node) -> set[str]:
    """The variables that an expression speaks of, each with its labels: what is not brought in and no definition."""
    scope = scopes.file_scope(one.path)
    found = set()
    for part in terms.walk(node):
        if isinstance(part, Name) and part.path[0][0].islower() and not part.path[0].startswith('"') and scope.find(part.path[:1]) is None:
            if part.path[0] not in scope.block.imports:
                found.add(".".join(part.path))
    return found - bound(node)


def bound(node: Node) -> set[str]:
    """The names that the expression itself binds."""
    found = set()
    for part in terms.walk(node):
        if isinstance(part, terms.Binder):
            found |= set(part.names)
        elif isinstance(part, terms.Lambda):
            found |= {typing.stripped(one).path[0] for one in part.binders if isinstance(typing.stripped(one), Name)}
    return found


def conclusion(node: Node) -> Node:
    """What a statement says under its premises."""
    node = typing.stripped(node)
    return conclusion(node.terms[-1]) if isinstance(node, Infix) and node.signs[0] == "→" else node


@functools.cache
def by_definition() -> dict[tuple[str, str], list[Clause]]:
    found = collections.defaultdict(list)
    for one in clauses.clauses():
        found[one.path, one.definition].append(one)
    return found


def ends(node: Node) -> tuple[tuple[int, int], tuple[int, int]]:
    return (node.start.line, node.start.column), (node.end.line, node.end.column)


def are_apart(a: Node, b: Node) -> bool:
    (begun, ended), (first, last) = ends(a), ends(b)
    return ended < first or last < begun


def lost(one: Clause) -> str:
    """What a wrong body could do without a clause."""
    names = spoken(one, conclusion(one.node))
    others = set()
    for other in by_definition()[one.path, one.definition]:
        if other.kind in ("field", "factor", "case") and are_apart(one.node, other.node):
            others |= spoken(other, other.node)
    free = sorted(name for name in names if not any(it == name or it.startswith(name + ".") for it in others))
    if free:
        return f"any {listed(free)}"
    return f"nothing ties {listed(sorted(names))}" if len(names) > 1 else f"less of {listed(sorted(names))}" if names else "less is said"


def listed(names: list[str]) -> str:
    front, more = names[:MOST], len(names) - MOST
    return ", ".join(front) + (f" and {more} more" if more > 0 else "")


@functools.cache
def above() -> dict[tuple[str, str], set[tuple[str, str]]]:
    """Which definitions name each one."""
    found = collections.defaultdict(set)
    for key, rows in survey.graph().items():
        for one in rows:
            found[one].add(key)
    return found


@functools.cache
def promised_by(key: tuple[str, str]) -> tuple[str, ...]:
    """The functions whose contracts promise a definition: those that name it, or else what names it, and so on."""
    ring, seen = {key}, {key}
    while ring:
        rows = [it for one in ring for it in survey.by_contracts().get(one, ()) if it.kind == "ensures" and not is_test(crate_of(it.path))]
        if rows:
            return tuple(sorted({f"{crate_of(it.path)}::{it.function}" for it in rows}))
        ring = {upper for one in ring for upper in above()[one]} - seen
        seen |= ring
    return ()
