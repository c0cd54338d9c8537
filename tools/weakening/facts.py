"""What is known in the proof of a function, by the contracts of what it calls, its own, and its loops."""

from __future__ import annotations

import collections
import functools
import os
import re

from counting import functions
from making.files import TOP
from weakening import contracts, scopes
from weakening.repository import sources
from weakening.scopes import Scope, Type

KINDS = frozenset(("ensures", "invariant", "requires"))


def function_of(path: str) -> str:
    """The function that a file of answers is of."""
    return path.split("/")[-2].lstrip("+")


def fitting(rows: list[contracts.Contract], label: str) -> list[contracts.Contract]:
    """The clauses of this name, or those without one."""
    return [one for one in rows if one.name == label] or [one for one in rows if not one.name]


@functools.cache
def calls_of(path: str) -> frozenset[str]:
    """The names that the sources call in the function of these answers; none if it is not found."""
    crate, name = path.split("/")[1], function_of(path)
    found = [one.body for one in bodies().get((crate, name), [])]
    return frozenset(word for body in found for word in re.findall(r"\b(\w+)(?:::<[^()]*>)?\(", body))


@functools.cache
def bodies() -> dict[tuple[str, str], list[functions.Function]]:
    found = collections.defaultdict(list)
    for path in sources():
        for one in functions.functions_of(path):
            if one.body is not None:
                found[one.crate, one.name].append(one)
    return found


@functools.cache
def called(path: str, step: str, label: str) -> tuple[contracts.Contract, ...]:
    """The clauses that a step, which is named by a call or by an arm, may have made known."""
    words, calls = step.split("-"), calls_of(path)
    for name in dict.fromkeys([words[0], words[-1], *words]):
        found = fitting(contracts.by_function().get(name, []), label)
        if found:
            return tuple(found)
    rows = [one for name in sorted(calls) for one in contracts.by_function().get(name, [])]
    return tuple(one for one in rows if one.name == label) or tuple(one for one in rows if not one.name)


@functools.cache
def own(path: str, label: str) -> tuple[contracts.Contract, ...]:
    """What the function requires whose answers stand in a file."""
    crate = path.split("/")[1]
    rows = [one for one in contracts.contracts() if one.function == function_of(path) and one.kind == "requires" and one.path.split("/")[1] == crate]
    return tuple(fitting(rows, label))


@functools.cache
def kept(path: str, loop: str) -> tuple[Type, ...]:
    """What a loop of this function keeps."""
    file = os.path.join(os.path.dirname(path), "Invariants.antt")
    if not os.path.exists(os.path.join(TOP, file)):
        return ()
    scope = scopes.file_scope(file)
    lemma = scope.block.lemmas.get(f"invariant-{loop}")
    return tuple(Type(Scope(scope), clause.body) for clause in lemma.clauses) if lemma else ()


def at_step(path: str, step: str, kind: str, labels: list[str]) -> tuple[list[Type], list[str]]:
    """The types of what is known at a step, and the labels that are left to take of it."""
    if kind == "invariant":
        return list(kept(path, step)), labels
    found = (called(path, step, labels[0] if labels else "") if kind == "ensures" else own(path, labels[0] if labels else ""))
    is_named = bool(labels) and any(one.name == labels[0] for one in found)
    return [one.type for one in found if one.type], labels[1:] if is_named else labels


@functools.cache
def wanted(path: str, goal: str) -> list[Type]:
    """What an answer has to prove, if that is a clause of its function."""
    crate = path.split("/")[1]
    rows = [one for one in contracts.by_function().get(function_of(path), []) if one.path.split("/")[1] == crate]
    name = re.search(r"-clause-(\w+)$", goal)
    if goal.startswith("returns") and (name or len(rows) == 1):
        return [one.type for one in rows if one.type and (not name or one.name == name[1])]
    return []
