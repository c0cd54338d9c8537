"""What names stand for: variables with their types, what a file declares, and what it brings in from others, of the kit too."""

from __future__ import annotations

import dataclasses
import functools
import os
import pathlib

from making import antt
from making.files import TOP, read
from weakening.proofs import Block, Data, Lemma, Record, proof
from weakening.terms import Binder, Call, Infix, Name, Node

KIT = pathlib.Path("/opt/rattle/rattle")  # where the kit 13f keeps its sources; without them less is known of a proof
KIT_CRATES = ("core", "std_alloc", "std_io")  # what `std` passes on


@dataclasses.dataclass(eq=False)
class Type:
    """An expression and where its names stand, with what it is applied to."""
    scope: Scope
    node: Node
    given: list[Type] = dataclasses.field(default_factory=list)
    head: object = None  # what stands in front, once it is known that it cannot be unfolded


@dataclasses.dataclass
class Variable:
    """A variable: what types it may have, and its value if it has one."""
    types: list[Type] = dataclasses.field(default_factory=list)
    value: Type | None = None
    is_context: bool = False  # what is known of the steps of a function


@dataclasses.dataclass
class Found:
    """What a name stands for in a file: a declaration, where its names stand, the parameters of modules around it, and the labels left over."""
    what: Lemma | Record | Data | str
    scope: Scope
    lifted: list[Binder]
    labels: list[str]


class Scope:
    """Variables and declarations, and what is around them."""

    def __init__(self, around: Scope | None = None, block: Block | None = None) -> None:
        self.around, self.block = around, block
        self.variables: dict[str, Variable] = {}

    def path(self) -> str:
        """The file that it is of."""
        scope: Scope | None = self
        while scope and not scope.block:
            scope = scope.around
        return scope.block.path if scope else ""

    def variable(self, name: str) -> Variable | None:
        scope: Scope | None = self
        while scope:
            if name in scope.variables:
                return scope.variables[name]
            scope = scope.around
        return None

    def imported(self, name: str) -> antt.Import | None:
        """What brings a name in."""
        scope: Scope | None = self
        while scope:
            if scope.block and name in scope.block.imports:
                return scope.block.imports[name]
            scope = scope.around
        return None

    def find(self, path: list[str]) -> Found | None:
        """What a name that is no variable stands for."""
        scope: Scope | None = self
        while scope:
            if scope.block:
                found = declared(scope.block, path, scope)
                if found or path[0] in scope.block.imports:
                    return found or brought(scope.block.imports[path[0]], path[1:])
            scope = scope.around
        return None


def declared(block: Block, path: list[str], scope: Scope) -> Found | None:
    """What a block declares by a name, its own or within a module of it."""
    name, rest = path[0], path[1:]
    if name in block.lemmas:
        return Found(block.lemmas[name], scope, [], rest)
    if name in block.types:
        return Found(block.types[name], scope, [], rest)
    for kind in block.types.values():
        if isinstance(kind, Data) and name in kind.constructors:
            return Found(name, scope, [], rest)
    for title, inner in block.modules:
        wanted = path if title == "_" else rest if title == name else []
        found = declared(inner, wanted, inner_scope(inner, scope)) if wanted else None
        if found:
            return Found(found.what, found.scope, [*inner.parameters, *found.lifted], found.labels)
    return None


def inner_scope(block: Block, around: Scope) -> Scope:
    """Where the names of a module stand, with its parameters."""
    scope = Scope(around, block)
    for binder in block.parameters:
        for name in binder.names:
            scope.variables[name] = Variable([Type(scope, binder.type)] if binder.type else [])
    return scope


@functools.cache
def file_scope(path: str) -> Scope:
    return Scope(None, proof(path))


def brought(one: antt.Import, rest: list[str]) -> Found | None:
    """What an import stands for, by itself or with what follows it."""
    if one.of is not None:
        return of_module(one.module, [one.of, *rest])
    return of_module(one.module, rest) if rest else None


@functools.cache
def file_of(module: str) -> str | None:
    """The file of a module, from the top or of the kit."""
    library, _, rest = module.partition(".")
    crate, _, inner = rest.partition(".")
    if library != "Rattle" or not inner:
        return None
    path = f"{crate}/{inner.replace('.', '/')}.antt"
    if os.path.exists(os.path.join(TOP, "crates", path)):
        return f"crates/{path}"
    crates = (crate, *KIT_CRATES) if crate == "std" else (crate,)
    return next((str(KIT / one / path.partition("/")[2]) for one in crates if (KIT / one / path.partition("/")[2]).exists()), None)


def of_module(module: str, path: list[str]) -> Found | None:
    """What a module has by a name, its own or passed on."""
    file = file_of(module)
    if file is None:
        return None
    scope = file_scope(file)
    found = declared(scope.block, path, scope)
    passed = scope.block.imports.get(path[0])
    return found or (brought(passed, path[1:]) if passed and passed.is_public else None)


def place(scope: Scope, node: Node) -> tuple[str, int, int]:
    """Where an expression begins: by this it is known."""
    return scope.path(), node.start.line, node.start.column


@functools.cache
def swapped(node: Infix) -> Infix:
    """The other half of `A ↔ B`."""
    return joined("→", [node.terms[1], node.terms[0]])


@functools.cache
def denied(node: Call) -> Infix:
    """`¬ A` as `A → ⊥`."""
    nothing = Name(node.start, ["⊥"])
    nothing.end = node.start
    return joined("→", [node.given[0][1], nothing])


@functools.cache
def half(node: Infix) -> Infix:
    return joined("→", [node.terms[0], node.terms[1]])


@functools.cache
def later(node: Infix) -> Node:
    """What is right of the first sign."""
    return node.terms[1] if len(node.terms) == 2 else joined(node.signs[0], node.terms[1:])


def joined(sign: str, nodes: list[Node]) -> Infix:
    found = Infix(nodes[0].start, [sign] * (len(nodes) - 1), nodes)
    found.end = nodes[-1].end
    return found


@functools.cache
def read_lines(path: str) -> list[str]:
    return read(path).split("\n")
