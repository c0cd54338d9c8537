"""The contracts of the sources: each clause with the function that it is of, and what its names stand for."""

from __future__ import annotations

import collections
import dataclasses
import functools
import re

from counting.functions import end_of
from making import antt, rust
from making.files import Wrong, read
from weakening import terms
from weakening.proofs import Block
from weakening.repository import sources
from weakening.scopes import Scope, Type

HEAD = re.compile(r"^[ ]*(?P<kind>requires|ensures|invariant)(?:[ ]+\*?(?P<name>\w+))?[ ]*\{"
                  r"|^(?P<inset>[ ]*)(?:pub(?:\([^)]*\))? )?(?:const )?fn (?P<fn>\w+)", re.M)


@dataclasses.dataclass(eq=False)
class Contract:
    """A clause of a function."""
    path: str
    line: int
    function: str
    kind: str
    name: str
    text: str
    scope: Scope
    has_body: bool
    is_method: bool

    @functools.cached_property
    def type(self) -> Type | None:
        try:
            return Type(self.scope, terms.parsed(terms.tokens(self.text, self.line), self.path))
        except Wrong:
            return None

    def place(self) -> str:
        """How `rt check --only` names the function, or the module of a method."""
        crate, _, inner = self.path.removeprefix("crates/").removesuffix(".rt").partition("/src/")
        return "::".join([crate, *(part for part in inner.split("/") if part != "lib"), *([] if self.is_method else [self.function])])

    def names(self) -> set[str]:
        return {token.text for token in terms.tokens(self.text, self.line)}


@functools.cache
def contracts_of(path: str) -> list[Contract]:
    """The clauses of a file, in their order."""
    text = read(path)
    block = Block(path)
    block.imports.update(rust.ghosts(path, text.split("\n"), 1))
    scope, function, is_method, found = Scope(None, block), "", False, []
    for head in HEAD.finditer(text):
        if head["fn"]:
            function, is_method = head["fn"], bool(head["inset"])
            continue
        end = end_of(re.sub(r"//.*|\"(?:[^\"\\\n]|\\.)*\"", lambda it: " " * len(it[0]), text), head.end() - 1)
        line = text.count("\n", 0, head.end()) + 1
        inner = re.sub(r"//.*", "", text[head.end():end - 1])
        found.append(Contract(path, line, function, head["kind"], head["name"] or "", inner, scope, not is_law(text, end), is_method))
    return found


def is_law(text: str, at: int) -> bool:
    """Whether what stands behind a contract is a body without a statement."""
    rest = re.match(r"(?:\s|//.*|(?:requires|ensures)[ ]+\*?\w*[ ]*\{(?:[^{}]|\{(?:[^{}]|\{[^{}]*\})*\})*\})*", text[at:])
    return text[at + rest.end():].startswith("{}\n")


@functools.cache
def contracts() -> list[Contract]:
    return [one for path in sources() for one in contracts_of(path)]


@functools.cache
def by_function() -> dict[str, list[Contract]]:
    """What functions of each name ensure."""
    found = collections.defaultdict(list)
    for one in contracts():
        if one.kind == "ensures":
            found[one.function].append(one)
    return found


def named_in(one: Contract) -> set[tuple[str, str]]:
    """The definitions that a clause names, each by its file and its name."""
    found = set()
    for word in one.names():
        first = antt.path_of(word)[0] if word[0] not in "\"(){}.;,@" else ""
        brought = one.scope.block.imports.get(first)
        target = one.scope.find(antt.path_of(word)) if brought else None
        if target and not isinstance(target.what, str):
            found.add((target.what.path, target.what.name))
    return found
