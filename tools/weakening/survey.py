"""For each clause: what reads it."""

from __future__ import annotations

import collections
import dataclasses
import functools
import hashlib
import os
import pathlib
import pickle
from concurrent import futures

from making import antt, believe, closure
from making.files import TOP, read
from weakening import clauses, contracts, readers, scopes, signs, terms
from weakening.clauses import Clause
from weakening.proofs import Block
from weakening.readers import TACTICS, Uses
from weakening.repository import antt_files, below, crate_of, is_test, proof_files, sources

# what may be said of a clause, from the strongest on
STATUSES = {
    "above": "read by a proof of a crate above its own",
    "own": "read by a proof of its own crate only",
    "prover": "in reach of a tactic that reads such statements, and named by no proof",
    "exact": "in a half of an equivalence, or only a condition: weaker, what is proved says something else, or more",
    "maybe": "a proof that knows its definition takes this field of a term whose type is not known",
    "body": "a function's body computes or meets it, case by case",
    "speech": "a definition or a contract reads this value",
    "test": "a test or a must-fail edit names its definition",
    "premise": "a proof of the statement uses this premise",
    "unseen": "a premise of which no proof is seen: it is handed to a lemma whole",
    "nobody": "read by nobody",
}


@dataclasses.dataclass
class Verdict:
    clause: Clause
    status: str
    places: list[str]  # who reads it
    handed_on: bool  # a proof makes it of itself, or states it
    tests: list[str]
    contracts: list[str]  # the functions whose contracts name the definition


# What is read

def merged(several: list[Uses]) -> Uses:
    found = Uses()
    for one in several:
        for key, rows in one.parts.items():
            for how, places in rows.items():
                found.parts[key][how] += places
        for label, places in one.untyped.items():
            found.untyped[label] += places
        for key, paths in one.named.items():
            found.named[key] |= paths
        found.typed += one.typed
    return found


def plain(uses: Uses) -> Uses:
    """The same without what cannot be sent between processes."""
    return Uses({key: dict(rows) for key, rows in uses.parts.items()}, dict(uses.untyped), dict(uses.named), uses.typed)


def read_crate(crate: str) -> Uses:
    return plain(readers.uses_of([path for path in proof_files() if crate_of(path) == crate]))


@functools.cache
def in_proofs() -> Uses:
    """What all proofs use; what was found of the same files before is kept in out/weaken."""
    kept = pathlib.Path(TOP, "out", "weaken", stamp())
    if kept.exists():
        return merged([pickle.loads(kept.read_bytes())])
    found = read_all()
    kept.parent.mkdir(parents=True, exist_ok=True)
    for old in kept.parent.iterdir():
        old.unlink()
    kept.write_bytes(pickle.dumps(plain(found)))
    return found


def stamp() -> str:
    """A sum of all that is read, and of what reads it."""
    total = hashlib.sha256()
    readers_of = pathlib.Path(__file__).parent.glob("*.py"), pathlib.Path(TOP, "docs", "making").glob("*.py")
    for path in [*antt_files(), *sources(), *sorted(str(one) for several in readers_of for one in several)]:
        total.update(read(path).encode())
    return total.hexdigest()


def read_all() -> Uses:
    """What all proofs use, crate by crate and several at once."""
    for path in antt_files():
        if path.split("/")[2] == "specs":
            scopes.file_scope(path)
    with futures.ProcessPoolExecutor(os.cpu_count()) as pool:
        return merged(list(pool.map(read_crate, reversed(below()))))


@functools.cache
def in_speech() -> Uses:
    """What definitions and contracts use."""
    rows = readers.uses_in_contracts(contracts.contracts())
    return merged([readers.uses_of([path for path in antt_files() if path.split("/")[2] == "specs"]), rows])


# What names a definition

@functools.cache
def by_contracts() -> dict[tuple[str, str], list[contracts.Contract]]:
    """The clauses of contracts that name each definition."""
    found = collections.defaultdict(list)
    for one in contracts.contracts():
        for key in contracts.named_in(one):
            found[key].append(one)
    return found


@functools.cache
def graph() -> dict[tuple[str, str], set[tuple[str, str]]]:
    """Which definitions of the closure each of them names."""
    found = {}
    for one in believe.reached().definitions:
        rows = [it for it in closure.used_by(one) if isinstance(it, antt.Declaration)]
        found[one.spec.path, one.name] = {(it.spec.path, it.name) for it in rows}
    return found


@functools.cache
def of_bodies() -> set[tuple[str, str]]:
    """The definitions that contracts of functions with bodies reach."""
    roots = {key for key, rows in by_contracts().items() if any(one.has_body and not is_test(crate_of(one.path)) for one in rows)}
    reached, more = set(), [key for key in roots if key in graph()]
    while more:
        key = more.pop()
        if key not in reached:
            reached.add(key)
            more += [one for one in graph()[key] if one in graph()]
    return reached


@functools.cache
def known_in(path: str) -> set[tuple[str, str]]:
    """The definitions that a file brings in, and those that these name."""
    found = set()
    for one in imports_of(scopes.file_scope(path).block):
        target = scopes.brought(one, []) if one.of else None
        if target and not isinstance(target.what, str):
            key = (target.what.path, target.what.name)
            found |= {key, *graph().get(key, ())}
    return found


def imports_of(block: Block) -> list[antt.Import]:
    return [*block.imports.values(), *(one for _, inner in block.modules for one in imports_of(inner))]


@functools.cache
def tests_of(key: tuple[str, str]) -> tuple[str, ...]:
    """The tests and must-fail crates whose contracts or proofs name a definition, and the worked examples."""
    named = {one.path for one in by_contracts().get(key, []) if is_test(crate_of(one.path))}
    proofs = {path for path in in_proofs().named.get(key, ()) if is_test(crate_of(path)) or "Examples" in path or "Tests" in path}
    return tuple(sorted(named | proofs))


# Verdicts

def verdict(one: Clause) -> Verdict:
    key = one.path, one.definition
    tests = list(tests_of(key))
    named = sorted({f"{it.path}:{it.function}" for it in by_contracts().get(key, ()) if not is_test(crate_of(it.path))})
    rows = in_proofs().parts.get(one.key, {})
    status, places = {"case": of_case, "premise": of_premise, "value": of_value}.get(one.kind, of_statement)(one, rows)
    if status == "nobody" and one.kind in ("field", "factor") and signs.is_exact(one):
        status, places = "exact", []
    if status == "nobody" and tests:
        status, places = "test", tests
    return Verdict(one, status, places, bool(rows.get("made") or rows.get("passed")), tests, named)


def sorted_out(one: Clause, places: list[str]) -> tuple[str, list[str]] | None:
    """Whether places are in crates above, or in the clause's own."""
    above = [place for place in places if crate_of(place) != one.crate and not is_test(crate_of(place))]
    own = [place for place in places if crate_of(place) == one.crate]
    return ("above", above) if above else ("own", own) if own else None


def of_statement(one: Clause, rows: dict[str, list[str]]) -> tuple[str, list[str]]:
    """A statement: a proof takes it, a tactic may, or a proof takes such a label of what is not known."""
    found = sorted_out(one, rows.get("read", []))
    if found:
        return found
    near = [place for tactic, signs in TACTICS.items() if not signs or one.sign and one.sign in signs for place in rows.get(tactic, [])]
    near = [place for place in near if not is_test(crate_of(place))]
    if near:
        return "prover", near
    label, key = one.name, (one.path, one.definition)
    if one.kind == "field":
        places = [place for place in in_proofs().untyped.get(label, []) if key in known_in(place.rpartition(":")[0])]
        if places:
            return "maybe", places
    return "nobody", []


def of_value(one: Clause, rows: dict[str, list[str]]) -> tuple[str, list[str]]:
    """A value that a statement has: whether something speaks of it."""
    places = in_speech().parts.get(one.key, {}).get("read", [])
    if places or is_spoken_of(one):
        return "speech", places
    found = sorted_out(one, rows.get("read", []))
    if found:
        return found
    label = one.name.split(".")[-1]
    places = [] if label.isdigit() else in_speech().untyped.get(label, [])
    return ("maybe", places) if places else ("nobody", [])


def is_spoken_of(one: Clause) -> bool:
    """Whether another part of the same record or product names it."""
    names = [one.bound] if one.bound else []
    return any(isinstance(node, terms.Name) and node.path[0] in names for part in one.beside for node in terms.walk(part))


def of_premise(one: Clause, rows: dict[str, list[str]]) -> tuple[str, list[str]]:
    if rows.get("used"):
        return "premise", rows["used"]
    return ("nobody", rows["ignored"]) if rows.get("ignored") else ("unseen", [])


def of_case(one: Clause, rows: dict[str, list[str]]) -> tuple[str, list[str]]:
    """A case of a definition: it is met by a body, or unfolded by proofs."""
    key = one.path, one.definition
    opened = in_proofs().parts.get(("opened", *key), {}).get("read", [])
    named = [f"{path}:0" for path in in_proofs().named.get((one.path, one.name) if one.is_constructor else key, ())]
    found = sorted_out(one, opened or named)
    if found:
        return found
    return ("body", []) if key in of_bodies() else ("nobody", [])


@functools.cache
def verdicts() -> list[Verdict]:
    return [verdict(one) for one in clauses.clauses()]
