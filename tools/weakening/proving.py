"""Tries a weakening: in a copy of the repository a clause is true for certain, and the crates are checked that read it."""

from __future__ import annotations

import functools
import os
import pathlib
import re
import shutil
import signal
import subprocess
import sys
import tempfile

from making.files import TOP, Wrong, read
from weakening import clauses, report, scopes, survey, terms
from weakening.clauses import Clause
from weakening.proofs import Block
from weakening.readers import Uses, Walker, bodies
from weakening.repository import below, crate_of, is_test, proof_files
from weakening.survey import Verdict
from weakening.terms import Node

TRUE, PROOF, ROUNDS = "Unit {0}", "tt", 6
FAULT = re.compile(r"^(?:\./)?(\S+\.(?:antt|rt)):(\d+):(\d+): error: (.*)$", re.M)


def named(title: str) -> Clause:
    """The clause of this name, `CRATE/FILE:DEFINITION.NAME`."""
    found = [one for one in clauses.clauses() if f"{report.short(one.path)}:{one.title()}" == title]
    if not found:
        raise Wrong(f"no clause is called {title}: tools/weaken --json lists them, as CRATE/FILE:DEFINITION.NAME")
    if found[0].kind == "value" or found[0].kind == "case" and not is_said(found[0]):
        raise Wrong(f"{title} is a value, which is not weaker or stronger")
    return found[0]


def is_said(one: Clause) -> bool:
    """Whether a case is one of a definition that gives statements."""
    scope = scopes.file_scope(one.path)
    found = scopes.declared(scope.block, [one.definition], scope)
    return not one.is_constructor and clauses.codomain(found.what.type) == "Type"


def wanted(one: Clause, verdict: Verdict, asked: list[str]) -> list[str]:
    """The crates to check, lowest first: those that are asked for, or that of the definition and those that read it."""
    unknown = [name for name in asked if name not in below()]
    if unknown:
        raise Wrong(f"{unknown[0]} is no crate of crates.txt")
    names = set(asked) or {one.crate, *(crate_of(place) for place in verdict.places)}
    return [name for name in below() if name in names and (asked or not is_test(name))]


def functions(one: Clause, verdict: Verdict, name: str) -> list[str]:
    """The functions of a crate, as `rt check --only` names them, whose proofs read the clause, or whose contracts name its definition.

    Of a file of lemmas that reads it, the function with the fewest lemmas that rests on it is taken.
    """
    files = sorted({place.rpartition(":")[0] for place in verdict.places if crate_of(place) == name})
    answers = [path for path in proof_files() if crate_of(path) == name and path.endswith("Answers.antt")]
    resting = [[path for path in answers if path == file or file in cited(path)] for file in files]
    named = [it.place() for it in survey.by_contracts().get((one.path, one.definition), ()) if crate_of(it.path) == name and it.kind == "ensures"]
    return list(dict.fromkeys([*(function_of(min(paths, key=lambda path: len(cited(path)))) for paths in resting if paths), *named]))


def function_of(path: str) -> str:
    """The function of some answers; of a method the module that it is in."""
    crate, _, inner = path.removeprefix("crates/").partition("/proofs/")
    parts = inner.split("/")[:-1]
    at = next((at for at, part in enumerate(parts) if part[0].isupper()), len(parts))
    return "::".join([crate, *(part.lstrip("+") for part in parts[:at])])


@functools.cache
def cited(path: str) -> frozenset[str]:
    """The files of lemmas that a file of proofs brings in, and those that these bring in."""
    found = {scopes.file_of(one.module) for one in scopes.file_scope(path).block.imports.values()}
    own = {file for file in found if file and file.startswith("crates/") and "/proofs/" in file and crate_of(file) == crate_of(path)}
    return frozenset(own.union(*(cited(file) for file in own)))


def under(names: list[str]) -> set[str]:
    """These crates and all that they stand on."""
    found, more = set(), list(names)
    while more:
        name = more.pop()
        if name not in found:
            found.add(name)
            more += below()[name]
    return found


# The copy

def copied(names: set[str]) -> pathlib.Path:
    """A copy of these crates, with the libraries that are kept on this machine."""
    top = pathlib.Path(tempfile.mkdtemp(prefix="weaken-"))
    for name in names:
        shutil.copytree(pathlib.Path(TOP, "crates", name), top / "crates" / name, ignore=shutil.ignore_patterns("out", "must-fail"))
    shutil.copy(pathlib.Path(TOP, "HANDLES"), top / "HANDLES")
    lines = [line for line in read("crates.txt").splitlines() if line.partition(":")[0].strip() in names]
    (top / "crates.txt").write_text("\n".join(lines) + "\n", encoding="utf-8")
    shutil.copytree(pathlib.Path(TOP, "tools"), top / "tools")
    return top


def link(top: pathlib.Path, names: set[str]) -> None:
    """Links the libraries that are kept of these crates, which stay as they are."""
    done = subprocess.run([sys.executable, "tools/link", *sorted(names)], cwd=top, capture_output=True, text=True)
    if done.returncode:
        raise Wrong(f"tools/link failed: {done.stderr.strip()}")


def put(top: pathlib.Path, path: str, spans: list[tuple[Node, str]]) -> None:
    """Puts texts in the place of parts of a file, the last first."""
    lines = (top / path).read_text(encoding="utf-8").split("\n")
    for node, text in sorted(spans, key=lambda row: (-row[0].start.line, -row[0].start.column)):
        first, last = node.start.line - 1, node.end.line - 1
        front, back = lines[first][:node.start.column - 1], lines[last][node.end.column - 1 + len(node.end.text):]
        lines[first:last + 1] = [front + text + back] + [""] * (last - first)
    (top / path).write_text("\n".join(lines), encoding="utf-8")


def mended(top: pathlib.Path, one: Clause, names: list[str]) -> int:
    """Puts `tt` where proofs make the clause, as far as that is seen, since a proof of what it said is none of what it says; how often."""
    count = 0
    for path in proof_files():
        if crate_of(path) in names:
            walker = Walker(path, Uses())
            walker.block(scopes.file_scope(path))
            spans = [(node, PROOF) for key, node in walker.made if key == one.key]
            put(top, path, spans)
            count += len(spans)
    return count


def mend(top: pathlib.Path, name: str, faults: list[tuple[str, str, str, str]]) -> None:
    """Does the same where a check found more such places."""
    for path in {path for path, *_ in faults}:
        file = f"crates/{name}/{path}"
        block = Block(file).read((top / file).read_text(encoding="utf-8").split("\n"), 1)
        nodes = [node for body in bodies(block) for node in terms.walk(body)]
        for _, line, column, _ in (one for one in faults if one[0] == path):
            found = [node for node in nodes if (node.start.line, node.start.column) == (int(line), int(column))]
            if not found:
                raise Wrong(f"{file}:{line}: no term is seen that makes the clause")
            put(top, file, [(max(found, key=lambda node: (node.end.line, node.end.column)), PROOF)])


# The checks

def check(top: pathlib.Path, name: str, only: str, minutes: int) -> tuple[bool | None, str]:
    """Whether a function of a crate of the copy is proved, or all of the crate, and what was printed; None where time ran out."""
    words = ["nice", "-n", "10", "rt", "check", *(["--only", only] if only else [])]
    folder = top / "crates" / name
    process = subprocess.Popen(words, cwd=folder, stdout=subprocess.PIPE, stderr=subprocess.STDOUT, text=True, start_new_session=True)
    try:
        told, _ = process.communicate(timeout=60 * minutes)
        return process.returncode == 0, told
    except subprocess.TimeoutExpired:
        os.killpg(process.pid, signal.SIGTERM)
        return None, process.communicate()[0]


def prove(title: str, asked: list[str], only: list[str], minutes: int) -> int:
    """Tries one clause, and says what broke: status 0 if something did."""
    one = named(title)
    verdict = next(it for it in survey.verdicts() if it.clause is one)
    names = [name for name in below() if any(path.partition("::")[0] == name for path in only)] or wanted(one, verdict, asked)
    top = copied(under(names))
    try:
        link(top, under(names) - {one.crate, *names})
        put(top, one.path, [(one.node, TRUE)])
        print(f"{one.path}:{one.line}: {one.text()} is {TRUE}; {PROOF} in {mended(top, one, names)} places that make it", flush=True)
        for name in names:
            paths = [path for path in only if path.partition("::")[0] == name] or ([""] if asked else functions(one, verdict, name) or [""])
            if any(is_broken(top, name, path, minutes) for path in paths):
                return 0
        print(f"nothing breaks in {', '.join(names)}")
        return 1
    finally:
        shutil.rmtree(top, ignore_errors=True)


def is_broken(top: pathlib.Path, name: str, path: str, minutes: int) -> bool:
    """Whether a check fails elsewhere than where the clause is made; it says so, with the faults."""
    for _ in range(ROUNDS):
        is_proved, told = check(top, name, path, minutes)
        if is_proved is None:
            raise Wrong(f"{path or name} was not judged in {minutes} minutes")
        faults = FAULT.findall(told)
        readers = [one for one in faults if f"expected type `{TRUE}`" not in one[3]]
        if is_proved or readers or not faults:
            break
        print(f"{path or name}: {PROOF} in {len(faults)} more places", flush=True)
        mend(top, name, faults)
    print(f"{path or name}: {'proved' if is_proved else 'broken'}", flush=True)
    if not is_proved:
        print(*(f"    crates/{name}/{file}:{line}: {text}" for file, line, _, text in readers), "" if readers else told[-3000:], sep="\n")
    return not is_proved
