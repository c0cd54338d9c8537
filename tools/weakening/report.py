"""What is printed: the table, the clauses that nobody reads, all of it as JSON, and how it differs from the accepted list."""

from __future__ import annotations

import collections
import dataclasses
import itertools
import json
import re
from collections.abc import Iterator

from making.files import Wrong, read, table
from weakening import losses
from weakening.repository import below
from weakening.survey import STATUSES, Verdict, verdicts

STATEMENTS = ("field", "factor")
LINE = re.compile(r"(?P<path>\S+) (?P<definition>\S+) \[(?P<names>[^\]]*)\]: (?P<reason>.*)")


def unread() -> list[Verdict]:
    """The statements and premises that nobody reads, by crate, lowest first, and by file and line."""
    order = {name: at for at, name in enumerate(below())}
    found = [one for one in verdicts() if one.status == "nobody"]
    return sorted(found, key=lambda one: (order[one.clause.crate], one.clause.path, one.clause.line, one.clause.name))


# The table

def counts(rows: list[Verdict], statuses: list[str]) -> list[str]:
    found = collections.Counter(one.status for one in rows)
    return [str(len(rows)), *(str(found[status]) for status in statuses)]


def tables() -> str:
    """How many clauses of each kind and of each crate are read, and by what."""
    used = [status for status in STATUSES if any(one.status == status for one in verdicts())]
    kinds = [[kind, *counts([one for one in verdicts() if one.clause.kind == kind], used)] for kind in (*STATEMENTS, "premise", "case", "value")]
    said = [one for one in verdicts() if one.clause.kind in STATEMENTS]
    marks = [status for status in used if any(one.status == status for one in said)]
    crates = [name for name in below() if any(one.clause.crate == name for one in said)]
    rows = [[name, *counts([one for one in said if one.clause.crate == name], marks)] for name in crates]
    legend = "\n".join(f"    {status:<8}  {STATUSES[status]}" for status in used)
    heads = ["clauses", "all", *used], ["fields and factors of", "all", *marks]
    return "\n\n".join((table(heads[0], kinds), table(heads[1], rows), legend))


PAGE, STATED = "docs/promises.md", re.compile(r"<!-- weakened -->\n(.*?)<!-- end -->", re.S)
MATTERS = (("read by a proof: of a crate above, or of its own crate, as that of a law", ("above", "own")),
           ("in reach of a tactic, or of a term whose type the tool does not know", ("prover", "maybe")),
           ("in a half of an equivalence, or only a condition: weaker, another promise would have to be proved", ("exact",)),
           ("read by no proof, of a definition that a test or a must-fail edit names", ("test",)),
           ("read by nobody", ("nobody",)))


def stated() -> str:
    """The table of the page: how many statements there are, and by what they are read."""
    found = collections.Counter(one.status for one in verdicts() if one.clause.kind in STATEMENTS)
    rows = [[what, f"{sum(found[status] for status in statuses):,}"] for what, statuses in MATTERS]
    return table(["Statements: fields of records, factors of products, halves of equivalences", f"{sum(found.values()):,}"], rows) + "\n"


def line_of(one: Verdict) -> str:
    """A clause that nobody reads: where it is, what it says, what a wrong body could do without it, and whose contract promises it."""
    clause = one.clause
    text = clause.text() if len(clause.text()) <= 90 else clause.text()[:87] + "..."
    promised = ", ".join(losses.promised_by((clause.path, clause.definition))[:3])
    lost = "no proof uses it, and it could be dropped" if clause.kind == "premise" else f"without it {losses.lost(clause)}"
    return f"{clause.path}:{clause.line} {clause.title()}: {text} | {lost} | promised by {promised or 'no function'}"


def as_json() -> str:
    rows = []
    for one in verdicts():
        row = {name: getattr(one.clause, name) for name in ("crate", "path", "line", "definition", "name", "kind")}
        rows.append({**row, "text": one.clause.text(), "status": one.status, "readers": one.places, "tests": one.tests, "contracts": one.contracts})
    return json.dumps({"statuses": STATUSES, "clauses": rows}, ensure_ascii=False, indent=1)


# The accepted list

@dataclasses.dataclass
class Accepted:
    """What nobody has to read of a definition, and why."""
    line: int
    names: list[str]
    reason: str


def short(path: str) -> str:
    """A file of definitions as the list has it: `zone_core/Delegations`."""
    return path.removeprefix("crates/").replace("/specs/", "/").removesuffix(".antt")


def accepted(path: str) -> dict[tuple[str, str], Accepted]:
    """The lines of a list: `CRATE/FILE DEFINITION [NAME NAME ..]: reason`; a line that begins with # is a comment."""
    found = {}
    try:
        with open(path, encoding="utf-8") as file:
            lines = file.read().splitlines()
    except OSError as why:
        raise Wrong(f"{path}: {why.strerror}") from why
    for at, line in enumerate(lines, 1):
        row = LINE.fullmatch(line)
        if row:
            found[row["path"], row["definition"]] = Accepted(at, row["names"].split(), row["reason"].strip())
        elif line.strip() and not line.startswith("#"):
            raise Wrong(f"{path}:{at}: no line of the form CRATE/FILE DEFINITION [NAME ..]: reason")
    return found


def by_definition() -> dict[tuple[str, str], list[str]]:
    found = collections.defaultdict(list)
    for one in unread():
        found[short(one.clause.path), one.clause.definition].append(one.clause.name or "-")
    return found


def differences(path: str) -> Iterator[str]:
    """A line for each clause that nobody reads and the list lacks, and for each that the list has and somebody reads."""
    listed, now = accepted(path), by_definition()
    for key, names in now.items():
        row = listed.get(key)
        for name in names:
            if row is None or name not in row.names:
                yield f"{key[0]} {key[1]}.{name}: nobody reads it, and {path} does not say why"
    for key, row in listed.items():
        for name in row.names:
            if name not in now.get(key, ()):
                yield f"{path}:{row.line}: {key[0]} {key[1]}.{name} is read, or is not there any more"
        if not row.reason:
            yield f"{path}:{row.line}: no reason stands beside {key[0]} {key[1]}"
    found = STATED.search(read(PAGE))
    if not found or found[1] != stated():
        yield f"{PAGE}: between <!-- weakened --> and <!-- end --> has to stand\n{stated()}"


def renewed(path: str) -> str:
    """The list as it has to be, with the reasons that it has; where none is known there is none."""
    try:
        listed = accepted(path)
    except Wrong:
        listed = {}
    rows, crate = comment(path), ""
    for (file, definition), names in by_definition().items():
        if file.partition("/")[0] != crate:
            crate = file.partition("/")[0]
            rows += ["", f"# {crate}"]
        reason = listed[file, definition].reason if (file, definition) in listed else ""
        rows.append(f"{file} {definition} [{' '.join(names)}]: {reason}")
    return "\n".join(rows)


def comment(path: str) -> list[str]:
    """The lines at the head of a list."""
    try:
        with open(path, encoding="utf-8") as file:
            return list(itertools.takewhile(lambda line: line.startswith("#"), file.read().splitlines()))
    except OSError:
        return []
