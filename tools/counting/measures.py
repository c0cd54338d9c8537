"""Measures of all sources: contract lines, functions for proofs, copies of one monad, imports, lines, words."""
import collections
import re

from counting import functions, road
from counting.sources import crate_of, crates, files, of_kind, product_sources, read

CONTRACT = re.compile(r"^ *(?:requires|ensures|invariant)\b.*", re.M)
MONAD = re.compile(r"^(?:(?:abbrev|unfoldable) )?(?:pub )?(◌>>=◌|Refuses|of_name|fault_number|Gives|Reads) :", re.M)
IMPORT = re.compile(r"^(?:pub )?use Rattle\.(\w+)\.proofs\.", re.M)
LONG_LINE, MANY_ARGUMENTS, MOST_ARGUMENTS, MANY_LINES, MANY_LEVELS = 200, 6, 7, 40, 3


def lines_of(kind):
    """How many lines the files of a kind have that are in crates/."""
    return sum(read(path).count("\n") for path in of_kind(kind) if crate_of(path))


def long_contracts():
    """The lengths of the contract lines of the product, the longest first."""
    return sorted((len(line) for path in product_sources() for line in CONTRACT.findall(read(path))), reverse=True)


def reveals():
    """The functions `reveal_*` of the product, and how many calls its functions have of them."""
    found = [one for one in functions.functions() if one.name.startswith("reveal_")]
    return found, sum(len(re.findall(r"\breveal_\w+\(", one.body)) for one in functions.with_bodies())


def monads():
    """How many definitions of the result monad the specs of each crate have."""
    copies = collections.Counter(crate_of(path) for path in of_kind("specs", ".antt") for _ in MONAD.findall(read(path)))
    return dict(sorted(copies.items(), key=lambda one: -one[1]))


def imported():
    """How many imports of each crate's lemmas the proofs of the product's other crates have."""
    found = collections.Counter()
    for path in of_kind("proofs", ".antt"):
        found.update(name for name in IMPORT.findall(read(path)) if name in crates() and name != crate_of(path))
    return dict(found.most_common())


def words():
    """How many words the Markdown pages have."""
    return sum(len(read(path).split()) for path in files() if path.endswith(".md"))


def measured():
    """The measures: a key, what is measured, and the number."""
    reached, many = road.road(), functions.long_calls(MANY_ARGUMENTS)
    bodies, contracts, (hidden, calls) = functions.with_bodies(), long_contracts(), reveals()
    return [
        ("road", "POST of an update: functions reached (approximate)", len(reached)),
        ("depth", "POST of an update: calls in the deepest chain (approximate)", max(reached.values())),
        ("serve", "functions named `serve` or `serve_*`", len(road.serving())),
        ("functions", "functions of the product", len(functions.functions())),
        ("arguments", f"functions with {MANY_ARGUMENTS} arguments or more", len(many)),
        ("many_arguments", f"functions with more than {MOST_ARGUMENTS}", sum(len(one.parameters) > MOST_ARGUMENTS for one in many)),
        ("long_functions", f"functions of more than {MANY_LINES} lines", sum(functions.lines_of_body(one) > MANY_LINES for one in bodies)),
        ("deep_functions", f"functions of more than {MANY_LEVELS} levels", sum(functions.levels(one.body) > MANY_LEVELS for one in bodies)),
        ("forwards", "functions that only forward (approximate)", sum(map(functions.is_forward, bodies))),
        ("reveals", "functions `reveal_*`", len(hidden)),
        ("reveal_calls", "calls of them", calls),
        ("long_contracts", f"contract lines of more than {LONG_LINE} characters", sum(one > LONG_LINE for one in contracts)),
        ("longest_contract", "characters of the longest contract line", contracts[0]),
        ("monads", "definitions of the result monad in specs", sum(monads().values())),
        ("imports", "imports of another crate's lemmas in proofs", sum(imported().values())),
        *((f"{kind}_lines", f"lines of {kind}", lines_of(kind)) for kind in ("specs", "proofs", "code", "tests", "rows")),
        ("words", "words of Markdown", words()),
    ]


def details():
    """The figures by crate behind two of the measures."""
    return {"monads": monads(), "imports": imported()}
