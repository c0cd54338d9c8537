"""The public functions of each crate: the first sentence of the doc comment, and the names of the clauses."""

import os
import re

from making.files import TOP, cell, product_crates, read, table

INTRODUCTION = """# The public functions and their clauses

Each public function of the product with the first sentence of its doc comment and the names of its `ensures` clauses, crate by crate. `docs/proved.md` says what the names mean and what each crate promises. The clauses are in the sources, and what they cite is in `definitions.md` beside this page. "Unnamed" is a clause without a name; "none" means that nothing is promised beyond safety and termination. A law is a function that does nothing: its contract is a statement about definitions. Left out are items that only the public modules of `store_rows` export, for the migration.

`docs/make proved` makes this page from the sources.
"""

EXPORT = re.compile(r"^pub use (?:\w+::)+(?:\{(.*?)\}|(\w+));", re.M | re.S)
HOLDER = re.compile(r"^(?:pub )?(impl|trait)(?:<.*?>)? (?:(\w+)(?:<.*?>)? for )?&?(\w+)")
FUNCTION = re.compile(r"^(    )?(pub )?(?:const )?fn (\w+)")
CLAUSE = re.compile(r"^ +ensures (\w*)")


def is_library(crate):
    """Whether a crate exports something."""
    return os.path.exists(os.path.join(TOP, "crates", crate, "src", "lib.rt"))


def exported(crate):
    """The names that src/lib.rt exports, in their order; those of other crates are among them."""
    for several, one in EXPORT.findall(read("crates", crate, "src", "lib.rt")):
        yield from (it.strip() for it in (several or one).split(",") if it.strip())


def sources(crate):
    folder = os.path.join(TOP, "crates", crate, "src")
    for name in sorted(os.listdir(folder)):
        if name.endswith(".rt") and name not in ("lib.rt", "main.rt", "tests.rt"):
            yield read("crates", crate, "src", name).splitlines()


def first_sentence(comment):
    """The first sentence of a doc comment, whose first paragraph ends at an empty line."""
    text = " ".join(comment[:comment.index("")] if "" in comment else comment)
    found = re.match(r"(?:`[^`]*`|[^`])*?\.(?= [A-Z`]|$)", text)
    return (found[0] if found else text).rstrip(".:") + "."


def contract(lines, indent):
    """The names of the clauses of the function that begins here, "" for one without a name, and whether its body is empty."""
    names = []
    for line in lines:
        found = CLAUSE.match(line)
        if found:
            names.append(found[1])
        elif line.rstrip() == indent + "{}":
            return names, True
        if line.endswith(";") or line == indent + "{" or not found and line.endswith("{"):
            break
    return names, False


class Functions:
    """The public functions of a file by what exports them (a type, a trait or themselves), and which traits a type has."""

    def __init__(self):
        self.found, self.impls = {}, {}

    def read(self, lines):
        comment = []
        self.leave()
        for at, line in enumerate(lines):
            if line.strip().startswith("///"):
                comment.append(line.strip()[3:].strip())
            elif not line.strip().startswith("#["):
                self.read_line(line, lines[at:], comment)
                comment = []

    def leave(self):
        self.kind = self.trait = self.holder = None

    def read_line(self, line, behind, comment):
        begun = HOLDER.match(line)
        if line == "}":
            self.leave()
        elif begun:
            self.kind, self.trait, self.holder = begun.groups()
            if self.trait:
                self.impls.setdefault(self.holder, []).append(self.trait)
            if line.endswith("}"):
                self.leave()
        fn = FUNCTION.match(line)
        if fn and not self.trait and (fn[2] or self.kind == "trait"):
            names, is_law = contract(behind, fn[1] or "")
            name = f"{self.holder}::{fn[3]}" if fn[1] else fn[3]
            self.found.setdefault(self.holder if fn[1] else fn[3], []).append((name, first_sentence(comment), names, is_law))


def rows_of(crate, traits):
    functions = Functions()
    for lines in sources(crate):
        functions.read(lines)
    owners, copies = list(exported(crate)), []
    for owner in owners + sorted(set(functions.impls) - set(owners)):
        for name, sentence, names, is_law in functions.found.get(owner, []) if owner in owners else []:
            if name.endswith("::try_copy"):
                copies.append(f"`{name}`")
                continue
            told = ", ".join(f"`{it}`" if it else "unnamed" for it in names)
            yield f"`{name}`", ("Law: " if is_law else "") + cell(sentence), told or "none"
        for trait in functions.impls.get(owner, []):
            if trait in traits:
                yield f"`{owner}` as `{trait}`", "Keeps every clause of the trait.", "of the trait"
    if copies:
        yield ", ".join(copies), "An equal value in memory of its own.", "unnamed"


def page():
    """The page of tables. What docs/proved.md says by hand has to have a chapter for each crate."""
    traits = {name for crate in product_crates() for lines in sources(crate) for line in lines
              for name in re.findall(r"^pub trait (\w+)", line)}
    out = [INTRODUCTION]
    for crate in product_crates():
        if is_library(crate):
            out.append(f"## `{crate}`\n\n{table(('Function', 'What it does', 'Clauses'), rows_of(crate, traits))}\n")
    return "\n".join(out)


def missing_chapters():
    """The crates of which docs/proved.md has no chapter, and those that it has one of and that are none."""
    found = re.findall(r"^## `(\w+)`", read("docs", "proved.md"), re.M)
    crates = list(product_crates())
    for crate in crates:
        if crate not in found:
            yield f"docs/proved.md has no chapter of the crate {crate}"
    for name in found:
        if name not in crates:
            yield f"docs/proved.md has a chapter of {name}, which is no crate of the product"
