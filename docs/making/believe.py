"""All that the contracts at the top say: these contracts, and every definition, type and ghost that they reach, each once."""

import functools
import re
from collections import namedtuple

from making import antt, closure, rust
from making.definitions import head_of, modules, plain, sentence
from making.files import Wrong, product_crates, read, table

INTRODUCTION = """# What to read to believe the top contracts

The contracts of `updates_are_made_once`, `starts_have_one_history` and `do_words`, and everything that they say, each once: the definitions of `specs/` that they reach, the types of the sources, and the ghosts of traits, which whoever calls chooses. Crates stand in the order of `crates.txt` and files in that of `specs/Lib.antt`, so that mostly a definition rests on those above it; in a crate the types come first. Nothing else has to be read to know what is promised, but the names of the kit at the end. That it holds is proved.

{counts}

A line is one of a definition, without comments and empty lines. Attributes of types are left out. Where clauses see a type as a value of another one, by `Model`, its fields are left out too.

`docs/make believe` makes this page from the sources.
"""

# the crate, the file and the function
TOP_CONTRACTS = (("office_core", "laws", "updates_are_made_once"), ("cli_store", "start_laws", "starts_have_one_history"),
                 ("cli_store", "program", "do_words"))

Reached = namedtuple("Reached", "contracts definitions types members traits kit")


def contract(crate, module, name):
    file = closure.source(crate, rust.file_of(crate, [module]))
    if name not in file.items:
        raise Wrong(f"{file.path} has no {name}")
    return file.items[name]


@functools.cache
def reached():
    """What the top contracts reach, by its kind."""
    contracts = [contract(*one) for one in TOP_CONTRACTS]
    found = closure.closure(contracts)
    items = [one for one in found if isinstance(one, rust.Item)]
    return Reached(
        contracts,
        [one for one in found if isinstance(one, antt.Declaration)],
        [one for one in items if one.kind not in ("fn", "trait")],
        [one for one in found if isinstance(one, rust.Member)],
        [one for one in items if one.kind == "trait"],
        [one for one in found if isinstance(one, closure.Kit)],
    )


# Counts

def is_code(line):
    return bool(line.strip()) and not line.strip().startswith(("--", "//"))


def lines_of(texts):
    return sum(is_code(line) for text in texts for line in text.split("\n"))


def number(count):
    return f"{count:,}"


def lines_of_definitions():
    """How many lines the definitions have, as pages state it."""
    return number(lines_of("\n".join([*one.fixity, *one.lines]) for one in reached().definitions))


def rows():
    """What there is, how much of it, and in how many lines."""
    it = reached()
    yield "contracts", number(len(it.contracts)), number(lines_of("\n".join(one.signature()) for one in it.contracts))
    yield "definitions", number(len(it.definitions)), lines_of_definitions()
    yield "types and tables of the sources", number(len(it.types)), number(lines_of(shown(one) for one in it.types))
    yield "ghosts and types of traits", number(len(it.members)), number(lines_of("\n".join(one.lines) for one in it.members))
    yield "names of the kit", number(len(it.kit)), ""


def counted():
    """The same in one line."""
    return "; ".join(f"{count} {what}" + (f" in {lines} lines" if lines else "") for what, count, lines in rows())


# Rust

def shown(one):
    """A type or a table as it stands; of a type with a model what clauses see."""
    model = one.source.models.get(one.name)
    if not model:
        return "\n".join([*one.doc, *one.lines])
    head = re.sub(r" *[({;].*", " { .. }", one.lines[0])
    values = [line for line in model.lines if line.startswith("    ghost Value =")]
    return "\n".join([*one.doc, head, "", model.lines[0], *values, "}"])


def shown_trait(one):
    """A trait with those of its ghosts and types that are reached."""
    found = [it for it in rust.members(one).values() if it in reached().members]
    parts = ["\n".join([*it.comment, *it.lines]) for it in found]
    return "\n".join([*one.doc, one.lines[0], "\n\n".join(parts), "}"])


def fenced(language, texts):
    return f"```{language}\n" + "\n\n".join(texts) + "\n```\n"


def sources_of(crate):
    """The types and traits of a crate, file by file."""
    it = reached()
    found = {one: shown_trait(one) if one.kind == "trait" else shown(one) for one in [*it.types, *it.traits] if one.source.crate == crate}
    for file in sorted({one.source.path for one in found}):
        texts = [text for one, text in sorted(found.items(), key=lambda row: row[0].line) if one.source.path == file]
        yield f"### `{file.partition('/src/')[2]}`\n\n{fenced('rust', texts)}"


# Definitions

def texts_of(definitions):
    """The definitions of a file, each under its comment, which several may share, and within its section."""
    group = section = None
    for one in definitions:
        comment = one.group.comment if one.group is not group else []
        margin = "  " if one.section else ""
        front = [one.section] if one.section and one.section != section else []
        yield "\n".join([*front, *(margin + line if line else "" for line in [*comment, *one.fixity, *one.lines])])
        group, section = one.group, one.section


def specs_of(crate):
    """The definitions of a crate, file by file."""
    by_path = {}
    for one in reached().definitions:
        by_path.setdefault(one.spec.path, []).append(one)
    listed = [f"crates/{crate}/specs/{name}.antt" for name in modules(crate)]
    unlisted = [path for path in by_path if path.startswith(f"crates/{crate}/") and path not in listed]
    if unlisted:
        raise Wrong(f"crates/{crate}/specs/Lib.antt does not name {unlisted[0]}")
    for path in (path for path in listed if path in by_path):
        title, _ = head_of(read(path).splitlines())
        found = sorted(by_path[path], key=lambda one: one.line)
        yield f"### {path.rpartition('/')[2].removesuffix('.antt')}\n\n{plain(sentence(title))}\n\n{fenced('antt', texts_of(found))}"


def kit():
    """The names of the kit, by module."""
    by_module = {}
    for one in reached().kit:
        by_module.setdefault(one.module, []).append(one.name)
    for module in sorted(by_module):
        yield f"- `{module}`: {', '.join(f'`{name}`' for name in sorted(by_module[module]))}"


def page():
    out = [INTRODUCTION.replace("{counts}", table(("It has", "How many", "Lines"), rows())), "## The contracts\n"]
    for one in reached().contracts:
        out.append(f"`{one.source.path}`:\n\n{fenced('rust', [chr(10).join([*one.doc, *one.signature()])])}")
    for crate in product_crates():
        parts = [*sources_of(crate), *specs_of(crate)]
        if parts:
            out += [f"## `{crate}`\n", *parts]
    return "\n".join([*out, "## Names of the kit\n", *kit()]) + "\n"
