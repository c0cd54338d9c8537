"""The items of the Rust sources that clauses speak of: types, traits with their ghost members, constants, and functions with their contracts."""

import functools
import os
import re

from making import antt
from making.files import TOP, Wrong, read

ITEM = re.compile(r"(?P<pub>pub(?:\([^)]*\))? )?(?:const (?=fn))?(?P<kind>ghost use|use|struct|enum|trait|fn|static|const|type|impl)\b(?: (?P<name>\w+))?")
MODEL = re.compile(r"impl(?:<.*?>)? Model for (\w+)")
MEMBER = re.compile(r"    (?:ghost (?P<ghost>\w+):|type (?P<type>\w+)(?:: (?P<bounds>.*))?;)")
ENDS = ("}", "};", "];", ");", "{}")
WORDS = {"pub", "crate", "dyn", "mut", "const", "ghost", "where", "impl", "for", "as", "self", "str", "bool", "char", "u8", "u16", "u32", "u64",
         "u128", "usize", "i8", "i16", "i32", "i64", "i128", "isize"}
PRELUDE = {"Vec", "String", "Option", "Result", "Box", "Self", "Drop", "Clone", "Copy", "Sized", "PartialEq", "Eq", "PartialOrd", "Ord", "HostRuntime"}


class Item:
    """An item with its doc comment, without its attributes."""

    def __init__(self, source, line, doc, lines):
        self.source, self.line, self.doc, self.lines = source, line, doc, lines
        head = ITEM.match(lines[0])
        self.kind, self.name = (head["kind"], head["name"]) if head else (None, None)

    def text(self):
        return "\n".join(self.lines)

    def signature(self):
        """The lines in front of the body."""
        end = next((at for at, line in enumerate(self.lines) if line in ("{", "{}")), None)
        return self.lines[:end]

    def parameters(self):
        """The type parameters, with what bounds them."""
        found = re.match(r".*?\b(?:fn|struct|enum|trait) \w+<(.*)", self.text(), re.S)
        inner = enclosed(found[1], ">") if found else ""
        return {name.strip(): bounds_of(bounds) for name, _, bounds in (one.partition(":") for one in split(inner)) if not name.strip().startswith("'")}

    def without_parameters(self):
        found = re.match(r"(.*?\b(?:struct|enum|trait) \w+)<(.*)", self.text(), re.S)
        return found[1] + found[2][len(enclosed(found[2], ">")) + 1:] if found else self.text()


def enclosed(text, closing):
    """The front of a text up to the bracket that closes what was open before it."""
    depth = 0
    for at, one in enumerate(text):
        if one == closing and not depth and text[at - 1] != "-":
            return text[:at]
        depth += (one in "(<[{") - (one in ")>]}" and text[at - 1:at + 1] != "->")
    return text


def split(text):
    """The parts of a list between commas, outside brackets."""
    parts = []
    while text.strip():
        parts.append(enclosed(text, ","))
        text = text[len(parts[-1]) + 1:]
    return parts


def bounds_of(text):
    return [one.strip().partition("<")[0] for one in text.split("+") if one.strip()]


class Source:
    """A file of Rust: its items by name, and what it imports in code and in clauses."""

    def __init__(self, crate, path):
        self.crate, self.path = crate, path
        self.modules = path.removesuffix(".rt").split("/")[3:] if not path.endswith("/lib.rt") else []
        self.items, self.models, self.uses, self.ghosts = {}, {}, {}, {}
        for one in items(self, read(path).split("\n")):
            self.add(one)

    def add(self, one):
        model = MODEL.match(one.lines[0])
        if one.kind == "use":
            self.uses.update(used(" ".join(one.text().split())[:-1].partition("use ")[2]))
        elif one.kind == "ghost use":
            self.ghosts.update(ghosts(self.path, [one.lines[0]], one.line))
        elif model:
            self.models[model[1]] = one
        elif one.name and one.kind != "impl":
            self.items[one.name] = one


def items(source, lines):
    """The items of a file."""
    doc, at = [], 0
    while at < len(lines):
        line, begun = lines[at], at
        if line.startswith("///"):
            doc.append(line)
        elif line.startswith("#["):
            at = end_of(lines, at, ("]",))
        elif line and not line.startswith(("//", "#!", " ")):
            is_line = re.match(r"(?:pub(?:\([^)]*\))? )?(?:ghost use|use|static|const (?!fn)|type|mod) ", line)
            at = end_of(lines, at, (";",)) if is_line else end_of_block(lines, at)
            yield Item(source, begun + 1, doc, without_attributes(lines[begun:at + 1]))
            doc = []
        else:
            doc = []
        at += 1


def end_of(lines, at, ends):
    """The line, from this one on, that ends so."""
    while at + 1 < len(lines) and not lines[at].endswith(ends):
        at += 1
    return at


def end_of_block(lines, at):
    """The line that ends the item which begins here."""
    if lines[at].endswith((";", "}")):
        return at
    at += 1
    while at + 1 < len(lines) and lines[at] not in ENDS:
        at += 1
    return at


def without_attributes(lines):
    kept, at = [], 0
    while at < len(lines):
        if lines[at].strip().startswith("#["):
            at = end_of(lines, at, "]")
        else:
            kept.append(lines[at])
        at += 1
    return kept


def used(text, front=()):
    """What a `use` brings in, by name, as the parts of its path."""
    path, _, inner = text.partition("{")
    if inner:
        front = (*front, *path.strip(": ").split("::")) if path else front
        for one in split(inner.rpartition("}")[0]):
            yield from used(one.strip(), front)
        return
    path, _, alias = text.partition(" as ")
    parts = (*front, *path.split("::"))
    if parts[-1] == "self":
        parts = parts[:-1]
    yield alias or parts[-1], parts


def ghosts(path, lines, line):
    """What `ghost use` lines bring in, by name."""
    for at, text in enumerate(lines, line):
        if text.strip().startswith("ghost use "):
            yield from ((it.name, it) for it in antt.imports(path, text.strip().removeprefix("ghost ").rstrip(";"), at))


# Types

def named_types(one):
    """The types that the fields or the variants of a type name."""
    text = re.sub(r'//.*|"(?:[^"\\]|\\.)*"', "", one.without_parameters())
    if re.search(r"^    (?:pub )?ghost \w+:", text, re.M):
        raise Wrong(f"{one.source.path}:{one.line}: the ghost fields of {one.name} are not followed")
    text = text.partition(one.name)[2]
    found = re.findall(r"'\w+|\w+(?:::\w+)*|::|[{}()\[\],:;=]", text)
    depth = 0
    for before, token, behind in zip(["", *found], found, [*found[1:], ""]):
        depth += (token in "{([") - (token in "})]")
        is_variant = one.kind == "enum" and depth == 1 and before in ("{", ",")
        if re.match(r"[A-Za-z_]", token) and behind != ":" and not is_variant and token not in WORDS:
            yield re.match(r"(?:[a-z_]\w*::)*\w+", token)[0]


def variants(one):
    """The names of the variants of an enum."""
    return re.findall(r"^    (\w+)(?:[,({ ]|$)", one.text(), re.M)


# Functions

def names_of_arguments(head):
    """The names of the arguments of a function, by what stands in front of its clauses."""
    inner = re.search(r"\bfn \w+(?:<.*?>)?\((.*)", head, re.S)
    return [one.partition(":")[0].strip() for one in split(enclosed(inner[1], ")"))]


def clauses(one, first):
    """The lines and texts of the clauses of a function, of which the first stands on this of its lines."""
    found = []
    for at, line in enumerate(one.signature()[first:], one.line + first):
        if re.match(r" +(?:requires|ensures)\b", line):
            found.append((at, [line.partition("{")[2]]))
        elif not line.strip().startswith("//"):
            found[-1][1].append(line)
    return [(at, "\n".join(lines).rpartition("}")[0]) for at, lines in found]


# Traits

class Member:
    """A ghost or a type of a trait."""

    def __init__(self, trait, line, comment, lines, found):
        self.trait, self.line, self.comment, self.lines = trait, line, comment, lines
        self.name, self.is_ghost = found["ghost"] or found["type"], bool(found["ghost"])
        self.bounds = bounds_of(found["bounds"] or "")


@functools.cache
def members(trait):
    """The ghosts and types of a trait, by name."""
    comment, found, at = [], {}, 0
    while at < len(trait.lines):
        line, begun = trait.lines[at], at
        member = MEMBER.match(line)
        if member:
            at = end_of(trait.lines, at, ";")
            found[member["ghost"] or member["type"]] = Member(trait, trait.line + begun, comment, trait.lines[begun:at + 1], member)
        comment = [*comment, line] if line.strip().startswith("//") else []
        at += 1
    return found


def supertraits(trait):
    """What a trait stands on, by its head."""
    found = re.match(r".*?trait \w+: ([^{]*)\{", trait.without_parameters())
    return bounds_of(found[1]) if found else []


# Files

def path_of(crate, modules):
    return f"crates/{crate}/src/{'/'.join(modules) or 'lib'}.rt"


def has_file(crate, modules):
    return os.path.exists(os.path.join(TOP, path_of(crate, modules)))


def file_of(crate, modules):
    """The path of the file of a module."""
    if not has_file(crate, modules):
        raise Wrong(f"{path_of(crate, modules)} is not there")
    return path_of(crate, modules)
