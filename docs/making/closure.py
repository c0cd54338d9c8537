"""What clauses rest on: each name in them is followed to what it stands for, and the names in that in turn."""

import functools
import os
from collections import namedtuple

from making import antt, rust
from making.files import TOP, Wrong, read

Kit = namedtuple("Kit", "module name")  # a name of the kit, which is not followed

# the names of antt's prelude, which no file imports
PRIM = {"Unit", "tt", "⊥", "¬◌", "∥◌∥₁", "absurd", "Path"}
PRIM_WORDS = antt.words_of(PRIM)
# names of the kit in small letters that stand on the left of clauses: whether they are constructors, or hidden by a variable
SMALL = {**dict.fromkeys("true false zero suc pos negsuc no_members member no_items item string array table".split(), True), "length": False}


@functools.cache
def spec(path):
    """A file of definitions; None if it is not there."""
    return antt.Spec(path) if os.path.exists(os.path.join(TOP, path)) else None


@functools.cache
def source(crate, path):
    return rust.Source(crate, path)


@functools.cache
def is_ours(crate):
    return os.path.isdir(os.path.join(TOP, "crates", crate))


@functools.cache
def kit_crates():
    """What the crates stand on, by crates.txt, and what is always there."""
    below = [line.partition(":")[2].split() for line in read("crates.txt").splitlines() if not line.startswith("#")]
    return {"std", "lib", *(name for names in below for name in names)}


def of_kit(module, name, crate, where):
    if crate not in kit_crates():
        raise Wrong(f"{where}: there is no crate {crate}, of which {name} is to be")
    return Kit(module, name)


def item(one, where):
    """What an import brings in: a definition, an item of Rust, or a name of the kit."""
    library, crate, *rest = one.module.split(".")
    if library != "Rattle" or not is_ours(crate):
        return of_kit(one.module, one.of, library if library != "Rattle" else crate, where)
    room, *parts = rest
    if parts[:1] in (["declared"], ["contracts"]):
        return declared(crate, parts[1:], one.of, where)
    path = f"crates/{crate}/{room}/{'/'.join(parts)}.antt"
    file = spec(path)
    if file is None:
        raise Wrong(f"{where}: there is no {path}")
    if one.of in file.by_name:
        return file.by_name[one.of]
    if one.of in file.imports and file.imports[one.of].is_public:
        return item(file.imports[one.of], where)
    raise Wrong(f"{where}: {path} has no {one.of}")


def declared(crate, parts, name, where):
    """An item of Rust by the module that is made of it: `file.Type`, `file.Type.TheVariants`, `file.TheConstants`."""
    is_variant = parts[-1] == "TheVariants"
    folder = parts[:-2] if is_variant else parts[:-1]
    file = source(crate, rust.file_of(crate, folder))
    wanted = parts[-2] if is_variant else name if parts[-1] == "TheConstants" else parts[-1]
    if wanted not in file.items:
        raise Wrong(f"{where}: {file.path} has no {wanted}")
    if is_variant and name not in rust.variants(file.items[wanted]):
        raise Wrong(f"{where}: {wanted} of {file.path} has no {name}")
    return file.items[wanted]


class Names:
    """What names stand for in a place: those that it declares and imports."""

    def __init__(self, path, imports, own, words):
        self.path, self.imports, self.own, self.words = path, imports, own, words

    def target(self, token):
        """What a token stands for; None for what is built in."""
        first, *rest = antt.path_of(token.text)
        where = f"{self.path}:{token.line}"
        if first in self.own:
            return self.own[first]
        if first in self.imports:
            return self.imported(self.imports[first], rest, where)
        if first == "Rattle":
            return item(antt.Import(rest[-1], ".".join([first, *rest[:-1]]), rest[-1], False), where)
        if first in PRIM or first in PRIM_WORDS:
            return None
        operators = self.words.get(first, [])
        if len(operators) == 1:
            return self.target(token._replace(text=operators[0]))
        raise Wrong(f"{where}: {'several operators have' if operators else 'nothing is called'} {token.text}")

    def imported(self, one, rest, where):
        """What a name that is imported stands for, alone or with what follows behind a dot."""
        if one.of is not None:
            return item(one, where)
        if not rest:
            raise Wrong(f"{where}: {one.name} is a module")
        return item(one._replace(of=rest[0]), where)

    def is_constructor(self, token):
        """Whether a name on the left of a clause matches a constructor, and binds nothing."""
        if token.text in self.words:
            return True
        if token.text not in self.own and token.text not in self.imports:
            return token.text == "tt"
        one = self.imports.get(token.text)
        if one and one.of is None:
            return False
        found = self.target(token)
        if isinstance(found, Kit):
            return is_constructor_of_kit(found, f"{self.path}:{token.line}")
        if isinstance(found, rust.Item):
            return one.module.endswith("TheVariants")
        return (one.of if one else token.text) in found.constructors


def is_constructor_of_kit(found, where):
    """By the capital of its name, or by the list."""
    if found.name[0].islower() and found.name not in SMALL:
        raise Wrong(f"{where}: SMALL of docs/making/closure.py does not say whether {found.name} of the kit is a constructor")
    return SMALL.get(found.name, True)


@functools.cache
def names_of_spec(file):
    return Names(file.path, file.imports, file.by_name, file.words)


def names_of_item(one):
    """What names stand for in the clauses of an item of Rust."""
    imports = {**one.source.ghosts, **dict(rust.ghosts(one.source.path, one.lines, one.line))}
    return Names(one.source.path, imports, {}, antt.words_of(imports))


# Types and traits of Rust

def rust_item(file, name, where):
    """What a name of Rust stands for in a file; None for what is built in."""
    first, *rest = name.split("::")
    if first in file.items:
        return file.items[first]
    if first in file.uses:
        return at_path(file, (*file.uses[first], *rest), where)
    if first in rust.PRELUDE:
        return None
    return at_path(file, (first, *rest), where)


def at_path(file, parts, where):
    """What stands at a path of Rust, through what modules and crates pass on."""
    *front, name = parts
    if not front:
        raise Wrong(f"{where}: nothing is called {name}")
    if front[0] == "crate":
        return rust_item(source(file.crate, rust.file_of(file.crate, front[1:])), name, where)
    if rust.has_file(file.crate, [*file.modules, *front]):
        return rust_item(source(file.crate, rust.file_of(file.crate, [*file.modules, *front])), name, where)
    if is_ours(front[0]):
        return rust_item(source(front[0], rust.file_of(front[0], front[1:])), name, where)
    return of_kit("::".join(front), name, front[0], where)


def with_supertraits(file, bounds, where):
    """The traits of some bounds, with those that they stand on."""
    for name in bounds:
        found = rust_item(file, name, where)
        if found:
            yield found
        if isinstance(found, rust.Item):
            yield from with_supertraits(found.source, rust.supertraits(found), where)


def along(file, bounds, parts, where):
    """The members of traits that a path passes, `Listener` and `cut` of `M.Listener.cut`, from what bounds `M`."""
    for part in parts:
        traits = list(with_supertraits(file, bounds, where))
        found = next((one for trait in traits if isinstance(trait, rust.Item) for name, one in rust.members(trait).items() if name == part), None)
        if found is None:
            kit = [trait for trait in traits if isinstance(trait, Kit)]
            if not kit:
                raise Wrong(f"{where}: no trait has {part}")
            yield Kit(f"{kit[0].module}::{kit[0].name}", part)
            return
        yield found
        if found.is_ghost:
            return
        file, bounds = found.trait.source, found.bounds


# What each thing uses

def used_by(one):
    """What a definition, an item of Rust or a member of a trait names, without what is built in."""
    if isinstance(one, antt.Declaration):
        names = names_of_spec(one.spec)
        found = [names.target(token) for token in one.free(names.is_constructor)]
    elif isinstance(one, rust.Member):
        found = [one.trait, *used_by_member(one)]
    else:
        found = {"fn": used_by_function, "trait": lambda it: []}.get(one.kind, used_by_type)(one)
    return [it for it in found if it is not None]


def used_by_type(one):
    """What a type of Rust names: in its fields, or, where clauses see a value of a model, in the type of that."""
    model = one.source.models.get(one.name)
    if model:
        line, text = value_of(model)
        yield from from_clause(names_of_item(model), antt.tokens(text, line), set(), one.parameters(), model)
    else:
        for name in rust.named_types(one):
            if name not in one.parameters():
                yield rust_item(one.source, name, f"{one.source.path}:{one.line}")


def value_of(model):
    """The line of a model with the type of its values, and that type."""
    at = next(at for at, line in enumerate(model.lines) if line.startswith("    ghost Value ="))
    return model.line + at, model.lines[at].partition("{")[2].rpartition("}")[0]


def used_by_member(one):
    if one.is_ghost:
        text = "\n".join(one.lines).partition("{")[2].rpartition("}")[0]
        parameters = {**one.trait.parameters(), "Self": [one.trait.name]}
        yield from from_clause(names_of_item(one.trait), antt.tokens(text, one.line), set(), parameters, one.trait)


def used_by_function(one):
    """What the contract of a function names, and the types of its signature."""
    signature = one.signature()
    at = next(at for at, line in enumerate(signature) if line.strip().startswith(("requires", "ensures")))
    head, where = "\n".join(signature[:at]), f"{one.source.path}:{one.line}"
    for bounds in one.parameters().values():
        yield from (rust_item(one.source, name, where) for name in bounds)
    for name in rust.named_types(rust.Item(one.source, one.line, [], head.replace("fn ", "struct ", 1).split("\n"))):
        if name not in one.parameters():
            yield rust_item(one.source, name, where)
    bound = {"result", *rust.names_of_arguments(head)}
    for line, text in rust.clauses(one, at):
        yield from from_clause(names_of_item(one), antt.tokens(text, line), bound, one.parameters(), one)


def from_clause(names, tokens, bound, parameters, one):
    """What a clause or the type of a ghost names, where these type parameters have these bounds."""
    for token in antt.free_names(tokens, bound):
        first, *rest = antt.path_of(token.text)
        where = f"{one.source.path}:{token.line}"
        if first in parameters:
            yield from along(one.source, parameters[first], rest, where)
        elif one.kind == "trait" and first in rust.members(one):
            yield rust.members(one)[first]
        elif first not in names.imports and (first in one.source.items or first in one.source.uses):
            yield rust_item(one.source, first, where)
        else:
            yield names.target(token)


def closure(roots):
    """All that is reached from some functions, these too, in the order in which it is met."""
    reached, found = dict.fromkeys(roots), list(roots)
    while found:
        one = found.pop()
        for other in [] if isinstance(one, Kit) else used_by(one):
            if other not in reached:
                reached[other] = None
                found.append(other)
    return list(reached)
