"""The road of a POST of an update, as a static graph of calls, from the function that serves the connections.

The graph is approximate. A call is found by the name of a function, by the `use` that names it, or by the type before `::`. For a method
the receiver's type is looked for: `self`, a parameter, a field, or a value made by a function whose result is known. Where it is not
known, all methods of that name in the crate and those below it are taken, but for names that `std` has too. Calls through `?` and `==`,
and those of `Display` by `write!`, are not followed. A trait's method leads to all that have it, but for the tables that only tests use.
Arms of a match for other requests, routes and replies are left out.
"""
import collections
import functools
import re

from counting.functions import end_of, functions
from counting.sources import Missing, crates, product_sources, read

START = "wire_tcp", "serve"
# The tables that only tests use.
TESTED = {"MemTable", "FailTable"}
# What of requests, routes and replies is on the road.
UPDATES = {"Update", "IdReused", "Servfail", "NotAuth", "NotZone"}
ARM = re.compile(r"(?:\b(?:Request|Route|Reply)::(\w+)(?:\s*(?:\{[^{}]*\}|\([^()]*\)))?\s*\|?\s*)+=>")
CALL = re.compile(r"(?<![\w.])((?:\w+(?:::<[^()]*?>)?::)*)([a-z_]\w*)(?:::<[^()]*?>)?\s*\(|([\w.]*|\))\s*\.\s*(\w+)(?:::<[^()]*?>)?\s*\(")
USED = re.compile(r"^(?:pub(?:\(crate\))? )?use (\w+)(?:::\w+)*::(?:\{([^}]*)\}|(\w+))", re.M)
FIELD = re.compile(r"^    (?:pub(?:\(crate\))? )?(\w+): ([^\n]*),", re.M)
STRUCT = re.compile(r"^(?:pub(?:\(crate\))? )?struct (\w+)[^{;]*\{", re.M)
MADE = re.compile(r"\blet (?:mut )?(\w+)(?:: [^=;]*)? = (?:match )?((?:\w+::)*)(\w+)(?:::<[^()]*?>)?\(")
# Methods of `std` that are no sign of one of the product's, where the receiver is not known.
OF_STD = frozenset("""all and_then any append as_bytes as_mut as_ref as_slice as_str borrow cmp chunks clear clone cloned concat consume
contains copied count drain end ends_with enumerate eq expect extend fill filter find first flush fmt get get_mut insert into is_empty
is_err is_none is_ok is_some is_char_boundary iter iter_mut join keys last len lines map map_err max min new next number ok ok_or
partial_cmp parse peek pop position push read remove replace rev reverse skip sort split split_at split_first split_last starts_with step
sum swap take text then to_string trim truncate try_clone unwrap unwrap_or values windows write write_all write_str zip""".split())


@functools.cache
def by_name():
    """The functions with a body by their names."""
    found = collections.defaultdict(list)
    for one in functions():
        found[one.name].append(one)
    return found


@functools.cache
def types():
    """The types and traits of the product that hold functions."""
    return {one.holder for one in functions()} - {""}


@functools.cache
def fields():
    """The types of the fields of each struct."""
    found = {}
    for path in product_sources():
        text = read(path)
        for struct in STRUCT.finditer(text):
            found.setdefault(struct[1], {}).update(FIELD.findall(text[struct.end() - 1:end_of(text, struct.end() - 1)]))
    return found


@functools.cache
def used(path):
    """The crate that each name of a file's `use` lines is of; `crate` for its own."""
    names = {}
    for first, several, one in USED.findall(read(path)):
        for name in (several or one).split(","):
            names[name.split(" as ")[-1].strip().split("::")[-1]] = first
    return names


def base(text, function):
    """The type of the product in the text of a type: without borrows and boxes, and of a parameter the trait that bounds it."""
    names = re.findall(r"[A-Z]\w*", re.sub(r"'\w+", "", text))
    for name in names:
        if name == "Self":
            return function.holder
        bound = re.search(rf"\b{name}: (?:&?\w+::)?(\w+)", function.generics) if len(name) == 1 else None
        name = bound[1] if bound else name
        if name in types():
            return name
        if name not in ("Result", "Option", "Ok", "Box", "Cow"):
            return "std"
    return "std" if names or re.search(r"\b(?:u8|u16|u32|u64|usize|bool|str|char)\b", text) else None


def result_of(function):
    found = re.search(r"->\s*([^{;]*)", function.generics)
    return base(found[1], function) if found else "std"


def type_of(receiver, function):
    """The type of a receiver, "std" for one that is none of the product's, or None where it is not known."""
    first, *rest = receiver.split(".")
    if first == "self":
        found = function.holder
    else:
        declared = next((one.split(":", 1)[1] for one in function.parameters if re.match(rf"(?:mut )?{first}\s*:", one)), None)
        found = base(declared, function) if declared else made_type(first, function)
    for name in rest:
        declared = fields().get(found, {}).get(name)
        found = base(declared, function) if declared else None
    return found


def made_type(name, function):
    """The type of a value that a function made whose result is known."""
    for made, of, called in MADE.findall(function.body):
        if made == name:
            holder = of.split("::")[-2] if of else ""
            found = {result_of(one) for one in by_name()[called] if not holder or one.holder in (holder, function.holder if holder == "Self" else "")}
            if len(found) == 1:
                return found.pop()
    return None


def seen(function, one):
    """Whether a function may name another: it is of its own crate or of one below."""
    return one.crate in crates()[function.crate]


def has_receiver(one):
    """Whether a function takes `self`."""
    return bool(one.parameters) and bool(re.match(r"&?(?:'\w+ )?(?:mut )?self\b", one.parameters[0]))


def of_type(name, holder, function):
    """The functions of a type by name; of a trait those of all that have it."""
    found = [one for one in by_name()[name] if one.holder == holder and seen(function, one)]
    if any(one.trait == holder for one in found):
        found += [one for one in by_name()[name] if one.trait == holder and one.holder not in TESTED | {holder}]
    return found


def free(name, function):
    """The functions without a holder by name: of the same file, of the crate that a `use` names, or of the crate itself."""
    found = [one for one in by_name()[name] if not one.holder]
    here = [one for one in found if one.path == function.path]
    where = used(function.path).get(name)
    if where not in (None, "crate", "self", "super"):
        return [one for one in found if one.crate == where]
    return here or [one for one in found if one.crate == function.crate and where]


def called(found, function):
    """The functions that a call may be of."""
    qualifier, name, receiver, method = found.groups()
    if method:
        holder = type_of(receiver, function) if re.fullmatch(r"\w+(?:\.\w+)*", receiver or "") else None
        if holder and holder != "std":
            return of_type(method, holder, function)
        if holder == "std" or method in OF_STD:
            return []
        return [one for one in by_name()[method] if has_receiver(one) and one.holder not in TESTED and seen(function, one)]
    if not qualifier:
        return free(name, function)
    last = [one for one in re.sub(r"<[^()]*?>", "", qualifier).split("::") if one][-1]
    if last == "Self" or last[0].isupper():
        holder = function.holder if last == "Self" else last
        bound = re.search(rf"\b{holder}: (?:\w+::)?(\w+)", function.generics) if len(holder) == 1 else None
        return of_type(name, bound[1] if bound else holder, function)
    where = used(function.path).get(last, last)
    wanted = function.crate if where in ("crate", "self", "super") else where
    return [one for one in by_name()[name] if not one.holder and (one.crate == wanted or one.path.endswith(f"/{last}.rt") and one.crate == function.crate)]


def on_the_road(body):
    """A body without the arms for other requests, routes and replies."""
    at = 0
    while found := ARM.search(body, at):
        names = set(re.findall(r"\b(?:Request|Route|Reply)::(\w+)", found[0]))
        at = found.end()
        if not names & UPDATES:
            end = end_of_arm(body, found.end())
            body = body[:found.start()] + " " * (end - found.start()) + body[end:]
    return body


def end_of_arm(body, at):
    """The place behind an arm whose expression begins at a place."""
    while at < len(body) and body[at] not in ",})":
        at = end_of(body, at) if body[at] in "([{" else at + 1
        if body[at - 1:at] == "}":
            return at
    return at


@functools.cache
def calls(function):
    """The functions that a function calls, in the order of its body."""
    found = {}
    for call in CALL.finditer(on_the_road(function.body)) if function.body else ():
        for one in called(call, function):
            found.setdefault(one)
    return list(found)


def road():
    """The functions that are reached, each with its depth in a walk that goes down first and enters each once."""
    starts = [one for one in by_name()[START[1]] if one.crate == START[0]]
    if len(starts) != 1:
        raise Missing(f"{len(starts)} functions are named {'::'.join(START)}")
    depths, stack = {starts[0]: 1}, [iter(calls(starts[0]))]
    while stack:
        following = next((one for one in stack[-1] if one not in depths), None)
        if following is None:
            stack.pop()
        else:
            depths[following] = len(stack) + 1
            stack.append(iter(calls(following)))
    return depths


def serving():
    """The functions of the product whose name is `serve` or begins with `serve_`."""
    return [one for one in functions() if re.fullmatch(r"serve(?:_\w+)?", one.name)]
