"""The tables of the sources: record types, actions, refusals, commands with what they take, and routes."""

import re
from collections import namedtuple

from making.files import Wrong, read

TYPES = "crates/dns_data/src/record_type.rt"
FIELDS = "crates/dns_data/specs/Types.antt"
ACTIONS = "crates/grant_policy/src/action.rt"
REFUSALS = "crates/refusals/src/table.rt"
COMMANDS = "crates/cli_core/src/commands.rt"
ARGUMENTS = "crates/cli_core/src/argument.rt"
DEFAULTS = "crates/wire_tcp/src/limits.rt"
ROUTES = "crates/office_wire/src/route.rt"
RULES = "crates/zone_tools/src/zone_rule.rt"

Type = namedtuple("Type", "name number fields")
Refusal = namedtuple("Refusal", "number kind name meaning advice source")
Argument = namedtuple("Argument", "name form help")
Command = namedtuple("Command", "word about example arguments")
Route = namedtuple("Route", "method path")


def listed(path, text, enum):
    """The variants of `ALL`, in their order; there have to be as many as it says."""
    found = re.search(rf"const ALL: \[{enum}; (\d+)\] = \[(.*?)\];", text, re.S)
    names = re.findall(rf"{enum}::(\w+)", found[2]) if found else []
    return counted(path, names, found[1] if found else "ALL of")


def counted(path, rows, wanted):
    """The rows, if there are any, and as many as the table says."""
    if not rows or len(rows) != int(wanted):
        raise Wrong(f"{path}: {len(rows)} rows of the {wanted} are read")
    return rows


def row_of(path, rows, name):
    if name not in rows:
        raise Wrong(f"{path}: no row of {name if isinstance(name, str) else ' '.join(map(str, name))} is read")
    return rows[name]


# Record types, actions, rules for zones

def type_names():
    """The names of the record types that are kept, by number."""
    return [name for name, _ in type_rows()]


def type_rows():
    text = read(TYPES)
    rows = dict((variant, (name, int(number))) for variant, name, number in re.findall(r'RecordType::(\w+) => \("(\w+)", (\d+)\)', text))
    return [row_of(TYPES, rows, variant) for variant in listed(TYPES, text, "RecordType")]


def types():
    """The record types with the kinds of their fields, as the definition that the readers and printers are proved to meet has them."""
    fields = re.findall(r'^row_of \w+ = row \(codes "(\w+)"\) (\d+) \(?(.*?)\)?$', read(FIELDS), re.M)
    kinds = {(name, int(number)): [one for one in told.split(" ▸ ") if one != "End"] for name, number, told in fields}
    return [Type(*row, row_of(FIELDS, kinds, row)) for row in type_rows()]


def words_of(path, enum):
    """The words of an enum, in the order of `ALL`, by its function `text`."""
    text = read(path)
    body = re.search(r"pub const fn text\(self\).*?\n    \}", text, re.S)
    words = dict(re.findall(rf'{enum}::(\w+) => "([a-z-]+)"', body[0] if body else ""))
    return [row_of(path, words, variant) for variant in listed(path, text, enum)]


def actions():
    return words_of(ACTIONS, "Action")


def rules():
    """The rules of `check zone`."""
    return words_of(RULES, "ZoneRule")


# Refusals

def refusals():
    """The rows of all refusals, in the order of the table, without the words for standard error, which follow the name."""
    text, rows = read(REFUSALS), []
    string = r'"([^"]*)",\s*'
    row = re.compile(r"\(\s*" + string + r"Kind::(\w+),\s*" + string + r'"[^"]*",\s*' + 3 * string + r"\)")
    for count, body in re.findall(r"^pub\(crate\) static \w+: \[\(&str, Kind, .*?\); (\d+)\] = \[(.*?)^\];", text, re.M | re.S):
        rows += counted(REFUSALS, [Refusal(*one) for one in row.findall(body)], count)
    return counted(REFUSALS, rows, len(rows))


# The command line

def arguments():
    """What commands take, by the variants of `Argument`."""
    row = r'Argument::(\w+) => &Row \{\s*name: "(.*?)",\s*form: Form::(\w+),\s*help: "(.*?)",\s*\}'
    return {variant: Argument(*told) for variant, *told in re.findall(row, read(ARGUMENTS))}


def commands():
    """The commands in the order of the help, with what they take after their words: each has its row in its module."""
    text, known = read(COMMANDS), arguments()
    modules = dict(re.findall(r"Command::(\w+) => &(\w+)::ROW,", text))
    return [command(f"{COMMANDS.removesuffix('.rt')}/{row_of(COMMANDS, modules, variant)}.rt", known) for variant in listed(COMMANDS, text, "Command")]


def command(path, known):
    """The command that a module has the row of."""
    row = r'static ROW: Row = Row \{\s*word: "(.*?)",\s*about: "(.*?)",\s*example: "(.*?)",\s*arguments: &\[(.*?)\],\s*\}'
    [(*told, taken)] = counted(path, re.findall(row, read(path), re.S), 1)
    return Command(*told, [row_of(ARGUMENTS, known, one) for one in re.findall(r"Argument::(\w+)", taken)])


def defaults():
    """What the numbers of seconds are that may be left out, by the names of the arguments."""
    found = dict(re.findall(r"^const (\w+): u64 = (\d+);", read(DEFAULTS), re.M))
    return {name: row_of(DEFAULTS, found, name.upper()) for name in ("patience", "longest")}


# Routes

def routes():
    """The methods and paths; a part of a path is in braces."""
    text = read(ROUTES)
    found = re.search(r"^pub\(crate\) static ROUTES: \[.*?; (\d+)\] = \[(.*?)^\];", text, re.M | re.S)
    rows = [Route(method.upper(), path) for method, path in re.findall(r'\(\s*Method::(\w+),\s*"(.*?)",', found[2] if found else "")]
    return counted(ROUTES, rows, found[1] if found else 0)


def plain_path(path):
    """A path with its parts in capitals, as the pages have it."""
    return re.sub(r"\{(\w+)\}", lambda found: found[1].upper(), path)
