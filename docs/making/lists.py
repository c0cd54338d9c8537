"""The lists of record types, actions, commands and routes that stand in files written by hand."""

import json
import os
import re

from making import sources
from making.files import TOP, Wrong, read, table
from making.marks import rows_by_hand

# what reads a field of record data on the page, by its kind; a type of strings has no fields there
READERS = {"Ipv4": "ipv4", "Ipv6": "ipv6", "Name": "someName", "Seconds": "seconds", "Digest": "digest",
           "Number U8": "octet", "Number U16": "short", "Number U32": "long"}


def spoken(words, last):
    return f"{', '.join(words[:-1])} {last} {words[-1]}"


# Record types

def types_spoken(_):
    return spoken(sources.type_names(), "and")


def types_listed(_):
    return ", ".join(sources.type_names())


def types_of_formats(old):
    return rows_by_hand("docs/formats.md", old, 1, [(one.name, str(one.number)) for one in sources.types()])


def types_in_either_case(_):
    either = ["".join(f"[{letter}{letter.lower()}]" for letter in name) for name in sources.type_names()]
    return f"pattern: '^({'|'.join(either)})$'"


def types_of_lines(_):
    return rf"pattern: '^\S*\. [0-9]+ IN ({'|'.join(sources.type_names())}) \S'"


def types_of_page(_):
    return f"const TYPES = {json.dumps(sorted(sources.type_names()))};"


def types_of_questions(_):
    return f"const KEPT = {json.dumps(sources.type_names())};"


def fields_of_page(_):
    lines = ["const FIELDS = {"]
    for one in sorted(sources.types()):
        if one.fields != ["Strings"]:
            unknown = [kind for kind in one.fields if kind not in READERS]
            if unknown:
                raise Wrong(f"web/data.js reads no field that is a {unknown[0]}, as {one.name} has one")
            lines.append(f"    {one.name}: [{', '.join(READERS[kind] for kind in one.fields)}],")
    return "\n".join([*lines, "};"])


def types_of_client(_):
    rows = [f"    {one.name!r}: {(one.number, tuple(one.fields))}," for one in sources.types()]
    return "\n".join(["TYPES = {", *rows, "}"]).replace("'", '"')


def types_of_adapters(_):
    return "TYPES = " + str(tuple(one.name for one in sources.types())).replace("'", '"')


# Modules of the page

def modules_of_page(_):
    names = sorted(name for name in os.listdir(os.path.join(TOP, "web")) if name.endswith(".js") and name != "page.js")
    return "\n".join(f'<link rel="modulepreload" href="/page/{name}">' for name in names)


# Actions

def actions_listed(_):
    return ", ".join(f"`{word}`" for word in sources.actions())


def actions_of_policy(old):
    return rows_by_hand("docs/policy.md", old, 1, [(f"`{word}`",) for word in sources.actions()])


def actions_of_openapi(_):
    return f"enum: [{', '.join(sources.actions())}]"


def actions_of_page(_):
    return f"const ACTIONS = {json.dumps(sources.actions())};"


def actions_of_client(_):
    return "ACTIONS = " + ", ".join(f'"{word}"' for word in sources.actions())


# Commands

def written(argument):
    """How an argument is written: in brackets where it may be left out."""
    value = argument.name.upper()
    return {"Needed": f"--{argument.name} {value}", "Number": f"[--{argument.name} N]", "Flag": f"[--{argument.name}]",
            "Optional": f"[--{argument.name} {value}]", "Asked": f"[--{argument.name} {value}]", "Place": value, "OptionalPlace": f"[{value}]"}[argument.form]


def arguments_of_commands(_):
    """A line for each argument, as the help has them."""
    rows = []
    for command in sources.commands():
        taken = [(written(argument), argument.help) for argument in command.arguments]
        rows += [(command.word if at == 0 else "", *one) for at, one in enumerate(taken or [("nothing", "")])]
    widths = [max(len(row[at]) for row in rows) + 2 for at in range(2)]
    return "\n".join(f"{command:<{widths[0]}}{word:<{widths[1]}}{what}".rstrip() for command, word, what in rows)


# Routes

def routes_of_formats(old):
    return rows_by_hand("docs/formats.md", old, 2, [(one.method, f"`{sources.plain_path(one.path)}`") for one in sources.routes()])


def summaries():
    """What docs/openapi.yaml says of each route."""
    path, method, found = None, None, {}
    for line in read("docs/openapi.yaml").splitlines():
        path = (re.match(r"  (/\S+):$", line) or [None, path])[1]
        method = (re.match(r"    (get|post):$", line) or [None, method])[1]
        told = re.match(r"      summary: (.*)$", line)
        if told:
            found[method.upper(), path] = told[1]
    return found


def routes_of_api(_):
    told = summaries()
    for one in sources.routes():
        if one not in told:
            raise Wrong(f"docs/openapi.yaml has no summary of {one.method} {one.path}")
    return table(("Request", "What it does"), [(f"`{one.method} {sources.plain_path(one.path)}`", told[one]) for one in sources.routes()])
