"""What is written by hand and has to agree with the sources: each function gives a line for whatever does not."""

import glob
import json
import os
import re
from itertools import count

from making import believe, proved, sources
from making.files import TOP, read
from making.lists import spoken


def differing(path, what, found, wanted):
    """A line for what is in one of two lists only."""
    lacking = [one for one in wanted if one not in found]
    if lacking:
        yield f"{path}: {what} lack {', '.join(lacking)}"
    extra = [one for one in dict.fromkeys(found) if one not in wanted]
    if extra:
        yield f"{path}: {what} have {', '.join(extra)}, and the sources do not"


# Record types, actions, defaults

def rules_of_page():
    """The rules for zones that the page knows."""
    found = re.search(r"^export const RULES = \[(.*?)\];", read("web", "rules.js"), re.M | re.S)
    return re.findall(r'"([\w-]+)"', found[1] if found else "")


def keys_of_page():
    """What the page says, in each language, of each type and action, and of each rule for zones."""
    yield from differing("web/rules.js", "the rules for zones", rules_of_page(), sources.rules())
    tables = sorted(glob.glob(os.path.join(TOP, "web", "text-*.js")))
    for path in [os.path.relpath(table, TOP) for table in tables]:
        keys = re.findall(r'^    "?([\w -]+?)"?:', read(*path.split("/")), re.M)
        for name, wanted in ("form", sources.type_names()), ("what", sources.actions()), ("action", sources.actions()):
            yield from differing(path, f"the words of {name}", [key.split()[1] for key in keys if key.startswith(f"{name} ")], wanted)
        yield from differing(path, "the rules for zones", [key for key in keys if re.fullmatch("[a-z]+-[a-z-]+", key)], sources.rules())


def rules_of_client():
    """The rules for zones that the client knows, and those that its reports may have."""
    found = re.search(r"^RULES = \{(.*?)^\}", read("client", "office_client", "tables.py"), re.M | re.S)
    yield from differing("client/office_client/tables.py", "the rules for zones", re.findall(r'^    "([a-z-]+)": \(', found[1] if found else "", re.M), sources.rules())
    report = json.loads(read("client", "report.schema.json"))
    yield from differing("client/report.schema.json", "the rules for zones", report["properties"]["findings"]["items"]["properties"]["rule"]["enum"], sources.rules())


def stated():
    """What texts of the program itself say of other tables."""
    actions, types = spoken(sources.actions(), "or"), spoken(sources.type_names(), "or")
    advice = "".join(one.advice for one in sources.refusals())
    for text in f"an action is {actions};", f"Use {types}.":
        if text not in advice:
            yield f"{sources.REFUSALS} does not say: {text}"
    helps = {one.name: one.help for one in sources.arguments().values()}
    seconds = {name: f", {number} if left out" for name, number in sources.defaults().items()}
    for name, text in {"action": actions, **seconds}.items():
        if not helps.get(name, "").endswith(text):
            yield f"{sources.ARGUMENTS}: the help of {name} does not say: {text}"
    for word in re.findall("[a-z]+-[a-z-]+", helps["only"]):
        if word not in sources.rules():
            yield f"{sources.ARGUMENTS}: the help of only says {word}, which is not a rule for zones"


def defaults_of_formats():
    """The defaults, in brackets behind the option, or in the next cell of a table."""
    page = read("docs", "formats.md")
    for name, number in sources.defaults().items():
        found = re.findall(rf"`--{name} SECONDS`(?: \| |[^.|]*?\()(\d+)(?= by default| \|)", page)
        if set(found) != {number}:
            yield f"docs/formats.md: the default of --{name} is {number}, and the page says {' and '.join(found) or 'none'}"


# Commands

def commands_of_page():
    """The commands of the tables of docs/commands.md."""
    tables = re.findall(r"^\| Over .*\n(?:\|.*\n)+", read("docs", "commands.md"), re.M)
    found = re.findall(r"^\| `(\w+)", "".join(tables), re.M)
    yield from differing("docs/commands.md", "the tables of commands", found, [one.word for one in sources.commands()])


def usages():
    """The usage lines of docs/formats.md: the command, and the options and words behind it."""
    block = re.search(r"^## The command line\n\n((?:    .*\n)+)", read("docs", "formats.md"), re.M)
    lines = re.sub(r"\n +(?=\[)", " ", block[1] if block else "")
    for word, behind in re.findall(r"^    zoneoffice \[?(\w+)\]?(.*)$", lines, re.M):
        yield word, re.split(r"  +", behind.strip())[0]


def taken(usage):
    """What a usage line takes: options, and words by their places, in brackets where they may be left out."""
    places = count(1)
    for bracket, option, word in re.findall(r"(\[)?(?:(--[\w-]+)(?: [A-Z][A-Z:]*)?|([A-Z]+))", usage):
        one = option or f"word {next(places)}"
        yield f"[{one}]" if bracket else one


def taken_by(command):
    """The same by the table."""
    places = count(1)
    for argument in command.arguments:
        one = f"word {next(places)}" if "Place" in argument.form else f"--{argument.name}"
        yield one if argument.form in ("Needed", "Place") else f"[{one}]"


def usages_of_formats():
    """What each command takes. Where it has several usage lines, or one of choices, they are compared by their options alone."""
    found = {}
    for word, usage in usages():
        found.setdefault(word, []).append(usage)
    yield from differing("docs/formats.md", "the usage lines", found, [one.word for one in sources.commands()])
    for command in sources.commands():
        lines, wanted = found.get(command.word, []), list(taken_by(command))
        words = [one for line in lines for one in taken(line)]
        if len(lines) > 1 or "|" in "".join(lines):
            words, wanted = ([one.strip("[]") for one in several if "--" in one] for several in (words, wanted))
        yield from differing("docs/formats.md", f"the usage lines of {command.word}", words, wanted)


def rules_of_formats():
    """The rules by which `check zone` checks."""
    page = re.search(r"^\| Rule \| What is wrong \|.*\n((?:\|.*\n)+)", read("docs", "formats.md"), re.M)
    yield from differing("docs/formats.md", "the rules for zones", re.findall(r"^\| `([a-z-]+)`", page[1] if page else "", re.M), sources.rules())


def chapters_of_formats():
    """The chapters of docs/formats.md on commands."""
    found = re.findall(r"`(\w+)`", "".join(re.findall(r"^## (`.*)$", read("docs", "formats.md"), re.M)))
    yield from differing("docs/formats.md", "the chapters", found, [one.word for one in sources.commands()])


# Routes and refusals over HTTP

def routes_of_openapi():
    """The office's routes; the files of the page are the front server's."""
    found, path = [], None
    for line in read("docs", "openapi.yaml").splitlines():
        path = (re.match(r"  (/\S+):$", line) or [None, path])[1]
        method = re.match(r"    (get|post|put|delete|patch|head):$", line)
        if method and not path.startswith("/page/"):
            found.append(f"{method[1].upper()} {path}")
    yield from differing("docs/openapi.yaml", "the paths", found, [f"{one.method} {one.path}" for one in sources.routes()])


def routes_of_api():
    """The routes of which docs/api.md tells, beside its table."""
    found = re.findall(r"(?<!\| )`((?:GET|POST|PUT|DELETE) /\S+)`", read("docs", "api.md"))
    yield from differing("docs/api.md", "the chapters", found, [f"{one.method} {sources.plain_path(one.path)}" for one in sources.routes()])


def numbers_of_openapi():
    """The numbers of refusals of docs/openapi.yaml, which are those of the table of docs/api.md."""
    enums = re.findall(r"^ +refusal:\n +type: integer\n +enum: \[(.*)\]", read("docs", "openapi.yaml"), re.M)
    found = sorted({number for one in enums for number in one.split(", ")})
    page = re.search(r"^\| Number \| Status \|.*\n((?:\|.*\n)+)", read("docs", "api.md"), re.M)
    wanted = re.findall(r"^\| (\d+) \|", page[1] if page else "", re.M)
    yield from differing("docs/openapi.yaml", "the numbers of refusals", found, wanted)


# What is proved

def lines_to_read():
    """How many lines the definitions of docs/made/believe.md have, where a page states it."""
    wanted = believe.lines_of_definitions()
    for path in "README.md", "docs/promises.md":
        for found in re.findall(r"([\d,]+) lines of definitions", read(path)):
            if found != wanted:
                yield f"{path}: the top contracts reach {wanted} lines of definitions, and the page says {found}"


AGREEMENTS = (keys_of_page, rules_of_client, stated, defaults_of_formats, commands_of_page, usages_of_formats, rules_of_formats, chapters_of_formats,
              routes_of_openapi, routes_of_api, numbers_of_openapi, lines_to_read, proved.missing_chapters)
