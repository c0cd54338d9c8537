"""Completion for shells: commands, options, types, actions, zones, and names that were listed lately."""

import contextlib
import hashlib
import http.client
import json
import os
import secrets
import time
import urllib.parse
from typing import Any

from . import data, names
from .helping import CHANGING, COMMANDS
from .options import LISTED, Options, read
from .pending import state_folder
from .server import LONG, Server, body_of, within
from .tables import ACTIONS, TYPES
from .telling import Bad, Lost, Refused, put

FRESH = 60  # seconds in which names are not asked for again
MOST = 20000  # names that are kept
FILES = ":files"  # what is answered where a file is expected
SHELLS = {
    "bash": """# completion of office for bash; office completion bash made it
_office() {
    local found
    mapfile -t found < <("${COMP_WORDS[0]}" complete "${COMP_WORDS[@]:1:COMP_CWORD}" 2> /dev/null)
    if [[ ${found[0]} == :files ]]; then
        mapfile -t COMPREPLY < <(compgen -f -- "${COMP_WORDS[COMP_CWORD]}")
    else
        COMPREPLY=("${found[@]}")
    fi
}
complete -F _office office
""",
    "zsh": """#compdef office
# completion of office for zsh; office completion zsh made it
_office() {
    local -a found
    found=("${(@f)$("${words[1]}" complete "${(@)words[2,CURRENT]}" 2> /dev/null)}")
    if [[ $found[1] == :files ]]; then
        _files
    else
        compadd -a found
    fi
}
if [[ $funcstack[1] == _office ]]; then
    _office "$@"
else
    compdef _office office
fi
""",
}


def cached(what: str, options: Options, fetch: list[str] | None = None) -> list[str]:
    """What was kept lately of a server and a caller, or what is put in its place."""
    key = hashlib.sha256(json.dumps([what, options.url or os.environ.get("OFFICE_URL"), options.user or os.environ.get("OFFICE_USER"),
                                     options.caller, options.zone]).encode()).hexdigest()[:32]
    path = os.path.join(state_folder(), f"names-{key}")
    if fetch is None:
        with contextlib.suppress(OSError, ValueError):
            if time.time() - os.stat(path).st_mtime < FRESH:
                with open(path, encoding="ascii") as file:
                    return [one for one in file.read(8 << 20).split("\n") if one]
        return []
    os.makedirs(state_folder(), mode=0o700, exist_ok=True)
    new = f"{path}.{secrets.token_hex(8)}"
    with open(os.open(new, os.O_WRONLY | os.O_CREAT | os.O_EXCL | os.O_NOFOLLOW, 0o600), "w", encoding="ascii") as file:
        file.write("\n".join(fetch))
    os.replace(new, path)
    return fetch


def listed_names(options: Options) -> list[str]:
    """The names of the zone's records that the caller may list. Where no zone is said, and the caller has one only, it is that."""
    if not options.zone:
        every = zones(options)
        if len(every) != 1:
            return []
        options.zone = every[0]
    found = cached("names", options)
    if found:
        return found
    reply = Server(options).get("records", "zones", names.absolute(names.octets(options.zone)), "records")
    owners = dict.fromkeys(data.record_of(line).name.removesuffix(".") for line in reply.fields.get("records", ()))
    return cached("names", options, [name for name in list(owners)[:MOST] if name.isascii() and name.isprintable()])


def zones(options: Options) -> list[str]:
    """The caller's zones, as the page lists them, and that of the environment."""
    found = [options.zone] if options.zone else []
    kept = cached("zones", options)
    if not kept:
        with contextlib.suppress(Bad, Lost, OSError):
            kept = cached("zones", options, page_zones(Server(options)))
    return list(dict.fromkeys([*kept, *found]))


def page_zones(server: Server) -> list[str]:
    """The zones in which the policy gives the caller anything, or where that is not known, all that the page lists."""
    mine = page_file(server, "my/zones.json")
    found = mine.get("origins") if isinstance(mine, dict) else page_file(server, "zones.json")
    return [one for one in found if isinstance(one, str) and one.isascii() and one.isprintable()] if isinstance(found, list) else []


def page_file(server: Server, name: str) -> Any:
    """What a JSON file of the page has, or None."""
    connection = server.connect()
    try:
        with within(server.options.seconds):
            connection.request("GET", f"{urllib.parse.urlsplit(server.base).path}/page/{name}", None, server.head())
            response = connection.getresponse()
            return json.loads(body_of(response, LONG)) if response.status == 200 else None
    except (ValueError, RecursionError, http.client.HTTPException):
        return None
    finally:
        connection.close()


def parts(words: list[str]) -> tuple[list[str], str | None]:
    """The words that are no options, and the option whose value comes next."""
    valued = {f"--{name}": name for name, value, _ in LISTED if value}
    found: list[str] = []
    waiting = None
    for word in words:
        if waiting:
            waiting = None
        elif word in valued:
            waiting = valued[word]
        elif not word.startswith("-"):
            found.append(word)
    return found, waiting


def of_kind(kind: str, options: Options) -> list[str]:
    """What a word of a kind may be."""
    if kind in ("NAME", "CHILD"):
        return listed_names(options)
    if kind in ("FILE", "OLD"):
        return [FILES]
    fixed = {"TYPE": [*TYPES, *(one.lower() for one in TYPES)], "ACTION": list(ACTIONS), "COMMAND": list(COMMANDS), "SHELL": list(SHELLS)}
    return fixed.get(kind.rstrip("."), [])


def candidates(words: list[str]) -> list[str]:
    """What the last of these words may become."""
    *before, current = words or [""]
    plain, waiting = parts(before)
    with contextlib.suppress(Bad):
        options, _ = read([word for word in before if waiting is None or word != f"--{waiting}"])
        options.tries, options.seconds = 1, 3
        if waiting:
            values = {name: value for name, value, _ in LISTED}
            return zones(options) if waiting == "zone" else of_kind(values[waiting], options)
        if current.startswith("-"):
            return [f"--{name}" for name, _, _ in LISTED]
        if plain[:1] == ["plan"]:
            plain = plain[1:]
            if not plain:
                return list(CHANGING)
        if not plain:
            return list(COMMANDS)
        kinds = COMMANDS[plain[0]].words.replace("[", "").replace("]", "").split() if plain[0] in COMMANDS else []
        return of_kind(kinds[len(plain) - 1], options) if len(plain) <= len(kinds) else []
    return []


def complete(words: list[str]) -> None:
    """Prints what the last word may become, a line each."""
    try:
        found = candidates(words)
    except (Bad, Lost, Refused, OSError, ValueError, http.client.HTTPException):
        found = []
    current = words[-1] if words else ""
    for one in found:
        if one == FILES or one.startswith(current):
            put(one)
