"""Scripts of BIND's nsupdate: their statements, which are read as nsupdate reads them."""

import re
from collections.abc import Iterable

from . import data, names
from .data import Item
from .names import Reading
from .sending import Action, Answer, Send, Show
from .session import Session
from .tables import TTL_MAX, VERSION
from .telling import Bad, say
from .update import Part, Update

KEYS = "the office knows no keys of TSIG or GSS-TSIG: delete this line, and sign in by --user with a password, or by --cert"
NO_CHECK = "the server that answers queries checks names"
IGNORED = {"server": "--url says where the office is", "local": "the system picks the address", "debug": "--verbose says more",
           "check-names": NO_CHECK, "checknames": NO_CHECK}
REFUSED = {"key": KEYS, "gsstsig": KEYS, "oldgsstsig": KEYS, "realm": KEYS}
TESTS = "nxdomain", "yxdomain", "nxrrset", "yxrrset"
CLASSES = "CH", "CHAOS", "HS", "HESIOD", "NONE", "CLASS3", "CLASS4"


class Script:
    """The statements of a script, read one by one: what they collect, and what is to be done."""

    def __init__(self, session: Session) -> None:
        self.session = session
        self.zone = session.zone
        self.ttl: int | None = None
        self.update = Update()
        self.source = ""
        self.number = 0

    def read(self, line: str, number: int) -> Action | None:
        """What a line asks to be done, if anything."""
        words = line.split()
        self.number, self.source = number, f"line {number}: {line.strip()}"
        if not words or words[0].lower() == "send":
            done, self.update = self.update, Update()
            done.zone = self.zone
            return Send(done)
        if words[0][0] == ";":
            return None
        word, rest = words[0].lower(), re.sub(r"^\s*\S+\s*", "", line)
        if word in ("update", "prereq"):
            word, rest = second_word(word, rest)
        return self.act(word, rest)

    def act(self, word: str, rest: str) -> Action | None:
        """What a statement asks to be done, by its word and what is after it."""
        if word in REFUSED:
            raise Bad(f"{word} is refused: {REFUSED[word]}")
        if word == "show":
            return Show(self.update)
        if word == "answer":
            return Answer()
        if word in IGNORED:
            self.ignore(word)
        elif word == "add":
            self.read_add(rest)
        elif word in ("delete", "del"):
            self.read_delete(rest)
        elif word in TESTS:
            self.read_test(word, rest)
        elif word in ("zone", "class", "ttl"):
            self.set(word, rest.split())
        elif word == "help":
            self.session.print("the statements of nsupdate(1): zone, class, ttl, prereq, update, show, send, answer, quit")
        elif word == "version":
            self.session.print(f"office {VERSION}, the client of zoneoffice")
        elif word != "quit":
            raise Bad(f"{names.shown(word)[1:-1]} is not a statement of nsupdate")
        return None

    def ignore(self, word: str) -> None:
        """Says that a statement is ignored; of `server`, which each script may have, only to who asks for it."""
        if word != "server" or self.session.options.verbose:
            say(f"line {self.number}: {word} is ignored: {IGNORED[word]}")

    def set(self, word: str, values: list[str]) -> None:
        """Reads what is in force from here on."""
        if len(values) != 1:
            raise Bad(f"{word} wants one value")
        if word == "zone":
            self.zone = names.absolute(values[0])
        elif word == "ttl":
            self.ttl = None if values[0].lower() == "none" else whole_ttl(values[0])
        elif values[0].upper() != "IN":
            raise Bad(f"class {values[0]}: the office keeps records of class IN only")

    def name(self, text: str) -> str:
        """The name that a text says, which is absolute with or without its last dot."""
        name = names.absolute(text)
        self.session.taken(Reading(text, name, None))
        return name

    def target(self, text: str) -> str:
        """The same of a name in data, which could be meant to be within the zone."""
        name = self.name(text)
        if self.zone and not text.endswith(".") and not names.is_within(name, self.zone) and len(name) + len(self.zone) < 250:
            self.session.readings.append((Reading(text, name, name + self.zone), f"line {self.number}: "))
        return name

    def first(self, rest: str) -> tuple[str, list[Item]]:
        """The first item of a line as a name, and the others."""
        fields = data.line_items(rest)
        if not fields:
            raise Bad("a name is missing")
        return self.name(fields[0].text), fields[1:]

    def data(self, kind: str, fields: list[Item]) -> str:
        """The data of a type."""
        return data.read(kind, fields, self.target)

    def read_add(self, rest: str) -> None:
        """Reads an addition."""
        name, fields = self.first(rest)
        if fields and re.fullmatch("[0-9]+", fields[0].text):
            ttl = whole_ttl(fields.pop(0).text)
        elif self.ttl is not None:
            ttl = self.ttl
        else:
            raise Bad("the TTL is missing, and no ttl statement says it")
        kind, fields = typed(fields)
        if not kind or not fields:
            raise Bad("an addition wants a type and data")
        kind = data.type_of(kind)
        self.update.change(self.source, Part("add", name, kind, self.data(kind, fields), ttl))

    def read_delete(self, rest: str) -> None:
        """Reads a deletion of a record, a set or a name."""
        name, fields = self.first(rest)
        if fields and re.fullmatch("[0-9]+", fields[0].text):
            fields.pop(0)
        kind, fields = typed(fields)
        if kind in (None, "ANY"):
            if fields:
                raise Bad("the type ANY has no data")
            self.update.change(self.source, Part("delete-name", name))
        elif fields:
            kind = data.type_of(kind or "")
            self.update.change(self.source, Part("delete-record", name, kind, self.data(kind, fields)))
        else:
            self.update.change(self.source, Part("delete-rrset", name, data.type_of(kind or "")))

    def read_test(self, word: str, rest: str) -> None:
        """Reads a prerequisite."""
        name, fields = self.first(rest)
        kind: str | None = None
        if word.endswith("rrset"):
            kind, fields = typed(fields)
            if not kind:
                raise Bad(f"{word} wants a name and a type")
        if kind in (None, "ANY"):
            part = Part("name-used" if word.startswith("yx") else "name-unused", name)
        elif word == "yxrrset" and fields:
            kind = data.type_of(kind or "")
            part, fields = Part("rrset-equals", name, kind, self.data(kind, fields)), []
        else:
            part = Part("rrset-absent" if word == "nxrrset" else "rrset-exists", name, data.type_of(kind or ""))
        if fields:
            raise Bad(f"{word} wants nothing behind it, and got {names.shown(fields[0].text)}")
        self.update.require(self.source, part)


def second_word(word: str, rest: str) -> tuple[str, str]:
    """The statement after `update` or `prereq`, and what is after it."""
    second, more = (rest.split(maxsplit=1) + ["", ""])[:2]
    allowed = ("add", "delete", "del") if word == "update" else TESTS
    if second.lower() not in allowed:
        raise Bad(f"{word} wants one of {' '.join(allowed)}")
    return second.lower(), more


def whole_ttl(word: str) -> int:
    """A TTL in seconds."""
    try:
        return data.whole(word, TTL_MAX)
    except Bad:
        raise Bad(f"TTL: {names.shown(word)}: write whole seconds up to {TTL_MAX}") from None


def typed(fields: list[Item]) -> tuple[str | None, list[Item]]:
    """The type of a statement, without a class before it, and the items after it."""
    if fields and fields[0].text.upper() in CLASSES:
        raise Bad(f"class {fields[0].text}: the office keeps records of class IN only")
    if fields and fields[0].text.upper() in ("IN", "CLASS1"):
        fields = fields[1:]
    return (fields[0].text.upper(), fields[1:]) if fields else (None, [])


def read_script(session: Session, lines: Iterable[str]) -> list[Action]:
    """All that a script asks for; a mistake anywhere in it, and nothing is sent."""
    script, actions = Script(session), []
    for number, line in enumerate(lines, 1):
        if line.strip().lower() == "quit":
            break
        try:
            action = script.read(line.rstrip("\n"), number)
        except Bad as error:
            raise Bad(f"line {number}: {error}; nothing was sent") from None
        if isinstance(action, Show):
            action = Show(action.update.copy())
        if action is not None and (not isinstance(action, Send) or action.update):
            actions.append(action)
    if script.update:
        session.note("the statements after the last send are not sent")
    return actions
