"""Master files and pieces of them (RFC 1035 section 5.1), as the office reads them (docs/formats.md)."""

import re
from collections.abc import Iterator
from typing import NamedTuple

from . import data, names
from .data import Item, Record
from .names import Reading
from .telling import Bad

TOKEN = re.compile(r'[ \t\r]+|;[^\n]*|(\n)|([()])|"((?:[^"\\]|\\.)*)"|((?:[^ \t\r\n;()"\\]|\\.)+)', re.S)


class Entry(NamedTuple):
    """The items up to a line's end outside parentheses, the line of the first, and whether white space was before it."""
    items: list[Item]
    line: int
    is_indented: bool


def entries(text: str) -> Iterator[Entry]:
    """The entries of a text that are not blank."""
    items: list[Item] = []
    line, first, depth, indented, place = 1, 1, 0, text[:1] in (" ", "\t", "\r"), 0
    for found in TOKEN.finditer(text):
        if found.start() != place:
            break
        place = found.end()
        if found[1] and not depth:
            if items:
                yield Entry(items, first, indented)
            items, indented = [], text[place:place + 1] in (" ", "\t", "\r")
        elif found[2]:
            depth += 1 if found[2] == "(" else -1
            if depth < 0:
                raise Bad(f"line {line}: a parenthesis is closed that was never opened")
        elif found[3] is not None or found[4]:
            first = line if not items else first
            items.append(Item(found[3] if found[4] is None else found[4], found[4] is None))
        line += found[0].count("\n")
    if place != len(text):
        raise Bad(f"line {line}: a quote is not closed, or a backslash is at the end")
    if depth:
        raise Bad(f"line {first}: a parenthesis is not closed")
    if items:
        yield Entry(items, first, indented)


class Records:
    """The records of a zone that a text has, and the line of each; and the names that were perhaps meant otherwise."""

    def __init__(self, origin: str) -> None:
        self.zone = origin
        self.records: dict[tuple[str, str, str], tuple[Record, int]] = {}
        self.readings: list[tuple[Reading, str]] = []
        self.owner: str | None = None
        self.line = 0

    def put(self, record: Record) -> None:
        """Keeps a record. Of several that differ in nothing but the TTL the last one counts."""
        if not names.is_within(record.name, self.zone) or record.kind == "DS" and record.name == self.zone:
            raise Bad(f"{record.name} {record.kind} is not within the zone {self.zone}")
        if record.kind == "SOA" and record.name != self.zone:
            raise Bad(f"{record.name} SOA is not at the origin {self.zone}")
        self.records[record.name, record.kind, record.data] = record, self.line

    def lined(self) -> list[tuple[Record, int]]:
        """The records, each with the least TTL of its set, and the line of each."""
        least: dict[tuple[str, str], int] = {}
        kinds: dict[str, set[str]] = {}
        for record, line in self.records.values():
            key = record.name, record.kind
            least[key] = min(record.ttl, least.get(key, record.ttl))
            kinds.setdefault(record.name, set()).add(record.kind)
            if "CNAME" in kinds[record.name] and len(kinds[record.name]) > 1:
                raise Bad(f"line {line}: {record.name} has a CNAME and other records")
        for (name, kind), count in self.counts().items():
            if kind in ("CNAME", "SOA") and count > 1:
                raise Bad(f"{name} has {count} records of type {kind}, and one is allowed")
        return [(record._replace(ttl=least[record.name, record.kind]), line) for record, line in self.records.values()]

    def counts(self) -> dict[tuple[str, str], int]:
        """How many records each set has."""
        found: dict[tuple[str, str], int] = {}
        for name, kind, _ in self.records:
            found[name, kind] = found.get((name, kind), 0) + 1
        return found


class File(Records):
    """The records of a master file."""

    def __init__(self, origin: str, text: str) -> None:
        super().__init__(origin)
        self.origin = origin
        self.ttl: int | None = None
        self.last_ttl: int | None = None
        for entry in entries(text):
            self.line = entry.line
            try:
                self.read(entry)
            except Bad as error:
                raise Bad(f"line {entry.line}: {error}") from None

    def name(self, text: str) -> str:
        """A name of the file, relative to the origin in force."""
        name = names.within_origin(text, self.origin)
        if not text.endswith(".") and "." in text:
            whole = names.absolute(text)
            if names.is_within(whole, self.zone):
                self.readings.append((Reading(text, name, whole), f"line {self.line}: "))
        return name

    def read(self, entry: Entry) -> None:
        """Reads an entry."""
        items = entry.items
        word = items[0].text
        if word.startswith("$") and not items[0].quoted:
            self.direct(word.upper(), items[1:])
            return
        if not entry.is_indented:
            if items[0].quoted:
                raise Bad("the owner is in quotes")
            self.owner = self.name(word)
            items = items[1:]
        if self.owner is None:
            raise Bad("no record before it has an owner")
        kind, ttl, fields = self.start(items)
        text = data.read(kind, fields, self.name)
        self.put(Record(self.owner, self.ttl_of(kind, ttl, text), kind, text))

    def direct(self, word: str, items: list[Item]) -> None:
        """Reads a directive."""
        if word not in ("$ORIGIN", "$TTL"):
            raise Bad(f"{names.shown(word)} is not read: a file has $ORIGIN and $TTL")
        if len(items) != 1 or items[0].quoted:
            raise Bad(f"{word} has one value, without quotes")
        if word == "$TTL":
            self.ttl = data.ttl_of(items[0].text)
        else:
            self.origin = names.within_origin(items[0].text, self.origin)

    def start(self, items: list[Item]) -> tuple[str, int | None, list[Item]]:
        """The type and the TTL of a record, and the items of its data. TTL and class come in either order."""
        ttl: int | None = None
        has_class = False
        for number, item in enumerate(items):
            if item.quoted:
                raise Bad(f"{names.shown(item.text)} is in quotes, where a type is expected")
            word = item.text.upper()
            if ttl is None and word[:1].isdigit():
                ttl = data.ttl_of(item.text)
            elif not has_class and word == "IN":
                has_class = True
            elif not has_class and word in ("CH", "HS", "CS"):
                raise Bad(f"class {word}: the office keeps records of class IN only")
            else:
                return data.type_of(item.text), ttl, items[number + 1:]
        raise Bad("the record has no type")

    def ttl_of(self, kind: str, ttl: int | None, text: str) -> int:
        """The TTL of a record: its own, that of $TTL, the last one stated, or the minimum of the last SOA."""
        if ttl is not None:
            self.last_ttl = ttl
            return ttl
        found = self.ttl if self.ttl is not None else self.last_ttl
        if found is None and kind == "SOA":
            found = int(text.rsplit(" ", 1)[1])
            self.last_ttl = found
        if found is None:
            raise Bad("the record has no TTL, and none is in force: write one, or $TTL")
        return found
