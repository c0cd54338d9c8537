"""Record data: the items of the ten types read and printed as the office does (docs/formats.md), and record lines."""

import re
import socket
from collections.abc import Callable
from typing import NamedTuple

from . import names
from .tables import FIELDS, TTL_MAX, TYPES
from .telling import Bad

UNITS = {"w": 604800, "d": 86400, "h": 3600, "m": 60, "s": 1}
NUMBERS = {"Number U8": 255, "Number U16": 65535, "Number U32": 4294967295}
KINDS = {"Ipv4": "address", "Ipv6": "address", "Name": "name", "Strings": "string", "Digest": "digest"}
LONGEST_DATA, LONGEST_STRING = 65535, 255
LONGEST_NAME = 1004  # characters of a name of which each octet is an escape

NameReader = Callable[[str], str]  # gives the name that a text of octets writes


class Item(NamedTuple):
    """An item of a line: its octets with escapes unread, and whether it was in quotes."""
    text: str
    quoted: bool


class Record(NamedTuple):
    """A record as the office lists it."""
    name: str
    ttl: int
    kind: str
    data: str

    def line(self) -> str:
        """Its line, as the office prints it."""
        return f"{self.name} {self.ttl} IN {self.kind} {self.data}"


def record_of(line: str) -> Record:
    """The record of a line; ValueError if it is not one."""
    name, ttl, _, kind, data = line.split(" ", 4)
    if len(name) > LONGEST_NAME or kind not in TYPES:
        raise ValueError("a name that is too long, or another type")
    return Record(name, int(ttl), kind, data)


def order(record: Record) -> tuple[tuple[bytes, ...], bool, int, str]:
    """What record order compares: the owner, SOA first, the type's number, the data."""
    return names.order(record.name), record.kind != "SOA", TYPES[record.kind][0], record.data


def type_of(word: str) -> str:
    """A record type, in either case."""
    if word.upper() not in TYPES:
        raise Bad(f"{names.shown(word)} is not a type that the office keeps: {' '.join(TYPES)}")
    return word.upper()


def duration(word: str, most: int) -> int:
    """Seconds, or numbers with a unit after each, which are summed."""
    parts = re.findall(r"([0-9]+)([wdhms])", word.lower())
    if re.fullmatch("[0-9]+", word):
        total = whole(word, most)
    elif parts and "".join(map("".join, parts)) == word.lower():
        total = sum(whole(number, most) * UNITS[unit] for number, unit in parts)
    else:
        raise Bad(f"{names.shown(word)} is not a time: write seconds, or 5m, 1h, 2d")
    if total > most:
        raise Bad(f"{names.shown(word)} is more than {most} seconds")
    return total


def ttl_of(word: str) -> int:
    """A TTL, in seconds or with units."""
    try:
        return duration(word, TTL_MAX)
    except Bad as error:
        raise Bad(f"TTL: {error}") from None


def whole(word: str, most: int) -> int:
    """A number in decimal digits."""
    if not re.fullmatch("[0-9]+", word):
        raise Bad(f"{names.shown(word)} is not a number")
    digits = word.lstrip("0") or "0"
    if len(digits) > 12 or int(digits) > most:
        raise Bad(f"{names.shown(word[:40])} is more than {most}")
    return int(digits)


def ipv4(word: str) -> str:
    """An IPv4 address."""
    try:
        if re.fullmatch("[0-9.]+", word):
            return socket.inet_ntop(socket.AF_INET, socket.inet_pton(socket.AF_INET, word))
    except OSError:
        pass
    raise Bad(f"{names.shown(word)} is not an IPv4 address, as 192.0.2.1")


def ipv6(word: str) -> str:
    """An IPv6 address, as RFC 5952 section 4 writes it, without a dotted tail."""
    try:
        packed = socket.inet_pton(socket.AF_INET6, word) if re.fullmatch("[0-9A-Fa-f:.]+", word) else b""
    except OSError:
        packed = b""
    if not packed:
        raise Bad(f"{names.shown(word)} is not an IPv6 address, as 2001:db8::1")
    groups = [f"{packed[place] << 8 | packed[place + 1]:x}" for place in range(0, 16, 2)]
    runs = [(next((end for end in range(place, 8) if groups[end] != "0"), 8) - place, place) for place in range(8)]
    length, start = max(runs, key=lambda run: (run[0], -run[1]))
    if length < 2:
        return ":".join(groups)
    return ":".join(groups[:start]) + "::" + ":".join(groups[start + length:])


def unescaped(text: str) -> bytes:
    """The octets of a character-string, whose escapes are read."""
    found, place = bytearray(), 0
    for symbol in names.SYMBOL.finditer(text):
        if symbol.start() != place or symbol[1] and int(symbol[1]) > 255:
            break
        place = symbol.end()
        found.append(int(symbol[1]) if symbol[1] else ord(symbol[2] or symbol[3]))
    if place != len(text):
        raise Bad(f"{names.shown(text)} has a bad escape: write \\X, or \\DDD up to 255")
    if len(found) > LONGEST_STRING:
        raise Bad(f"a string has {len(found)} octets, and may have {LONGEST_STRING}: write several")
    return bytes(found)


def quoted(octets: bytes) -> str:
    """A character-string as the office prints it."""
    return '"' + "".join("\\" + chr(one) if one in b'"\\' else chr(one) if 32 <= one <= 126 else f"\\{one:03}" for one in octets) + '"'


def strings(items: list[Item]) -> str:
    """The data of a TXT."""
    found = [unescaped(item.text) for item in items]
    if sum(map(len, found)) + len(found) > LONGEST_DATA:
        raise Bad(f"the strings have more than {LONGEST_DATA} octets")
    return " ".join(map(quoted, found))


def digest(items: list[Item]) -> str:
    """The digest of a DS, whose items are joined."""
    text = "".join(item.text for item in items).lower()
    if not re.fullmatch("(?:[0-9a-f]{2})+", text):
        raise Bad(f"{names.shown(text[:40])} is not a digest: pairs of hexadecimal digits")
    if len(text) // 2 > LONGEST_DATA - 4:
        raise Bad(f"it has more than {LONGEST_DATA - 4} octets")
    return text


def field(kind: str, items: list[Item], read_name: NameReader) -> tuple[str, list[Item]]:
    """The first field of the items, and the items after it. Strings and a digest take all of them."""
    if not items:
        raise Bad("it is missing")
    if kind == "Strings":
        return strings(items), []
    if any(item.quoted for item in (items if kind == "Digest" else items[:1])):
        raise Bad("it is in quotes")
    if kind == "Digest":
        return digest(items), []
    word = items[0].text
    if kind in NUMBERS:
        return str(whole(word, NUMBERS[kind])), items[1:]
    if kind == "Seconds":
        return str(duration(word, NUMBERS["Number U32"])), items[1:]
    return {"Ipv4": ipv4, "Ipv6": ipv6, "Name": read_name}[kind](word), items[1:]


def field_name(kind: str, number: int) -> str:
    """What a field of a type is called."""
    return FIELDS[kind][number] if kind in FIELDS else KINDS[TYPES[kind][1][number]]


def read(kind: str, items: list[Item], read_name: NameReader = names.absolute) -> str:
    """The data of a type that items write, as the office prints them; Bad names the field that is wrong."""
    if items and items[0] == Item("\\#", False):
        raise Bad(f"{kind}: the generic form \\# is not read")
    found, left = [], items
    for number, one in enumerate(TYPES[kind][1]):
        try:
            text, left = field(one, left, read_name)
        except Bad as error:
            raise Bad(f"{kind}, {field_name(kind, number)}: {error}") from None
        found.append(text)
    if left:
        raise Bad(f"{kind}: {names.shown(left[0].text)} is after the last field")
    return " ".join(found)


def soa_serial(data: str) -> int:
    """The serial in the data of an SOA."""
    return int(data.split(" ")[2])


def soa_at(data: str, serial: int) -> str:
    """The data of an SOA with a serial."""
    fields = data.split(" ")
    return " ".join([*fields[:2], str(serial), *fields[3:]])


def serial_less(first: int, second: int) -> bool:
    """Whether a serial comes before another (RFC 1982 section 3.2)."""
    return 0 < (second - first) % (1 << 32) < 1 << 31


def server_of(kind: str, data: str) -> str | None:
    """The server that data name."""
    return data.rsplit(" ", 1)[-1] if kind in ("NS", "MX", "SRV") else None


def target_of(kind: str, data: str) -> str | None:
    """The name that data point to, of a server or not."""
    return data.rsplit(" ", 1)[-1] if kind in ("NS", "CNAME", "PTR", "MX", "SRV") else None


def names_in(kind: str, data: str) -> list[str]:
    """The names in data."""
    if kind == "TXT":
        return []
    return [text for one, text in zip(TYPES[kind][1], data.split(" ")) if one == "Name"]


# Items of a line

LINE_ITEM = re.compile(r'[ \t\r\n]*(?:"((?:[^"\\]|\\.)*)"|((?:[^\s\\"]|\\.)(?:[^\s\\]|\\.)*))[ \t\r\n]*', re.S)


def line_items(text: str) -> list[Item]:
    """The items of a line as nsupdate reads them: `;`, `(` and `)` are octets as others. Escapes stay as they are."""
    found, place = [], 0
    text = text.strip(" \t\r\n")
    while place < len(text):
        match = LINE_ITEM.match(text, place)
        if not match:
            raise Bad(f"a quote that is not closed, or a backslash at the end, in {names.shown(text)}")
        found.append(Item(match[1] if match[2] is None else match[2], match[2] is None))
        place = match.end()
    return found


def word_items(kind: str, words: list[str]) -> list[Item]:
    """The items of words of a command line. A word of a TXT is one string, or strings in quotes."""
    return [item for word in words for item in cell_items(kind, names.octets(word))]


def cell_items(kind: str, text: str) -> list[Item]:
    """The same of a text of octets."""
    if kind == "TXT" and not text.startswith('"'):
        return [Item(re.sub(r'(["\\])', r"\\\1", text), True)]
    return line_items(text)
