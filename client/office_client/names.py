"""Domain names as the office spells them, and names with letters beyond ASCII as IDNA writes them.

Texts are octets, each a character up to 255, as a shell or a file has them. A name as the office spells it is absolute and in small
letters, with escapes for odd octets; so equal names have equal texts."""

import os
import re
import unicodedata
from typing import NamedTuple

from .telling import Bad

PLAIN = re.compile(r"(?:[a-z0-9_-]{1,63}\.)+")
SYMBOL = re.compile(r"\\([0-9]{3})|\\([^0-9])|([^\\])", re.S)
ESCAPED = frozenset(b'.\\"();@$')
DOTS = str.maketrans("\u3002\uff0e\uff61", "...")


class Reading(NamedTuple):
    """How a name that somebody wrote was taken, and the other name that its words could mean."""
    word: str
    name: str
    other: str | None


def octets(text: str) -> str:
    """A word of the command line as a text in which each octet is a character."""
    return os.fsencode(text).decode("latin-1")


def shown(text: str) -> str:
    """A text of octets as its writer saw it, in quotes."""
    try:
        return repr(text.encode("latin-1").decode("utf-8"))
    except UnicodeError:
        return repr(text)


def octet_text(octet: int) -> str:
    """An octet of a label as the office spells it."""
    if octet in ESCAPED:
        return "\\" + chr(octet)
    return chr(octet) if 33 <= octet <= 126 else f"\\{octet:03}"


def label_text(label: bytes) -> str:
    """A label as the office spells it."""
    return "".join(map(octet_text, label.lower()))


def a_label(label: str) -> str:
    """A label with letters beyond ASCII as it is sent (RFC 5891 section 4)."""
    plain = unicodedata.normalize("NFKC", unicodedata.normalize("NFKC", label).lower())
    if re.fullmatch("[a-z0-9-]{1,63}", plain):
        return plain
    kinds = [unicodedata.category(one) for one in plain]
    fits = all(kind[0] in "LM" or kind == "Nd" or one == "-" for one, kind in zip(plain, kinds))
    if not fits or kinds[0][0] == "M" or plain[0] == "-" or plain[-1] == "-" or plain[2:4] == "--":
        raise Bad(f"{label!r} is not a label of a name: beyond ASCII it may have letters, digits and hyphens")
    return "xn--" + plain.encode("punycode").decode("ascii")


def u_label(label: str) -> str:
    """The letters that an A-label stands for, if it is one, and they run from left to right; else the label."""
    if not label.startswith("xn--"):
        return label
    try:
        letters = label[4:].encode("ascii").decode("punycode")
        safe = all(one.isprintable() and unicodedata.bidirectional(one) in ("L", "EN", "ES", "NSM") for one in letters)
        return letters if safe and not letters.isascii() and a_label(letters) == label else label
    except (UnicodeError, Bad, ValueError, OverflowError):
        return label


def u_name(name: str) -> str | None:
    """A name with its letters, or None if it has none beyond ASCII."""
    if "xn--" not in name:
        return None
    letters = ".".join(map(u_label, name.split(".")))
    return letters if letters != name else None


def with_a_labels(text: str) -> str:
    """A text of a name with its letters beyond ASCII written as A-labels."""
    try:
        letters = text.encode("latin-1").decode("utf-8").translate(DOTS)
    except UnicodeError:
        raise Bad(f"{shown(text)} is not a name in UTF-8") from None
    parts = re.split(r"((?:^|(?<=[^\\]))(?:\\\\)*\.)", letters)
    return "".join(part if part.isascii() else a_label(part) for part in parts)


def split(text: str) -> tuple[list[bytes], bool]:
    """The labels of a text, and whether it ends with a dot; Bad if it is not a name."""
    if not text:
        raise Bad("a name is missing: it has no octets")
    if not text.isascii():
        text = with_a_labels(text)
    if text == ".":
        return [], True
    labels, place = [bytearray()], 0
    for found in SYMBOL.finditer(text):
        if found.start() != place or found[1] and int(found[1]) > 255:
            break
        place = found.end()
        if found[3] == ".":
            labels.append(bytearray())
        else:
            labels[-1].append(int(found[1]) if found[1] else ord(found[2] or found[3]))
    if place != len(text):
        raise Bad(f"{shown(text)} has a bad escape: write \\X, or \\DDD up to 255")
    is_absolute = not labels[-1]
    if is_absolute:
        labels.pop()
    if not labels or not all(labels):
        raise Bad(f"{shown(text)} has an empty label: two dots in a row, or a dot at its beginning")
    return [bytes(label) for label in labels], is_absolute


def joined(labels: list[bytes], text: str) -> str:
    """The name of these labels, which a text wrote."""
    if any(len(label) > 63 for label in labels):
        raise Bad(f"{shown(text)} has a label of more than 63 octets")
    if sum(map(len, labels)) + len(labels) + 1 > 255:
        raise Bad(f"{shown(text)} has more than 255 octets as a name")
    return "".join(label_text(label) + "." for label in labels) or "."


def refuse_white(text: str) -> None:
    """A name that somebody wrote has no white space: it would be two words."""
    if re.search(r"[ \t\r\n]", text):
        raise Bad(f"{shown(text)} is not a name: it has white space (an odd octet is \\DDD)")


def absolute(text: str) -> str:
    """A name that is absolute, with or without its last dot."""
    if PLAIN.fullmatch(text) and len(text) < 254:
        return text
    refuse_white(text)
    return joined(split(text)[0], text)


def within_origin(text: str, origin: str) -> str:
    """A name as a master file has it: without its last dot it is relative to the origin."""
    if text == "@":
        return origin
    refuse_white(text)
    labels, is_absolute = split(text)
    return joined(labels if is_absolute else labels + split(origin)[0], text)


def read(text: str, zone: str | None) -> Reading:
    """A name as people write it: one with a dot in it is absolute, and a single label is within the zone."""
    refuse_white(text)
    if text == "@":
        if zone is None:
            raise Bad("@ is the zone: which zone? use --zone or $OFFICE_ZONE")
        return Reading(text, zone, None)
    labels, is_absolute = split(text)
    if is_absolute:
        return Reading(text, joined(labels, text), None)
    if len(labels) == 1:
        if zone is None:
            raise Bad(f"{shown(text)} is a single label, which is within the zone: which zone? use --zone or $OFFICE_ZONE, "
                      "or write the whole name")
        return Reading(text, joined(labels + split(zone)[0], text), joined(labels, text))
    name = joined(labels, text)
    other = None
    if zone is not None and not is_within(name, zone) and sum(map(len, labels)) + len(labels) + len(zone) < 254:
        other = joined(labels + split(zone)[0], text)
    return Reading(text, name, other)


def is_within(name: str, origin: str) -> bool:
    """Whether a name is an origin or below it. A dot with a backslash before it divides no labels."""
    if origin in (name, "."):
        return True
    rest = name.removesuffix("." + origin)
    return rest != name and (len(rest) - len(rest.rstrip("\\"))) % 2 == 0


def parent(name: str) -> str:
    """The name without its first label; of the root the root."""
    return re.sub(r"^(?:[^.\\]|\\.)*\.", "", name) or "."


def above(name: str, origin: str) -> list[str]:
    """The names above a name and below the origin, the nearest first."""
    found = []
    place = parent(name)
    while place != origin and is_within(place, origin) and place != ".":
        found.append(place)
        place = parent(place)
    return found


def labels_of(name: str) -> list[bytes]:
    """The labels of a name as the office spells it."""
    return split(name)[0] if "\\" in name or name == "." else [label.encode("latin-1") for label in name[:-1].split(".")]


def order(name: str) -> tuple[bytes, ...]:
    """What canonical order compares (RFC 4034 section 6.1)."""
    return tuple(reversed(labels_of(name)))
