"""The text of a zone, as the office prints it: its changes applied and undone, record by record."""

import bisect
import re

import dns.exception
import dns.name
import dns.rdatatype

from office_asking import Change
from office_records import record_of

Key = tuple[tuple[bytes, ...], int, bytes]


class Diverged(Exception):
    """A change does not fit the zone: it was made in another one."""


def file_of(origin: str) -> str:
    """The name of a zone's file. What is not a letter, a digit, a hyphen, a dot or an underscore is % and two hexadecimal digits."""
    return re.sub(r"[^a-z0-9._-]", lambda found: f"%{ord(found[0]):02X}", origin.removesuffix(".")) + ".zone"


def key_of(line: str) -> Key:
    """What record lines are in order by: the owner (RFC 4034 section 6.1), SOA before other types by number, and the data's text."""
    one = record_of(line)
    try:
        labels = dns.name.from_text(one.name).canonicalize().labels[::-1]
        number = int(dns.rdatatype.from_text(one.type))
    except (dns.exception.DNSException, ValueError):
        raise Diverged(f"{line} is not a record line") from None
    return labels, 0 if one.type == "SOA" else number, one.data.encode()


class Zone:
    """A zone as lines in the office's order."""

    def __init__(self, text: str) -> None:
        self.head, *self.lines = text.removesuffix("\n").split("\n")

    def text(self) -> str:
        """The zone's file."""
        return "\n".join([self.head, *self.lines]) + "\n"

    @property
    def soa(self) -> str | None:
        """The line of the SOA record."""
        return next((line for line in self.lines[:1] if " IN SOA " in line), None)

    def apply(self, change: Change) -> None:
        """Makes the zone that after a change. After Diverged the zone is neither."""
        self._replace(change.removed, change.added)

    def undo(self, change: Change) -> None:
        """Makes the zone that before a change."""
        self._replace(change.added, change.removed)

    def _replace(self, removed: list[str], added: list[str]) -> None:
        for line in removed:
            place = self._place(key_of(line))
            if self.lines[place:place + 1] != [line]:
                raise Diverged(f"{line} is not in the zone")
            del self.lines[place]
        for line in added:
            key = key_of(line)
            place = self._place(key)
            if place < len(self.lines) and key_of(self.lines[place]) == key:
                raise Diverged(f"{line} is in the zone already")
            self.lines.insert(place, line)

    def _place(self, key: Key) -> int:
        return bisect.bisect_left(self.lines, key, key=key_of)
