"""Questions to the office, as the caller `publisher`, who lists everything."""

import contextlib
import dataclasses
import http.client
import json
import socket
import time
import urllib.parse
from collections.abc import Iterator
from typing import Any

from .files import printable
from .names import record_of

SECONDS = 60
LONGEST = 64 << 20  # octets of a reply that is read as a whole, and of a change
PIECE = 1 << 20
LINE = 4096  # octets of a line with an SOA
PAUSES = 0.5, 1, 2, 4
HEAD = '{"changes":['


class Away(Exception):
    """The office, or the front server, gives no answer that can be used."""


class NoZone(Exception):
    """The office has no such zone."""


@dataclasses.dataclass(frozen=True)
class Change:
    """A change of a zone: the lines of the records that went, and of those that came."""
    number: int
    removed: list[str]
    added: list[str]


class _Connection(http.client.HTTPConnection):
    """A connection to a socket on this machine."""

    def __init__(self, place: str) -> None:
        super().__init__("office", timeout=SECONDS)
        self.place = place

    def connect(self) -> None:
        """Opens it."""
        self.sock = socket.socket(socket.AF_UNIX)
        self.sock.settimeout(self.timeout)
        self.sock.connect(self.place)


class Office:
    """An office behind a socket. Each question has a connection of its own."""

    def __init__(self, place: str) -> None:
        self.place = place

    @contextlib.contextmanager
    def asked(self, zone: str, *parts: str) -> Iterator[http.client.HTTPResponse]:
        """The response to a question of a zone, once the front server has not too many."""
        path = "/".join(["/zones", *(urllib.parse.quote(part, safe="") for part in (zone, *parts))])
        for pause in (*PAUSES, 0):
            with contextlib.closing(_Connection(self.place)) as connection:
                try:
                    connection.request("GET", path)
                    response = connection.getresponse()
                    if response.status == 429 and pause:
                        time.sleep(pause)
                        continue
                    if response.status != 200:
                        self.refused(response)
                    yield response
                    return
                except (OSError, http.client.HTTPException) as error:
                    raise Away(printable(f"the office does not answer: {error or type(error).__name__}")) from None

    @staticmethod
    def refused(response: http.client.HTTPResponse) -> None:
        """Raises what a response with another status than 200 means."""
        if response.status == 404 and b'"NOTAUTH"' in response.read(200):
            raise NoZone
        raise Away(f"the office, or the front server, answers with status {response.status}")

    def reply(self, zone: str, *parts: str) -> dict[str, Any]:
        """The object that the office answers."""
        with self.asked(zone, *parts) as response:
            octets = response.read(LONGEST + 1)
        if len(octets) > LONGEST:
            raise Away(f"the office answers with more than {LONGEST} octets")
        try:
            value = json.loads(octets)
        except (ValueError, RecursionError):
            value = None
        if not isinstance(value, dict):
            raise Away("the office answers with what is no object")
        return value

    def changes(self, zone: str, first: int) -> Iterator[Change]:
        """The changes of a zone from a number on, one by one, however many there are."""
        with self.asked(zone, "changes", str(first)) as response:
            for value in objects(response):
                change = Change(value.get("number", 0), value.get("removed", []), value.get("added", []))
                try:
                    for line in change.removed + change.added:
                        record_of(line)
                except (ValueError, TypeError):
                    raise Away("the office answers with what are no changes") from None
                yield change

    def records(self, zone: str, name: str) -> list[str]:
        """The lines of the records within a name."""
        return self.lines(self.reply(zone, "records", name).get("records"))

    def soa(self, zone: str) -> str:
        """The data of the SOA, which is the first record of a zone as a master file; nothing if the policy hides it."""
        with self.asked(zone, "file") as response:
            _, line = response.readline(LINE), response.readline(LINE)  # after $ORIGIN
        try:
            record = record_of(line.decode("latin-1").rstrip("\n"))
        except ValueError:
            return ""
        return record.data if record.type == "SOA" else ""

    def delegations(self, zone: str) -> dict[str, list[str]]:
        """The servers of each delegation, by child."""
        found = self.reply(zone, "delegations").get("delegations")
        try:
            return {one["child"]: self.names(server["name"] for server in one["servers"]) for one in found or []}
        except (LookupError, TypeError):
            raise Away("the office answers with what are no delegations") from None

    @staticmethod
    def names(found: Iterator[Any]) -> list[str]:
        """The texts; TypeError if one is none."""
        listed = list(found)
        if not all(isinstance(one, str) for one in listed):
            raise TypeError
        return listed

    @staticmethod
    def lines(value: Any) -> list[str]:
        """The lines of a reply."""
        try:
            for line in value:
                record_of(line)
            return list(value)
        except (ValueError, TypeError):
            raise Away("the office answers with what are no records") from None


def objects(response: http.client.HTTPResponse) -> Iterator[dict[str, Any]]:
    """The objects of a list of changes, each as soon as it is there."""
    decoder, text, place, begun = json.JSONDecoder(), "", 0, False
    while piece := response.read(PIECE):
        text = text[place:] + piece.decode("utf-8", "replace")
        place = 0
        if not begun:
            if not text.startswith(HEAD):
                raise Away("the office answers with what are no changes")
            place, begun = len(HEAD), True
        while place < len(text):
            place += text[place] == ","
            try:
                value, end = decoder.raw_decode(text, place)
            except (ValueError, RecursionError):
                break  # the rest comes with the next piece, or this is the end
            if not isinstance(value, dict):
                raise Away("the office answers with what are no changes")
            yield value
            place = end
        if len(text) - place > LONGEST:
            raise Away(f"a change has more than {LONGEST} octets")
    if not begun or text[place:] != "]}":
        raise Away("the answer of the office is cut short")
