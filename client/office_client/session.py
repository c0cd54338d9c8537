"""One run of the client: its options, its zone, how names were taken, and the report of what was done."""

import re
import sys
from collections.abc import Callable
from typing import Any

from . import data, names
from .names import Reading
from .options import Options
from .server import Server
from .telling import Bad, clean, flush, harmless, put, say
from .update import compact


class Session:
    """What the parts of a run share."""

    def __init__(self, options: Options, command: str) -> None:
        self.options = options
        self.zone = self.own_zone()
        self.readings: list[tuple[Reading, str]] = []  # of names in data, with the line that has them
        self.report: dict[str, Any] = {"command": command}
        self.connected: Server | None = None
        self.last: str | None = None  # the last reply to an update

    def own_zone(self) -> str | None:
        """The zone that the options or the environment say."""
        return names.absolute(names.octets(self.options.zone)) if self.options.zone else None

    @property
    def server(self) -> Server:
        """The office's server."""
        if self.connected is None:
            self.connected = Server(self.options)
        return self.connected

    def needed_zone(self) -> str:
        """The zone, which has to be said."""
        if self.zone is None:
            raise Bad("which zone? use --zone or $OFFICE_ZONE")
        return self.zone

    def note(self, text: str) -> None:
        """Says something that is no failure."""
        self.report.setdefault("notes", []).append(text)
        say(text)

    def print(self, line: str) -> None:
        """A line of output, for people and pipes; where JSON is asked for there is none."""
        if not self.options.json:
            put(clean(line))

    def finish(self, status: int) -> int:
        """Prints the report, where it is asked for, and gives the status."""
        if self.options.json:
            zone = {"zone": self.zone} if self.zone and "zone" not in self.report else {}
            put(compact({**self.report, **zone, "status": status}))
        flush()
        return status

    def progress(self, text: str) -> None:
        """Says how far a long command is, to who watches it."""
        if self.options.verbose or sys.stderr is not None and sys.stderr.isatty():
            say(text)

    # Names

    def taken(self, reading: Reading) -> str:
        """The name of a word, which is shown as both where it has letters beyond ASCII."""
        if not reading.word.isascii():
            self.note(f"{names.shown(reading.word)[1:-1]} is sent as {reading.name}")
        return reading.name

    def owner(self, word: str) -> str:
        """The name that a word of the command line says."""
        return self.taken(names.read(names.octets(word), self.zone))

    def target(self, text: str, source: str = "") -> str:
        """A name in data, of a text of octets."""
        reading = names.read(text, self.zone)
        if reading.other is not None:
            self.readings.append((reading, source))
        return self.taken(reading)

    def words_data(self, kind: str, words: list[str]) -> str:
        """The data of a type that words of the command line write."""
        if not words:
            raise Bad(f"the data of the {kind} are missing")
        return data.read(kind, data.word_items(kind, words), self.target)

    def candidates(self, origin: str) -> list[str]:
        """The names within a zone by which it is settled what words mean."""
        every = [name for reading, _ in self.readings for name in (reading.name, reading.other)]
        return [name for name in dict.fromkeys(every) if name and names.is_within(name, origin)]

    def settle(self, origin: str, lists: Callable[[str], bool]) -> None:
        """Says how a name was taken whose words could mean another one, by the names of a zone that are listed; with --strict it is
        refused."""
        for reading, source in dict.fromkeys(self.readings):
            if is_doubtful(reading, origin, lists):
                text = f"{source}{names.shown(reading.word)} is taken as {reading.name}, and could mean {reading.other}: write the name " \
                    "that is meant with a dot at its end"
                if self.options.strict:
                    raise Bad(f"{text}; nothing was sent")
                self.note(text)


def is_doubtful(reading: Reading, origin: str, lists: Callable[[str], bool]) -> bool:
    """Whether the words of a name could mean another one: it was taken to be within the zone and is not there, or the other one is."""
    if names.is_within(reading.name, origin):
        return not lists(reading.name)
    return reading.other is not None and names.is_within(reading.other, origin) and lists(reading.other)


def both(name: str) -> str:
    """A name with its letters beyond ASCII beside it, where it has such."""
    letters = names.u_name(name)
    return f"{name} ({letters})" if letters else name


def with_letters(line: str) -> str:
    """A line of a server, with the letters of its names behind it where the output is a terminal that has them."""
    text = clean(line)
    if sys.stdout is None or not sys.stdout.isatty() or "xn--" not in line:
        return text
    found = [letters for name in re.findall(r"(?<!\S)\S*xn--\S*", line) if (letters := names.u_name(name))]
    try:
        more = harmless("  ; " + " ".join(dict.fromkeys(found))) if found else ""
        more.encode(sys.stdout.encoding or "ascii")
        return text + more
    except UnicodeError:
        return text
