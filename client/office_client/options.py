"""The options of the command line, and what the environment says in their place."""

import getopt
import os
import re
from dataclasses import dataclass

from .telling import Bad

IDENTIFIER = re.compile(r"[A-Za-z0-9._-]{1,64}")


@dataclass
class Options:  # pylint: disable=too-many-instance-attributes
    """What the options say; None where one was not given."""
    url: str | None = None
    zone: str | None = None
    user: str | None = None
    password_file: str | None = None
    netrc: str | None = None
    cert: str | None = None
    key: str | None = None
    ca: str | None = None  # pylint: disable=invalid-name
    caller: str | None = None
    id: str | None = None  # pylint: disable=invalid-name
    tries: int = 3
    seconds: int = 300
    dry_run: bool = False
    strict: bool = False
    anyway: bool = False
    split: bool = False
    replace: bool = False
    unguarded: bool = False
    since: str | None = None
    last: int = 20
    json: bool = False
    verbose: bool = False
    version: bool = False
    help: bool = False


# Each option with the word for its value, where it has one, and what it does, as the help has them.
LISTED = (
    ("url", "URL", "where the office is ($OFFICE_URL); unix:PATH is a socket on this machine"),
    ("zone", "ZONE", "the zone ($OFFICE_ZONE); else it is found by the first name"),
    ("user", "USER", "who you are ($OFFICE_USER); else netrc says"),
    ("password-file", "FILE", "its first line is the password; else $OFFICE_PASSWORD, netrc, or you are asked"),
    ("netrc", "FILE", "a netrc file instead of $NETRC or ~/.netrc"),
    ("cert", "FILE", "your certificate, where the server asks for one ($OFFICE_CERT)"),
    ("key", "FILE", "its key, if in another file ($OFFICE_KEY)"),
    ("ca", "FILE", "the authorities you trust for the server's ($OFFICE_CA)"),
    ("caller", "CALLER", "speaks to the office itself, without a front server, as this caller"),
    ("id", "ID", "the identifier of the update; else a new one is made"),
    ("tries", "N", "how often to send a request that gets no reply (3)"),
    ("seconds", "N", "how long a reply may take to come in (300)"),
    ("dry-run", "", "sends nothing, and says what would be sent, as office plan does"),
    ("strict", "", "refuses what is only noted else, and reads again whether something changed: status 3 if nothing did"),
    ("anyway", "", "reads no records before a change, and sends also what name servers refuse"),
    ("split", "", "sends what is too large for one update as several; others see the zone between them"),
    ("replace", "", "import: puts the sets of the file in the place of those there"),
    ("since", "OLD", "import: sends the difference between the file OLD and the other, deletions too"),
    ("unguarded", "", "import, undo: without prerequisites"),
    ("last", "N", "log: so many changes, the newest (20)"),
    ("json", "", "prints one JSON object about all that was done"),
    ("verbose", "", "prints the identifier and the reply of each update"),
    ("version", "", "prints the version"),
    ("help", "", "prints this text, or after a command what it does"),
)


def number(found: dict[str, str], name: str, pattern: str, most: str, default: int) -> int:
    """A whole number, from 1 to the most."""
    word = found.get(name)
    if word is None:
        return default
    if not re.fullmatch(pattern, word, re.ASCII):
        raise Bad(f"--{name} {word}: a number from 1 to {most}")
    return int(word)


def read(arguments: list[str]) -> tuple[Options, list[str]]:
    """The options, and the other words."""
    try:
        given, words = getopt.gnu_getopt(arguments, "hv", [name + ("=" if value else "") for name, value, _ in LISTED])
    except getopt.GetoptError as error:
        raise Bad(f"{error}; office --help lists the options") from None
    found = {{"-h": "help", "-v": "verbose"}.get(name, name.lstrip("-")): value for name, value in given}
    options = Options(tries=number(found, "tries", r"[1-9]\d?", "99", 3), seconds=number(found, "seconds", r"[1-9]\d{0,5}", "999999", 300),
                      last=number(found, "last", r"[1-9]\d{0,8}", "999999999", 20))
    for name, value, _ in LISTED:
        if name in found and name not in ("tries", "seconds", "last"):
            setattr(options, name.replace("-", "_"), found[name] if value else True)
    for name in "caller", "id":
        word = getattr(options, name)
        if word is not None and not IDENTIFIER.fullmatch(word):
            raise Bad(f"--{name} {word!r}: 1 to 64 of a-z A-Z 0-9 - _ .")
    options.zone = options.zone or os.environ.get("OFFICE_ZONE") or None
    return options, words
