"""What named.conf says of keys and zones."""

import base64
import binascii
import dataclasses
from collections.abc import Iterator

import dns.exception
import dns.name
import dns.tsig

from office_asking import IDENTIFIER, printable
from office_takeover.named import Statement, Wrong

ALGORITHMS = {name.to_text(omit_final_dot=True): name for name in (
    dns.tsig.HMAC_SHA1, dns.tsig.HMAC_SHA224, dns.tsig.HMAC_SHA256, dns.tsig.HMAC_SHA256_128, dns.tsig.HMAC_SHA384,
    dns.tsig.HMAC_SHA384_192, dns.tsig.HMAC_SHA512, dns.tsig.HMAC_SHA512_256)}
SHORTEST = 16  # octets of a secret that the gateway takes


@dataclasses.dataclass(frozen=True)
class Key:
    """A clause of a key."""
    name: dns.name.Name
    algorithm: str
    secret: str
    where: str

    @property
    def caller(self) -> str:
        """Which caller it is: its name, in lower case and without the last dot."""
        return str(self.name.canonicalize().to_text(omit_final_dot=True))

    def fault(self) -> str | None:
        """Why the gateway does not take it, if it does not."""
        if not IDENTIFIER.fullmatch(self.caller):
            return "a caller has 1 to 64 of a-z 0-9 - _ ."
        if self.algorithm not in ALGORITHMS:
            return f"its algorithm is not one of {' '.join(ALGORITHMS)}"
        try:
            secret = base64.b64decode(self.secret, validate=True)
        except (binascii.Error, ValueError):
            return "its secret is not base64"
        return None if len(secret) >= SHORTEST else f"its secret has less than {SHORTEST} octets"


@dataclasses.dataclass
class Zone:
    """A primary zone, and the blocks that say what it does not say itself: those of its view and of the options."""
    origin: dns.name.Name
    view: str
    body: list[Statement]
    around: list[list[Statement]]

    def own(self, word: str) -> Statement | None:
        """Its own statement that begins with a word."""
        return next((one for one in self.body if one.word(0) == word), None)

    def said(self, word: str) -> Statement | None:
        """The statement that begins with a word, its own or the nearest around it."""
        return next((one for block in (self.body, *self.around) for one in block if one.word(0) == word), None)


@dataclasses.dataclass
class Configuration:
    """The keys and the primary zones."""
    keys: dict[dns.name.Name, Key]
    zones: list[Zone]


def name_of(word: str, where: str) -> dns.name.Name:
    """A name as BIND reads it: absolute, whether it ends with a dot or not."""
    try:
        return dns.name.from_text(word, dns.name.root, idna_codec=_PLAIN).canonicalize()
    except (dns.exception.DNSException, UnicodeError):
        raise Wrong(f"{printable(where)}: {printable(word)} is not a name") from None


class _Plain(dns.name.IDNACodec):
    """Labels as they are: named.conf has octets."""

    def encode(self, label: str) -> bytes:
        """The octets of a label."""
        return label.encode("latin-1")


_PLAIN = _Plain()  # type: ignore[no-untyped-call]


def configuration(statements: list[Statement]) -> Configuration:
    """The keys and the primary zones of all statements, also those of views."""
    found = Configuration({}, [])
    options = [one.block() for one in statements if one.word(0) == "options"]
    for view, block, around in _views(statements, options):
        for one in block:
            if one.word(0) == "key" and one.blocks:
                _add_key(found.keys, one)
            elif one.word(0) == "zone" and _is_primary(one):
                found.zones.append(Zone(name_of(one.word(1), one.where), view, one.block(), around))
    return found


def _views(statements: list[Statement], options: list[list[Statement]]
           ) -> Iterator[tuple[str, list[Statement], list[list[Statement]]]]:
    yield "", statements, options
    for one in statements:
        if one.word(0) == "view":
            yield one.word(1), one.block(), [one.block(), *options]


def _is_primary(statement: Statement) -> bool:
    return any(one.word(0) == "type" and one.word(1) in ("primary", "master") for one in statement.block())


def _add_key(keys: dict[dns.name.Name, Key], statement: Statement) -> None:
    words = {one.word(0): one.word(1) for one in statement.block()}
    algorithm = words.get("algorithm", "").lower().rstrip(".")
    key = Key(name_of(statement.word(1), statement.where), algorithm, "".join(words.get("secret", "").split()), statement.where)
    other = keys.setdefault(key.name, key)
    if (other.algorithm, other.secret) != (key.algorithm, key.secret):
        raise Wrong(f"{printable(key.where)}: the key {printable(key.caller)} is another one at {printable(other.where)}")
