"""The configuration file of the gateway, which has the secrets of its keys."""

import base64
import binascii
import dataclasses
import ipaddress
import os
import stat
import tomllib  # pylint: disable=wrong-import-order
from typing import Any

import dns.exception
import dns.name
import dns.tsig

from office_asking import IDENTIFIER, printable

MOST = 4 << 20  # octets of the file
SHORTEST_SECRET = 16
ALGORITHMS = {name.to_text(omit_final_dot=True): name for name in (
    dns.tsig.HMAC_SHA1, dns.tsig.HMAC_SHA224, dns.tsig.HMAC_SHA256, dns.tsig.HMAC_SHA256_128, dns.tsig.HMAC_SHA384,
    dns.tsig.HMAC_SHA384_192, dns.tsig.HMAC_SHA512, dns.tsig.HMAC_SHA512_256)}


class Wrong(Exception):
    """The configuration is not right, or others can read it."""


@dataclasses.dataclass(frozen=True)
class Key:
    """A key of TSIG, and the caller that it names."""
    tsig: dns.tsig.Key
    caller: str

    @property
    def name(self) -> str:
        """The key's name as text."""
        return str(self.tsig.name.to_text())


@dataclasses.dataclass(frozen=True)
class Secondary:
    """A name server that is notified of a zone's changes."""
    zone: dns.name.Name
    address: str
    port: int
    key: Key | None


@dataclasses.dataclass
class Settings:  # pylint: disable=too-many-instance-attributes
    """What the configuration file says, with the defaults of what it does not say."""
    listen: list[tuple[str, int]]
    office: str
    zones: list[dns.name.Name]
    keys: dict[dns.name.Name, Key]
    secondaries: list[Secondary]
    reader: str | None = None
    find_zone: bool = False
    answer_soa: bool = False
    answer_sets: bool = False
    partial_transfers: bool = False
    dhcid_as_txt: bool = False
    narrow_deletes: bool = False
    key_rate: int = 50  # messages a second, and how many at once
    key_burst: int = 400
    address_rate: int = 80
    address_burst: int = 400
    tcp_connections: int = 100
    tcp_idle: int = 10  # seconds
    poll: float = 0.5  # seconds between questions for changes
    tries: int = 3
    seconds: int = 30


OPTIONS = {one.name.replace("_", "-"): type(one.default) for one in dataclasses.fields(Settings)
           if type(one.default) in (bool, int, float)}


def read(path: str) -> Settings:
    """The settings of a file, which nobody else may read."""
    try:
        return parse(tomllib.loads(_secret_text(path)))
    except (tomllib.TOMLDecodeError, UnicodeDecodeError, OSError) as error:
        raise Wrong(printable(str(error))) from None


def _secret_text(path: str) -> str:
    with open(path, "rb") as file:
        found = os.fstat(file.fileno())
        # systemd lets the service's user read a credential by an entry of an access list, which shows as a right of the group
        credentials = os.environ.get("CREDENTIALS_DIRECTORY")
        shared = 0o037 if credentials and os.path.dirname(os.path.abspath(path)) == credentials else 0o077
        if not stat.S_ISREG(found.st_mode) or found.st_mode & shared or found.st_uid not in (0, os.geteuid()):
            raise Wrong("others can read or change the file, which has secrets: its mode has to be 0600, its owner root or this user")
        octets = file.read(MOST + 1)
    if len(octets) > MOST:
        raise Wrong(f"the file has more than {MOST} octets")
    return octets.decode()


def parse(table: dict[str, Any]) -> Settings:
    """The settings of a document."""
    known = {"listen", "office", "zones", "reader", "key", "notify", *OPTIONS}
    for word in table:
        if word not in known:
            raise Wrong(f"{printable(word)} is no option")
    keys = _keys(_tables(table, "key"))
    zones = [_name(word, "zones") for word in _texts(table, "zones")]
    settings = Settings([_address(word) for word in _texts(table, "listen")], _text(table, "office"), zones, keys,
                        [_secondary(one, zones, keys) for one in _tables(table, "notify")])
    if not settings.office.startswith(("unix:/", "http://")):
        raise Wrong("office is unix:PATH, or http://.. on loopback: over https nobody may name callers")
    if not settings.listen or not zones or not keys:
        raise Wrong("listen, zones and key: there has to be one of each")
    if "reader" in table:
        settings.reader = _caller(table, "reader")
    for word, kind in OPTIONS.items():
        if word in table:
            setattr(settings, word.replace("-", "_"), _option(table[word], word, kind))
    if settings.secondaries and settings.reader is None:
        raise Wrong("notify wants a reader")
    return settings


def _option(value: Any, word: str, kind: type[Any]) -> Any:
    if kind is float and type(value) is int:  # pylint: disable=unidiomatic-typecheck
        value = float(value)
    if type(value) is not kind or (not isinstance(value, bool) and not 0 < value <= 1_000_000):  # pylint: disable=unidiomatic-typecheck
        raise Wrong(f"{word} is {'true or false' if kind is bool else 'a number above 0'}")
    return value


def _tables(table: dict[str, Any], word: str) -> list[dict[str, Any]]:
    value = table.get(word, [])
    if not isinstance(value, list) or not all(isinstance(one, dict) for one in value):
        raise Wrong(f"{word} is an array of tables: [[{word}]]")
    return value


def _texts(table: dict[str, Any], word: str) -> list[str]:
    value = table.get(word)
    if not isinstance(value, list) or not all(isinstance(one, str) for one in value):
        raise Wrong(f"{word} is a list of texts")
    return value


def _text(table: dict[str, Any], word: str) -> str:
    value = table.get(word)
    if not isinstance(value, str):
        raise Wrong(f"{word} is a text")
    return value


def _caller(table: dict[str, Any], word: str) -> str:
    caller = _text(table, word)
    if not IDENTIFIER.fullmatch(caller):
        raise Wrong(f"{word} is a caller: 1 to 64 of a-z A-Z 0-9 - _ .")
    return caller


def _name(text: str, word: str) -> dns.name.Name:
    try:
        name = dns.name.from_text(text, None).canonicalize()
    except (dns.exception.DNSException, UnicodeError) as error:
        raise Wrong(f"{word}: {printable(text)} is not a name: {printable(str(error))}") from None
    if not name.is_absolute() or name == dns.name.root:
        raise Wrong(f"{word}: {printable(text)} is not an absolute name below the root: it has a dot at its end")
    return name


def _address(text: str) -> tuple[str, int]:
    host, _, port = text.rpartition(":")
    try:
        address = ipaddress.ip_address(host[1:-1] if host.startswith("[") and host.endswith("]") else host)
        number = int(port)
    except ValueError:
        raise Wrong(f"listen: {printable(text)} is not ADDRESS:PORT, or [ADDRESS]:PORT of IPv6") from None
    if address.is_unspecified or not 0 < number < 65536:
        raise Wrong(f"listen: {printable(text)}: name each address, since answers come from the address that was asked")
    return str(address), number


def _keys(tables: list[dict[str, Any]]) -> dict[dns.name.Name, Key]:
    keys: dict[dns.name.Name, Key] = {}
    for table in tables:
        if set(table) != {"name", "algorithm", "secret", "caller"}:
            raise Wrong("a key has name, algorithm, secret and caller, and nothing else")
        name, algorithm = _name(_text(table, "name"), "key"), ALGORITHMS.get(_text(table, "algorithm").lower())
        if name in keys:
            raise Wrong(f"the key {name} is there twice")
        if algorithm is None:
            raise Wrong(f"the algorithm of the key {name} is not one of {' '.join(ALGORITHMS)}")
        try:
            secret = base64.b64decode(_text(table, "secret"), validate=True)
        except (binascii.Error, ValueError):
            raise Wrong(f"the secret of the key {name} is not base64") from None
        if len(secret) < SHORTEST_SECRET:
            raise Wrong(f"the secret of the key {name} has less than {SHORTEST_SECRET} octets")
        keys[name] = Key(dns.tsig.Key(name, secret, algorithm), _caller(table, "caller"))  # type: ignore[no-untyped-call]
    return keys


def _secondary(table: dict[str, Any], zones: list[dns.name.Name], keys: dict[dns.name.Name, Key]) -> Secondary:
    if not {"zone", "address"} <= set(table) <= {"zone", "address", "port", "key"}:
        raise Wrong("notify has zone and address, perhaps port and key, and nothing else")
    zone, port = _name(_text(table, "zone"), "notify"), table.get("port", 53)
    if zone not in zones or type(port) is not int or not 0 < port < 65536:  # pylint: disable=unidiomatic-typecheck
        raise Wrong(f"notify: {zone} is not among the zones, or the port is no number of one")
    try:
        address = str(ipaddress.ip_address(_text(table, "address")))
    except ValueError:
        raise Wrong("notify: the address is not one of IPv4 or IPv6") from None
    key = keys.get(_name(_text(table, "key"), "notify")) if "key" in table else None
    if "key" in table and key is None:
        raise Wrong("notify: there is no such key")
    return Secondary(zone, address, port, key)
