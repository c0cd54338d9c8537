"""How the zones of a name server differ from the office's."""

import os
import re
import subprocess
import sys
import tempfile
import time

import dns.exception
import dns.name
import dns.query
import dns.rdatatype
import dns.tsig
import dns.tsigkeyring

from office_asking import NotGiven, printable
from office_settings import Settings, Wrong, read_settings
from office_takeover.clauses import Key, name_of
from office_takeover.records import LARGEST, Parts, Zone, read_master

SECONDS = 300  # for a transfer
MOST = 2_000_000  # records of a zone
ADDRESS = re.compile(r"([0-9a-fA-F.:]+)(?:#([0-9]{1,5}))?")


class Primary:  # pylint: disable=too-few-public-methods
    """A name server that gives zones whole. A DHCID may count as the TXT that the gateway has in its place."""

    def __init__(self, settings: Settings) -> None:
        found = ADDRESS.fullmatch(settings.needed("primary"))
        if not found or not 0 < int(found[2] or 53) < 65536:
            raise Wrong(f"{settings.where}: primary is no ADDRESS or ADDRESS#PORT")
        self.address, self.port = found[1], int(found[2] or 53)
        self.dhcid_as_text = settings.flag("dhcid-as-txt")
        key, secret, algorithm = settings.text("key"), settings.text("secret"), settings.text("algorithm") or "hmac-sha256"
        if (key is None) != (secret is None):
            raise Wrong(f"{settings.where}: a key has a secret")
        self.ring = _ring(Key(name_of(key, settings.where), algorithm, secret, settings.where)) if key and secret else None

    def zone(self, origin: str) -> Parts:
        """A zone of it."""
        name = dns.name.from_text(origin)
        zone = Zone(name)
        try:
            for message in dns.query.xfr(self.address, name, port=self.port, keyring=self.ring, relativize=False, timeout=60,
                                         lifetime=SECONDS):
                if len(zone.entries) > MOST:
                    raise NoTransfer(f"{origin}: more than {MOST} records")
                for rrset in message.answer:
                    for data in rrset:
                        zone.add(rrset.name, rrset.ttl, data)
        except (dns.exception.DNSException, OSError, EOFError, ValueError) as error:
            raise NoTransfer(f"{origin} from {self.address}#{self.port}: {printable(str(error) or type(error).__name__)}") from None
        return zone.parts(self.dhcid_as_text)


def _ring(key: Key) -> dict[dns.name.Name, dns.tsig.Key]:
    fault = key.fault()
    if fault:
        raise Wrong(f"{key.where}: the key: {fault}")
    found: dict[dns.name.Name, dns.tsig.Key] = dns.tsigkeyring.from_text({key.name.to_text(): (key.algorithm, key.secret)})
    return found


class NoTransfer(Wrong):
    """A zone was not transferred."""


class Drift:  # pylint: disable=too-few-public-methods
    """Compares the zones of an office with those of a primary."""

    def __init__(self, path: str) -> None:
        settings = read_settings(path)
        self.zones, self.primary, self.office = settings.zones("zones"), Primary(settings), settings.office()
        self.program, self.rest = settings.text("program") or "/usr/local/bin/zoneoffice", settings.text("rest")
        self.wait = settings.number("wait", 90, 0, 3600)
        settings.end()

    def differences(self, origin: str) -> list[str]:
        """The item lines that turn the office's zone into the primary's, and those of the rest as comments."""
        theirs = self.primary.zone(origin)
        found = self._of_office(origin, theirs.office)
        if self.rest is not None:
            ours, others = self._rest(origin), set(theirs.rest)
            found += [f"; the rest: delete-record {_short(one)}" for one in sorted(ours - others)]
            found += [f"; the rest: add {_short(one, True)}" for one in sorted(others - ours)]
        return found

    def _of_office(self, origin: str, theirs: list[str]) -> list[str]:
        with tempfile.TemporaryDirectory(prefix="office-takeover-") as folder:
            paths = os.path.join(folder, "office"), os.path.join(folder, "primary")
            for path, lines in zip(paths, (self.office.list_records(origin), theirs)):
                with open(path, "w", encoding="ascii") as file:
                    file.writelines(line + "\n" for line in lines)
            done = subprocess.run([self.program, "diff", "--origin", origin, *paths], stdin=subprocess.DEVNULL, capture_output=True,
                                  text=True, timeout=SECONDS, check=False)
        if done.returncode:
            raise Wrong(f"{origin}: {self.program} diff: {printable(done.stderr.strip() or done.stdout.strip(), 400)}")
        return done.stdout.splitlines()

    def _rest(self, origin: str) -> set[str]:
        """The rest of a zone as `publish` has it."""
        path = os.path.join(self.rest or "", f"{origin[:-1].replace('/', '_')}.zone")
        try:
            with open(path, "rb") as file:
                text = file.read(LARGEST).decode("latin-1")
        except FileNotFoundError:
            return set()
        return {line for _, line in read_master(text, dns.name.from_text(origin), path).lines()}


def _short(line: str, with_ttl: bool = False) -> str:
    name, ttl, _, rest = line.split(" ", 3)
    return f"{name} {ttl} {rest}" if with_ttl else f"{name} {rest}"


def drift(config: str) -> int:
    """Prints the differences that are there twice, some time apart: a change on its way is none."""
    work, failed, left = Drift(config), False, list[str]()
    for again in False, True:
        zones, left = left if again else work.zones, []
        for origin in zones:
            try:
                lines = work.differences(origin)
            except (NoTransfer, NotGiven) as error:
                print(f"office-takeover: {error}", file=sys.stderr)
                failed = True
                continue
            if lines and again:
                print("\n".join([f"; {origin}", *lines]), flush=True)
            left += [origin] if lines else []
        if left and not again:
            time.sleep(work.wait)
    return 2 if failed else 1 if left else 0
