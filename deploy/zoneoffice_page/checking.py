"""Asks the servers of delegations whether they serve the child, and whether its keys fit its DS.

A department writes which servers are asked. So each run asks a bounded number of questions, each address and each network few of them, so
many a second, and no address of this machine or link. What a server answers is read for its code, its authority and its keys only."""

import concurrent.futures
import contextlib
import ipaddress
import json
import os
import socket
import sys
import threading
import time
from typing import Any

import dns.dnssec
import dns.exception
import dns.flags
import dns.message
import dns.name
import dns.query
import dns.rcode
import dns.rdataclass
import dns.rdatatype
import dns.resolver

from .files import Folder, Unsafe, printable, read
from .matching import when_of

LONGEST = 64 << 20
SECONDS = 3.0  # for an answer
TRIES = 2
RUN = 900.0  # seconds of a run
QUESTIONS = 20000  # of a run
RATE = 20.0  # questions a second
OF_ADDRESS, OF_NETWORK = 60, 200  # questions to an address, and to its /24 or /56, in a run
CHILDREN = 5000  # that a run checks, those first that were checked longest ago
AT_ONCE = 8
ADDRESSES, KEYS = 4, 32
WORST = "no address", "silent", "refused", "lame", "ok"  # of several addresses the worst counts

NOBODY = ipaddress.ip_network("0.0.0.0/8"), ipaddress.ip_network("255.255.255.255/32")

Address = ipaddress.IPv4Address | ipaddress.IPv6Address


class Spent(Exception):
    """The run, an address or a network has had its questions."""


class Budget:  # pylint: disable=too-few-public-methods
    """How many questions there may be, to whom, and how often."""

    def __init__(self) -> None:
        self.until, self.next, self.lock = time.monotonic() + RUN, time.monotonic(), threading.Lock()
        self.asked, self.counts = 0, dict[str, int]()

    def take(self, address: Address | None) -> None:
        """Waits for a question's turn; Spent if there is none. Questions to the resolver have no address."""
        with self.lock:
            now = time.monotonic()
            self.asked += 1
            if self.asked > QUESTIONS or now > self.until:
                raise Spent
            if address is not None:
                network = str(ipaddress.ip_network((address, 24 if address.version == 4 else 56), strict=False))
                for key, most in (str(address), OF_ADDRESS), (network, OF_NETWORK):
                    self.counts[key] = self.counts.get(key, 0) + 1
                    if self.counts[key] > most:
                        raise Spent
            self.next = max(self.next, now) + 1 / RATE
            pause = self.next - now
        time.sleep(pause)


def may_be_asked(address: Address) -> bool:
    """Whether an address may be a name server's: not of this machine, of a link, or of many."""
    mapped = address.ipv4_mapped if isinstance(address, ipaddress.IPv6Address) else None
    if mapped:
        return may_be_asked(mapped)
    is_special = address.is_loopback or address.is_link_local or address.is_multicast or address.is_unspecified
    return not (is_special or any(address in network for network in NOBODY))


class Checker:
    """A run over delegations."""

    def __init__(self, port: int = 53) -> None:
        self.budget, self.port = Budget(), port
        self.found: dict[str, list[str]] = {}
        self.lock = threading.Lock()

    def addresses(self, server: str, glue: list[str] | None) -> list[Address]:
        """The addresses of a server: those of the zone, or else as this machine's resolver has them."""
        given = glue if glue is not None else self.resolved(server)
        found = []
        for one in given[:ADDRESSES]:
            with contextlib.suppress(ValueError):
                address = ipaddress.ip_address(one)
                if may_be_asked(address):
                    found.append(address)
        return found

    def resolved(self, server: str) -> list[str]:
        """What the resolver answers. A name is asked for once in a run."""
        with self.lock:
            known = self.found.get(server)
        if known is None:
            known = []
            for kind in "A", "AAAA":
                self.budget.take(None)
                with contextlib.suppress(dns.exception.DNSException, OSError, ValueError):
                    known += [one.address for one in dns.resolver.resolve(server, kind, search=False, lifetime=SECONDS * TRIES)]
            with self.lock:
                self.found[server] = known
        return known

    def ask(self, name: dns.name.Name, kind: dns.rdatatype.RdataType, address: Address) -> dns.message.Message | None:
        """The response of a server, or None if none comes that is one."""
        query = dns.message.make_query(name, kind, use_edns=0, payload=1232)
        query.flags &= ~dns.flags.RD
        for _ in range(TRIES):
            self.budget.take(address)
            try:
                response = dns.query.udp(query, str(address), timeout=SECONDS, port=self.port, ignore_unexpected=True)
                if not response.flags & dns.flags.TC:
                    return response
                self.budget.take(address)
                return dns.query.tcp(query, str(address), timeout=SECONDS, port=self.port)
            except (dns.exception.Timeout, ConnectionRefusedError):
                continue
            except Exception:  # pylint: disable=broad-exception-caught  # nothing that a server sends ends the run
                return None
        return None

    def serves(self, name: dns.name.Name, address: Address) -> str | None:
        """How a server answers for a child; None if this machine has no way there."""
        if not is_reachable(address):
            return None
        response = self.ask(name, dns.rdatatype.SOA, address)
        if response is None:
            return "silent"
        if response.rcode() == dns.rcode.REFUSED:
            return "refused"
        has_soa = any(one.name == name and one.rdtype == dns.rdatatype.SOA for one in response.answer)
        return "ok" if response.rcode() == dns.rcode.NOERROR and response.flags & dns.flags.AA and has_soa else "lame"

    def check_server(self, name: dns.name.Name, server: str, glue: list[str] | None) -> tuple[str | None, Address | None]:
        """How a server serves a child, by the worst of its addresses, and an address that does; None if none could be asked."""
        addresses = self.addresses(server, glue)
        if not addresses:
            return "no address", None
        words = {address: word for address in addresses if (word := self.serves(name, address))}
        good = [address for address, word in words.items() if word == "ok"]
        return min(words.values(), key=WORST.index, default=None), good[0] if good else None

    def fits(self, name: dns.name.Name, wanted: list[str], address: Address) -> str | None:
        """Whether a key of the child has one of these DS; None if that is not known."""
        response = self.ask(name, dns.rdatatype.DNSKEY, address)
        if response is None or response.rcode() != dns.rcode.NOERROR or not response.flags & dns.flags.AA:
            return None
        keys = [key for one in response.answer if one.name == name and one.rdtype == dns.rdatatype.DNSKEY for key in one]
        if not keys:
            return "unsigned"
        return "ok" if any(is_of(name, key, data) for key in keys[:KEYS] for data in wanted) else "mismatch"

    def check(self, child: str, delegation: dict[str, Any]) -> dict[str, Any] | None:
        """What is found of a delegation; None if the run has no question for it any more."""
        try:
            name = dns.name.from_text(child)
            servers, good = {}, None
            for server, glue in delegation["servers"].items():
                word, address = self.check_server(name, server, glue)
                if word:
                    servers[server] = word
                good = good or address
            wanted = [str(one).lower() for one in delegation["ds"]]
            fits = "none" if not wanted else self.fits(name, wanted, good) if good else None
        except Spent:
            return None
        return {"checked": when_of(time.time()), "servers": servers, "ds": fits, "for": delegation["ds"]}


def is_reachable(address: Address) -> bool:
    """Whether this machine has a way to an address: without IPv6, say, it has none to such. Nothing is sent."""
    with socket.socket(socket.AF_INET if address.version == 4 else socket.AF_INET6, socket.SOCK_DGRAM) as one:
        try:
            one.connect((str(address), 53))
            return True
        except OSError:
            return False


def is_of(name: dns.name.Name, key: Any, data: str) -> bool:
    """Whether a key has a DS."""
    tag, algorithm, digest_type, digest = data.split(" ", 3)
    kinds = {"1": "SHA1", "2": "SHA256", "4": "SHA384"}
    if digest_type not in kinds or int(algorithm) != key.algorithm or int(tag) != dns.dnssec.key_id(key):
        return False
    return bool(dns.dnssec.make_ds(name, key, kinds[digest_type]).digest.hex() == digest.replace(" ", ""))


def wanted_of(path: str) -> dict[str, dict[str, Any]]:
    """The delegations that are to be checked, by zone."""
    try:
        found = json.loads(read(path, LONGEST) or b"{}")
    except (ValueError, RecursionError):
        found = {}
    return found if isinstance(found, dict) else {}


def check(wanted_path: str, folder: str, port: int = 53) -> int:
    """Makes a run, and gives its status."""
    os.umask(0o027)
    try:
        with Folder(folder) as place:
            if not place.lock():
                return 0
            place.names()
            wanted = wanted_of(wanted_path)
            old = wanted_of(os.path.join(folder, "children.json"))
            place.put("children.json", json.dumps(checked(wanted, old, Checker(port)), separators=(",", ":")).encode())
            return 0
    except (Unsafe, OSError) as error:
        print(f"zoneoffice-page: {printable(str(error))}", file=sys.stderr)
        return 1


def checked(wanted: dict[str, dict[str, Any]], old: dict[str, dict[str, Any]], checker: Checker) -> dict[str, dict[str, Any]]:
    """What is found of the delegations that are wanted: of those that were not checked now, what was found before."""
    found = {zone: {child: old[zone][child] for child in children if child in old.get(zone, {})} for zone, children in wanted.items()}
    todo = sorted((str(found[zone].get(child, {}).get("checked", "")), zone, child)
                  for zone, children in wanted.items() for child in children)
    with concurrent.futures.ThreadPoolExecutor(AT_ONCE) as pool:
        runs = {pool.submit(checker.check, child, wanted[zone][child]): (zone, child) for _, zone, child in todo[:CHILDREN]}
        for done in concurrent.futures.as_completed(runs):
            zone, child = runs[done]
            one = done.result()
            if one:
                found[zone][child] = one
    return found
