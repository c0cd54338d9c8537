"""Names, and records as the office prints them."""

import dataclasses
import re

# made: types
TYPES = ("A", "NS", "CNAME", "SOA", "PTR", "MX", "TXT", "AAAA", "SRV", "DS")
# end
IDENTIFIER = re.compile(r"[A-Za-z0-9._-]{1,64}", re.ASCII)  # a caller
ADDRESS = re.compile(r"[A-Za-z0-9._+-]{1,63}@[a-z0-9-]+(?:\.[a-z0-9-]+)+", re.ASCII)  # of a mailbox
LINE = re.compile(r"([!-~]*\.) ([0-9]{1,10}) IN ([A-Z0-9]{1,10}) ([ -~]+)", re.ASCII)

Labels = tuple[bytes, ...]


def labels(name: str) -> Labels:
    """The labels of an absolute name (docs/formats.md), from the root down, in lower case; ValueError if it is none."""
    found: list[bytes] = []
    label, octets, place = bytearray(), name.encode(), 0
    if octets == b".":
        return ()
    while place < len(octets):
        if octets[place] == ord("\\") and octets[place + 1:place + 4].isdigit() and place + 3 < len(octets):
            label.append(int(octets[place + 1:place + 4]))
            place += 4
        elif octets[place] == ord("\\"):
            label += octets[place + 1:place + 2]
            place += 2
        elif octets[place] == ord("."):
            found.append(bytes(label).lower())
            label.clear()
            place += 1
        else:
            label.append(octets[place])
            place += 1
    if label or not found or not all(0 < len(one) < 64 for one in found):
        raise ValueError(f"{name} is no absolute name")
    return tuple(reversed(found))


def is_within(name: Labels, origin: Labels) -> bool:
    """Whether a name is an origin, or below it."""
    return name[:len(origin)] == origin


@dataclasses.dataclass(frozen=True)
class Record:
    """A record of the office."""
    name: str
    ttl: int
    type: str
    data: str


def record_of(line: str) -> Record:
    """The record of a line; ValueError if it has none."""
    found = LINE.fullmatch(line)
    if not found:
        raise ValueError("it is not the line of a record")
    return Record(found[1], int(found[2]), found[3], found[4])


def mailbox(soa: str) -> str:
    """The address of who answers for a zone, by the data of its SOA (RFC 1035 section 3.3.13); nothing if it is an odd one."""
    words = soa.split(" ")
    parts = [label.decode("latin-1") for label in reversed(labels(words[1]))] if len(words) > 1 else []
    address = f"{parts[0]}@{'.'.join(parts[1:])}" if parts else ""
    return address if ADDRESS.fullmatch(address) else ""
