"""The record types that an office keeps, record lines as it lists them, and which names are within others."""

import dataclasses

# made: types
TYPES = ("A", "NS", "CNAME", "SOA", "PTR", "MX", "TXT", "AAAA", "SRV", "DS")
# end


@dataclasses.dataclass(frozen=True)
class Record:
    """A record as the office lists it."""
    name: str
    ttl: int
    type: str
    data: str


def record_of(line: str) -> Record:
    """The record of a line."""
    name, ttl, _, kind, data = line.split(" ", 4)
    return Record(name, int(ttl), kind, data)


def is_within(name: str, origin: str) -> bool:
    """Whether a name is an origin or below it; both are in lower case. A dot with a backslash before it divides no labels."""
    rest = name.removesuffix("." + origin)
    return name == origin or rest != name and (len(rest) - len(rest.rstrip("\\"))) % 2 == 0
