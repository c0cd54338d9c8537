"""Zones of a university as master files, the same for the same words, in four styles:

  plain  a line for each record, with an absolute owner, TTL, class and absolute names
  rel    $ORIGIN and $TTL once, relative names, an owner stated once
  paren  as rel, with SOA and TXT over several lines, and comments in them
  mixed  as paren, with $ORIGIN and $TTL for each department, comments, blank lines, units and capitals

    python3 zones.py STYLE OCTETS > FILE
"""
import sys

ORIGIN = "example.org."
STYLES = ("plain", "rel", "paren", "mixed")


def departments():
    """Endlessly: a department's name and its records, as (owner, TTL, type, data), relative to the zone's origin."""
    number = 0
    while True:
        number += 1
        name = "dept%d" % number
        net = "10.%d.%d" % (number // 250, number % 250)
        six = "2001:db8:%x::" % number
        records = [
            (name, 3600, "MX", ["10", "mail." + name]),
            (name, 3600, "TXT", ['"department %d"' % number, '"ring twice; then wait"']),
            ("mail." + name, 3600, "A", [net + ".2"]),
            ("_sip._tcp." + name, 3600, "SRV", ["10", "60", "5060", "mail." + name]),
            ("www." + name, 300, "CNAME", ["web." + name]),
            ("web." + name, 3600, "A", [net + ".3"]),
            ("web." + name, 3600, "AAAA", [six + "3"]),
        ]
        for host in range(4, 44):
            owner = "pc%02d.%s" % (host, name)
            records.append((owner, 3600, "A", ["%s.%d" % (net, host)]))
            if host % 4 == 0:
                records.append((owner, 3600, "AAAA", ["%s%x" % (six, host)]))
        if number % 5 == 0:
            records.append(("lab." + name, 3600, "NS", ["ns1.lab." + name]))
            records.append(("lab." + name, 3600, "DS", ["%d" % number, "8", "2", "%064x" % number]))
            records.append(("ns1.lab." + name, 3600, "A", [net + ".250"]))
        yield name, records


TOP = [
    ("@", 3600, "SOA", ["ns1", "hostmaster", "2024010101", "7200", "900", "1209600", "300"]),
    ("@", 3600, "NS", ["ns1"]),
    ("@", 3600, "NS", ["ns2"]),
    ("ns1", 3600, "A", ["10.255.0.1"]),
    ("ns2", 3600, "A", ["10.255.0.2"]),
]
NAMES = {"SOA": (0, 1), "NS": (0,), "MX": (1,), "SRV": (3,), "CNAME": (0,)}


def absolute(name):
    return ORIGIN if name == "@" else name + "." + ORIGIN


def plain(record):
    owner, ttl, kind, data = record
    data = [absolute(d) if i in NAMES.get(kind, ()) else d for i, d in enumerate(data)]
    return "%s %d IN %s %s\n" % (absolute(owner), ttl, kind, " ".join(data))


def spread(kind, data):
    """Data over several lines, with comments."""
    if kind == "SOA":
        return " ".join(data[:2]) + " (\n" + "".join("    %s ; field %d\n" % (d, i) for i, d in enumerate(data[2:])) + "    )"
    if kind == "TXT":
        return "(\n" + "".join("    %s\n" % d for d in data) + "    ) ; in parts"
    return " ".join(data)


def block(records, style, last):
    """Records with relative names, owners stated once; `last` is the TTL in force."""
    lines, before = [], None
    for owner, ttl, kind, data in records:
        text = spread(kind, data) if style in ("paren", "mixed") else " ".join(data)
        first = "" if owner == before else (owner.upper() if style == "mixed" and kind == "CNAME" else owner)
        lines.append("%-12s %s %s %s\n" % (first, "" if ttl == last else ttl, kind, text))
        before = owner
    return "".join(lines)


def cut(name, department):
    """A name of a department, relative to it."""
    if name == department:
        return "@"
    return name[: -len(department) - 1] if name.endswith("." + department) else name


def mixed(name, records):
    inner = [(cut(o, name), t, k, [cut(d, name) if i in NAMES.get(k, ()) else d for i, d in enumerate(ds)]) for o, t, k, ds in records]
    return "\n; the department %s\n$ORIGIN %s.%s\n$TTL 1h\n%s" % (name, name, ORIGIN, block(inner, "mixed", 3600))


def zone(octets, style):
    """A zone of about so many octets and not more."""
    top = "".join(map(plain, TOP)) if style == "plain" else "$ORIGIN %s\n$TTL 3600\n%s" % (ORIGIN, block(TOP, style, 3600))
    parts, size = [top], len(top)
    for name, records in departments():
        if style == "plain":
            part = "".join(map(plain, records))
        elif style == "mixed":
            part = mixed(name, records)
        else:
            part = block(records, style, 3600)
        if size + len(part) > octets:
            return "".join(parts)
        parts.append(part)
        size += len(part)


if __name__ == "__main__":
    sys.stdout.write(zone(int(sys.argv[2]), sys.argv[1]))
