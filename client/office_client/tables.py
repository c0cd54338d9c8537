"""The closed lists that the client knows: the version, record types with their fields, actions, and rules for zones."""

VERSION = "1.0.0"

# Each type with its number and the kinds of its fields.
# made: types
TYPES = {
    "A": (1, ("Ipv4",)),
    "NS": (2, ("Name",)),
    "CNAME": (5, ("Name",)),
    "SOA": (6, ("Name", "Name", "Number U32", "Seconds", "Seconds", "Seconds", "Seconds")),
    "PTR": (12, ("Name",)),
    "MX": (15, ("Number U16", "Name")),
    "TXT": (16, ("Strings",)),
    "AAAA": (28, ("Ipv6",)),
    "SRV": (33, ("Number U16", "Number U16", "Number U16", "Name")),
    "DS": (43, ("Number U16", "Number U8", "Number U8", "Digest")),
}
# end

# made: actions
ACTIONS = "list", "check", "add", "delete", "delegate"
# end

# What each field is called, where it is not what its kind is called.
FIELDS = {
    "NS": ("server",), "CNAME": ("target",), "PTR": ("target",), "MX": ("preference", "server"),
    "SOA": ("primary server", "mailbox", "serial", "refresh", "retry", "expire", "minimum"),
    "SRV": ("priority", "weight", "port", "server"), "DS": ("key tag", "algorithm", "digest type", "digest"),
}

# What is wrong by each rule for zones, and where the standards have it.
RULES = {
    "host-name": ("a name in it is not that of a host, which has letters, digits and hyphens, and no hyphen at either end of a label",
                  "RFC 952, RFC 1123 section 2.1"),
    "alias-target": ("its server is an alias", "RFC 2181 section 10.3, RFC 2782"),
    "missing-address": ("its server is in this zone and has no address", "RFC 1034 section 3.6, RFC 2782"),
    "missing-glue": ("its server is in a delegated zone and has no address", "RFC 1034 section 4.2.1, RFC 9471 section 2"),
    "below-cut": ("a delegation hides it, and it is not glue", "RFC 1034 section 4.2.1"),
    "ds-without-ns": ("it is a DS at a name without NS", "RFC 4034 section 5"),
    "wildcard-ns": ("it is an NS at a wildcard", "RFC 4592 section 4.2"),
    "digest-length": ("its digest has not the length of its type", "RFC 4034 section 5.1, RFC 4509 section 2.1, RFC 6605 section 2"),
    "weak-digest": ("its digest is of SHA-1", "RFC 8624 section 3.3"),
    "address-name": ("the name to which it points is an IPv4 address", "RFC 1035 section 3.3, RFC 1123 section 2.1"),
    "unread-octet": ("a name in it has one of ! # % & ' + , : < = > ? [ ] ^ ` { | } ~, which Knot does not read", "RFC 1035 section 5.1"),
    "dangling-alias": ("the target of the alias is in this zone and has no records there", "RFC 1034 section 3.6.2"),
}

PREREQUISITES_MAX, OPERATIONS_MAX, OCTETS_MAX = 64, 256, 65536
TTL_MAX = 2147483647
