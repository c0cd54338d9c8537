"""The configuration of office-2136 with the keys of named.conf."""

import contextlib
import errno
import json
import os

from office_takeover.clauses import Configuration
from office_takeover.records import NEW


def gateway_text(found: Configuration, listen: list[str], reader: str) -> tuple[str, list[str]]:
    """The text of the configuration, and the words on each key that is not taken. Nothing of the latter is secret."""
    keys, left = [], []
    for key in found.keys.values():
        fault = key.fault()
        if fault:
            left.append(f"{key.where}: key {key.caller}: {fault}")
            continue
        keys.append(f'[[key]]\nname = {json.dumps(key.name.to_text())}\nalgorithm = "{key.algorithm}"\nsecret = "{key.secret}"\n'
                    f'caller = "{key.caller}"\n')
    zones = [zone.origin.to_text() for zone in found.zones]
    head = ("# The configuration of the gateway of DNS UPDATE (docs/adapters.md), with the keys of named.conf. Only root reads it.\n"
            f'listen = {json.dumps(listen)}\noffice = "unix:/run/zoneoffice/2136.sock"\nzones = {json.dumps(zones)}\nreader = "{reader}"\n'
            "# as clients of BIND expect it: zones of names are found, questions for SOA and sets answered, DHCID kept as TXT\n"
            "find-zone = true\nanswer-soa = true\nanswer-sets = true\ndhcid-as-txt = true\nnarrow-deletes = true\n")
    return "\n".join([head, *keys]), left


def write_secret(path: str, text: str) -> None:
    """Writes a new file that only its owner reads, whole or not at all. One that is there, or a link, is refused, and so is a terminal.
    What a killed run left beside it goes."""
    new = path + NEW
    with contextlib.suppress(FileNotFoundError):
        os.unlink(new)
    if os.path.lexists(path):
        raise FileExistsError(errno.EEXIST, os.strerror(errno.EEXIST), path)
    handle = os.open(new, os.O_WRONLY | os.O_CREAT | os.O_EXCL | os.O_NOFOLLOW | os.O_CLOEXEC, 0o600)
    try:
        with open(handle, "w", encoding="utf-8") as file:
            file.write(text)
            file.flush()
            os.fsync(handle)
        os.link(new, path)
    finally:
        os.unlink(new)
