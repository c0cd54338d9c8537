"""The office with a store on a disk, a connection to it, and the zone and the requests of `service` and `requests`."""
import json
import os
import socket
import sqlite3
import subprocess
import sys
import time

import zones

PROGRAM = os.path.join(os.path.dirname(os.path.abspath(__file__)), "..", "crates", "zoneoffice", "out", "zoneoffice")
ORIGIN = zones.ORIGIN
HOSTS = 40


def grant(rule, caller, name):
    """A rule that grants a caller all within a name."""
    return '[[rule]]\nid = "%s"\neffect = "grant"\ncaller = "%s"\nscope = "subtree"\nat = "%s"\ntypes = "*"\nactions = "*"\n' % (rule, caller, name)


def soa(serial):
    return "ns1.%s hostmaster.%s %d 7200 900 1209600 300" % (ORIGIN, ORIGIN, serial)


def zone(size, serial=1):
    """The master file of a zone of so many records: departments have forty hosts."""
    yield "$ORIGIN %s\n$TTL 3600\n@ SOA %s\n@ NS ns1\n@ NS ns2\nns1 A 192.0.2.1\nns2 A 192.0.2.2\n" % (ORIGIN, soa(serial))
    for number in range(size - 5):
        if number % HOSTS == 0:
            yield "$ORIGIN dept%d.%s\n" % (number // HOSTS, ORIGIN)
        yield "pc%06d A 10.%d.%d.%d\n" % (number, number >> 16, number >> 8 & 255, number & 255)


def key(name):
    """The key of a name of plain letters and digits (docs/formats.md)."""
    return b"".join(label.encode() + b"\0" for label in reversed(name.rstrip(".").split(".")))


def additions(name, count):
    """An update that adds so many records."""
    adds = [{"op": "add", "name": "%s-%d.new.%s" % (name, i, ORIGIN), "ttl": 300, "type": "A", "data": "192.0.2.5"} for i in range(count)]
    return {"id": name, "operations": adds}


def changes(history, origin=ORIGIN):
    """The rows of changes of a zone: the SOA before and after, and the record that was added."""
    for number in range(1, history + 1):
        yield origin, number, 0, origin, 6, soa(number), 3600
        yield origin, number, 1, origin, 6, soa(number + 1), 3600
        yield origin, number, 1, "h%06d.old.%s" % (number, origin), 1, "192.0.2.5", 300


def receipts(history):
    for number in range(1, history + 1):
        yield "admin", "h%06d" % number, ORIGIN, "add h%06d.old.%s 300 A 192.0.2.5\n" % (number, ORIGIN), "NOERROR"


def refused(count, items, name):
    """The receipts of so many updates that were refused, each of so many items at a name, under identifiers in no order."""
    for number in range(count):
        request = "add h%07d.%s.%s 300 A 192.0.2.5\n" % (number, name, ORIGIN) * items
        yield "monitor", "%016x" % (number * 0x9E3779B97F4A7C15 % 2**64), ORIGIN, request, "REFUSED operations 0 closing"


def put_rows(store, tables):
    """Writes rows of some tables into a store."""
    db = sqlite3.connect(store, isolation_level=None)
    db.execute("BEGIN")
    for table, width, rows in tables:
        db.executemany("INSERT INTO %s VALUES(%s)" % (table, ", ".join("?" * width)), rows)
    db.execute("COMMIT")
    db.execute("PRAGMA wal_checkpoint(TRUNCATE)")
    db.close()


def put_history(store, history):
    """Writes so many changes of one addition each into a store, with their receipts."""
    put_rows(store, [("changes", 7, changes(history)), ("receipts", 5, receipts(history))])


def posted(path, body, caller="admin"):
    body = json.dumps(body, separators=(",", ":")).encode()
    head = "POST %s HTTP/1.1\r\nHost: office\r\nX-Office-Caller: %s\r\nContent-Length: %d\r\n\r\n" % (path, caller, len(body))
    return head.encode() + body


def got(path, caller="admin"):
    return ("GET %s HTTP/1.1\r\nHost: office\r\nX-Office-Caller: %s\r\n\r\n" % (path, caller)).encode()


class Kept:
    """A connection that is kept."""

    def __init__(self, port):
        self.socket = socket.create_connection(("127.0.0.1", port), timeout=60)
        self.socket.setsockopt(socket.IPPROTO_TCP, socket.TCP_NODELAY, 1)

    def ask(self, request, status=200):
        """The body of a response, which has to have this status, and the seconds that it took."""
        start = time.perf_counter()
        self.socket.sendall(request)
        head, body = b"", b""
        while b"\r\n\r\n" not in head:
            head += self.more()
        head, body = head.split(b"\r\n\r\n", 1)
        length = int(head.lower().split(b"content-length:")[1].split(b"\r\n")[0])
        parts, have = [body], len(body)
        while have < length:
            parts.append(self.more())
            have += len(parts[-1])
        took = time.perf_counter() - start
        if not head.startswith(b"HTTP/1.1 %d " % status):
            sys.exit("not %d: %r %r" % (status, head, b"".join(parts)))
        return b"".join(parts), took

    def more(self):
        part = self.socket.recv(1 << 20)
        if not part:
            sys.exit("the connection was closed")
        return part

    def close(self):
        self.socket.close()


class Office:
    """A store with a zone, and the office that serves it."""

    def __init__(self, program, folder, text, policy):
        self.program, self.store = program, os.path.join(folder, "store")
        self.policy = os.path.join(folder, "policy.toml")
        with open(self.policy, "w") as file:
            file.write(policy)
        self.run("import", "--store", self.store, "--origin", ORIGIN, given=text)

    def run(self, *words, given=""):
        """What a command of the program prints, which has to go through."""
        done = subprocess.run([self.program, *words], input=given, capture_output=True, text=True)
        if done.returncode != 0:
            sys.exit("%s: %s%s" % (words[0], done.stdout, done.stderr))
        return done.stdout

    def serve(self):
        """Starts the office; the port at which it listens."""
        words = ["serve", "--store", self.store, "--policy", self.policy, "--listen", "127.0.0.1:0", "--longest", "0"]
        self.process = subprocess.Popen([self.program, *words], stdout=subprocess.PIPE, text=True)
        line = self.process.stdout.readline()
        if not line.startswith("listening "):
            sys.exit("serve: " + line)
        return int(line.rsplit(":", 1)[1])

    def spent(self):
        """The processor seconds that the office took so far."""
        with open("/proc/%d/schedstat" % self.process.pid) as file:
            return 1e-9 * int(file.read().split()[0])

    def memory(self):
        """The octets that the office holds, and the most that it held."""
        with open("/proc/%d/status" % self.process.pid) as file:
            rows = dict(line.split(":") for line in file)
        return tuple(1024 * int(rows[name].split()[0]) for name in ("VmRSS", "VmHWM"))

    def stop(self):
        self.process.terminate()
        self.process.wait()
        self.process.stdout.close()
