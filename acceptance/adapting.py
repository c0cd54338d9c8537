"""What the scripts that try adapters share: an office behind nginx with the page's rules before its policy, and Knot, which `publish` feeds."""

import base64
import contextlib
import http.client
import http.server
import json
import os
import re
import signal
import sqlite3
import ssl
import subprocess
import threading
import time

from trying import FRONT, TOP, Office, must, run, set_up_front, wait_for

CERTIFICATE = "/etc/zoneoffice/front/cert.pem"
PAGE = "adapters.md"
POLICY = "/etc/zoneoffice/policy.toml"
STORE = "/var/lib/zoneoffice/store"
PACKAGES = {"curl": "curl", "htpasswd": "apache2-utils", "ip": "iproute2", "kdig": "knot-dnsutils", "knotd": "knot",
            "kzonecheck": "knot-dnssecutils", "nft": "nftables", "nginx": "nginx", "openssl": "openssl", "systemd_socket_activate": "systemd"}


def password(user):
    return f"secret of {user}"


def blocks(chapter):
    """The indented blocks of a chapter of the page, without what indents them."""
    text = open(os.path.join(TOP, "docs", PAGE), encoding="utf-8").read()
    text = text[text.index(f"## {chapter}\n"):].split("\n## ", 1)[0]
    return [re.sub(r"^    ", "", one, flags=re.M) for one in re.findall(r"(?:^    .*\n(?:\n(?=    ))?)+", text, re.M)]


def block(chapter, start):
    """The block of a chapter that begins so."""
    for one in blocks(chapter):
        if one.startswith(start):
            return one
    raise LookupError(f"{chapter} shows no {start}")


def set_up_office(users, rules, zones=(), last=False):
    """An office behind nginx over TLS, with passwords for these users, these rules first or last, and more zones: pairs of origin and
    text."""
    set_up_front([*users, "phys", "admin"], password)
    with open(POLICY, "r+", encoding="utf-8") as file:
        text = file.read()
        file.seek(0)
        file.write(f"{text}\n{rules}" if last else f"{rules}\n{text}")
    for origin, text in zones:
        must(f"runuser -u zoneoffice -- zoneoffice import --store {STORE} --origin {origin}", input=text)
    return Office()


def install(chapter):
    """Installs an adapter by the commands of its chapter."""
    for command in block(chapter, "install -D -m 755 -t /usr/local/lib/zoneoffice").splitlines():
        must(command, cwd=TOP)


def settings(path, text, user="root"):
    """Writes settings as the page has them, of a user; those of an office over TLS trust the front server's own certificate."""
    with open(path, "w", encoding="utf-8") as file:
        os.chmod(path, 0o600)
        file.write((f'ca = "{CERTIFICATE}"\n' if "https:" in text else "") + text)
    must(f"chown {user} {path}")


def ask(target, body=None, caller="admin"):
    """What the office itself answers, as JSON."""
    words = ["curl", "-sS", "--unix-socket", FRONT, "-H", f"X-Office-Caller: {caller}", f"http://office{target}"]
    return json.loads(subprocess.run(words + (["-d", json.dumps(body)] if body else []), check=True, capture_output=True, text=True).stdout)


def update(zone, *operations, caller="admin"):
    """Makes an update, or fails."""
    update.number += 1
    said = ask(f"/zones/{zone}/updates", {"id": f"try-{update.number}", "operations": list(operations)}, caller)
    if said != {"code": 0, "name": "NOERROR"}:
        raise RuntimeError(f"{operations}: {said}")


update.number = 0


def add(name, kind, data, ttl=300):
    return {"op": "add", "name": name, "ttl": ttl, "type": kind, "data": data}


def delete(name, kind, data):
    return {"op": "delete-record", "name": name, "type": kind, "data": data}


def records(zone):
    """The records of a zone but its SOA."""
    return [one for one in ask(f"/zones/{zone}/records", caller="publisher")["records"] if " IN SOA " not in one]


def changes(zone, first=1):
    return ask(f"/zones/{zone}/changes/{first}", caller="publisher")["changes"]


def receipts(caller, zone="example.org."):
    """The receipts of a caller for a zone, in a copy of the store: identifiers and replies."""
    must(f"rm -rf /run/copy && mkdir /run/copy && cp {STORE}* /run/copy/")
    with contextlib.closing(sqlite3.connect("/run/copy/store")) as copy:
        return copy.execute("SELECT id, reply FROM receipts WHERE caller = ? AND origin = ?", (caller, zone)).fetchall()


# runs a program, and kills it when it comes to so many different lines of an adapter's code; with 0 it prints how many there were. The
# adapters are where they are installed, or in the folder of ADAPTERS
STOPPER = """
import os, runpy, sys, threading
FOLDER, at, seen = os.environ.get("ADAPTERS", "/usr/local/lib/zoneoffice/"), int(sys.argv[1]), set()
def trace(frame, event, _):
    if not frame.f_code.co_filename.startswith(FOLDER):
        return None
    if event == "line":
        seen.add((frame.f_code.co_filename, frame.f_lineno))
        if len(seen) == at:
            os.kill(os.getpid(), 9)
    return trace
sys.argv = sys.argv[2:]
sys.path.insert(0, FOLDER)
threading.settrace(trace)
sys.settrace(trace)
try:
    runpy.run_path(FOLDER + sys.argv[0], run_name="__main__")
finally:
    if not at:
        os.write(2, f"{len(seen)} lines".encode())
"""


def stopped_at(line, *words, **more):
    """Runs an adapter with words until it comes to so many different lines of its code, and kills it there. Whether it was killed."""
    done = subprocess.run(["/usr/bin/python3", "-c", STOPPER, str(line), *words], stdout=subprocess.DEVNULL, stderr=subprocess.DEVNULL,
                          check=False, timeout=300, **more)
    return done.returncode == -signal.SIGKILL


def lines_of(*words, **more):
    """How many different lines of its code an adapter runs with these words."""
    said = subprocess.run(["/usr/bin/python3", "-c", STOPPER, "0", *words], stdout=subprocess.DEVNULL, stderr=subprocess.PIPE, text=True,
                          check=False, timeout=300, **more).stderr
    return int(re.search(r"(\d+) lines$", said)[1])


class Losing(http.server.ThreadingHTTPServer):
    """Hands requests to the office as a caller, or to the front server with the caller's password, and loses the first reply to each
    update, and where it says so to each reading, or calls a function before one."""

    class Handler(http.server.BaseHTTPRequestHandler):
        """One request and its reply."""

        def answer(self):
            body = self.rfile.read(int(self.headers.get("Content-Length") or 0))
            self.server.before(body)
            office, fields = self.server.way()
            office.request(self.command, self.path, body or None, {**fields, "Connection": "close"})
            response = office.getresponse()
            text = response.read()
            asked = body or self.server.reads and self.path
            if asked and self.server.loses and asked not in self.server.lost:
                self.server.lost.add(asked)
                return
            self.send_response(response.status)
            self.send_header("Content-Length", str(len(text)))
            self.end_headers()
            self.wfile.write(text)

        do_GET = do_POST = answer

        def log_message(self, *_):
            pass

    def __init__(self, caller, before=lambda body: None, loses=True, reads=False, front=False):
        super().__init__(("127.0.0.1", 0), self.Handler)
        self.caller, self.before, self.loses, self.reads, self.front = caller, before, loses, reads, front
        self.lost, self.port = set(), self.server_address[1]
        threading.Thread(target=self.serve_forever, daemon=True).start()

    def way(self):
        """A connection, and the fields that say who asks."""
        if not self.front:
            return http.client.HTTPConnection("127.0.0.1", 8053, timeout=60), {"X-Office-Caller": self.caller}
        pair = base64.b64encode(f"{self.caller}:{password(self.caller)}".encode()).decode()
        context = ssl.create_default_context(cafile=CERTIFICATE)
        return http.client.HTTPSConnection("office.example.org", timeout=60, context=context), {"Authorization": f"Basic {pair}"}

    def close(self):
        self.shutdown()
        self.server_close()


class Knot:
    """Knot at port 53 of 127.0.0.1 and of the example's ns1, 192.0.2.1, with zones that `publish` takes to it as soon as they change."""

    def __init__(self, *zones):
        folder = "/var/lib/knot/office"
        must("ip address add 192.0.2.1/32 dev lo")
        must(f"usermod --append --groups knot publisher && install -d -m 755 -o publisher -g knot {folder} && install -d -o knot -g knot "
             "/run/knot && install -m 755 deploy/publish /usr/local/bin/", cwd=TOP)
        with open("/etc/knot/knot.conf", "w", encoding="utf-8") as file:
            file.write("server:\n    rundir: /run/knot\n    user: knot:knot\n    listen: [ 127.0.0.1@53, 192.0.2.1@53 ]\n"
                       "database:\n    storage: /var/lib/knot\nzone:\n"
                       + "".join(f"  - domain: {zone}\n    storage: {folder}\n" for zone in zones))
        self.zones = zones
        self.command = f"runuser -u publisher -- env TRIES=15 /usr/local/bin/publish knot {folder} {' '.join(zones)}"
        self.process = subprocess.Popen(["knotd"], stdout=subprocess.DEVNULL, stderr=subprocess.DEVNULL)
        self.is_going = True
        self.thread = threading.Thread(target=self.go, daemon=True)
        self.thread.start()
        if not wait_for(lambda: all(dig(f"{zone} SOA") for zone in zones), 60):
            raise RuntimeError(f"Knot does not serve {' '.join(zones)}: {run(self.command)}")

    def go(self):
        while self.is_going:
            run(self.command)
            time.sleep(1)

    def stop(self):
        self.is_going = False
        self.thread.join(60)
        self.process.send_signal(signal.SIGTERM)
        self.process.wait(20)


DIRECTORY = "https://localhost:14000/dir"  # of pebble, whose certificate is /run/acme.pem
TRUST = "REQUESTS_CA_BUNDLE=/run/acme.pem LEGO_CA_CERTIFICATES=/run/acme.pem CURL_CA_BUNDLE=/run/acme.pem"


def start_pebble():
    """pebble, which asks Knot for the records; it rejects no nonces, since dehydrated gives up at one."""
    with open("/run/pebble.json", "w", encoding="utf-8") as file:
        json.dump({"pebble": {"listenAddress": "127.0.0.1:14000", "managementListenAddress": "127.0.0.1:15000", "certificate": "/run/acme.pem",
                              "privateKey": "/run/acme.key", "httpPort": 5002, "tlsPort": 5001, "ocspResponderURL": "",
                              "externalAccountBindingRequired": False}}, file)
    must("openssl req -x509 -newkey ec -pkeyopt ec_paramgen_curve:P-256 -nodes -subj /CN=localhost -addext subjectAltName=DNS:localhost "
         "-days 2 -keyout /run/acme.key -out /run/acme.pem")
    subprocess.Popen(["pebble", "-config", "/run/pebble.json", "-dnsserver", "127.0.0.1:53"], stdout=subprocess.DEVNULL,
                     stderr=subprocess.DEVNULL, env={**os.environ, "PEBBLE_VA_NOSLEEP": "1", "PEBBLE_WFE_NONCEREJECT": "0",
                                                     "PEBBLE_AUTHZREUSE": "0"})
    if not wait_for(lambda: run(f"curl -s --cacert /run/acme.pem {DIRECTORY}")[0] == 0):
        raise RuntimeError("pebble does not start")


def names_of(path):
    """The names that a certificate is for."""
    said = run(f"openssl x509 -noout -ext subjectAltName -in {path}")[1]
    return sorted(word.strip(" ,").removeprefix("DNS:") for word in said.splitlines()[-1].split(",")) if "DNS:" in said else said


def dig(words):
    return run(f"kdig +short +retry=1 +timeout=2 @127.0.0.1 {words}")[1]
