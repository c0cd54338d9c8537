"""The name servers at which the days of a department end: BIND, Knot and NSD, to which `publish` takes the office's zones, and what
`zoneoffice-page` then writes for each user."""

import json
import os
import subprocess

from page_browser import BIG, REVERSE, ZONE
from trying import TOP, must, run, shown, wait_for

ZONES = ZONE, REVERSE
MINE, STATE, FOUND = "/var/lib/zoneoffice-my", "/var/lib/zoneoffice-page", "/var/lib/zoneoffice-children"
PLACE = "/run/servers"  # their configuration and sockets
SCRIPT = "/usr/local/lib/zoneoffice/zoneoffice-page"
CURL = "curl -sS --unix-socket /run/zoneoffice-publisher/office.sock http://office/zones"
CHILD = "198.51.100.54"  # where a server of medicine answers

BIND = """options {{ directory "{place}"; pid-file none; session-keyfile none; listen-on port {port} {{ 127.0.0.1; }}; listen-on-v6 {{ none; }};
  recursion no; dnssec-validation no; notify no; }};
include "/etc/bind/rndc.key";
controls {{ inet 127.0.0.1 port 9531 allow {{ 127.0.0.1; }} keys {{ "rndc-key"; }}; }};
"""
KNOT = """server:
  rundir: {place}
  user: knot:knot
  listen: 127.0.0.1@{port}
control:
  listen: {place}/knot.sock
database:
  storage: {place}
zone:
"""
NSD = """server:
  ip-address: 127.0.0.1@{port}
  username: ""
  database: ""
  zonesdir: "/"
  pidfile: "{place}/nsd.pid"
  xfrdfile: "{place}/xfrd.state"
  zonelistfile: "{place}/zone.list"
remote-control:
  control-enable: yes
  control-interface: {place}/nsd.sock
"""
# the configuration, how a zone stands in it, the command that runs the server, the words for its control, and the socket of that
SERVERS = {
    "bind": (5301, BIND, 'zone "{zone}" {{ type primary; file "{file}"; }};\n', "named -f -u bind -n 1 -c {conf}",
             "-p 9531 -k /etc/bind/rndc.key", None),
    "knot": (5302, KNOT, "  - domain: {zone}\n    file: {file}\n    zonefile-sync: -1\n    zonefile-load: whole\n    journal-content: none\n",
             "knotd -c {conf}", "-s {place}/knot.sock", "knot.sock"),
    "nsd": (5303, NSD, "zone:\n  name: {zone}\n  zonefile: {file}\n", "nsd -d -c {conf}", "-c {conf}", "nsd.sock"),
}


class Server:
    """One of them, with its folder of `publish`."""

    def __init__(self, kind):
        self.kind, (self.port, head, zone, command, control, socket) = kind, SERVERS[kind]
        self.folder = f"/var/lib/{kind}/office"
        place, conf = f"{PLACE}/{kind}", f"{PLACE}/{kind}/{kind}.conf"
        must(f"install -d -m 755 -o {kind} {place} && install -d -m 755 -o publisher -g {kind} {self.folder}")
        with open(conf, "w", encoding="utf-8") as file:
            file.write(head.format(place=place, port=self.port))
            file.writelines(zone.format(zone=one.rstrip("."), file=f"{self.folder}/{one}zone") for one in ZONES)
        self.control = control.format(place=place, conf=conf)
        self.process = subprocess.Popen(["sh", "-c", f"exec {command.format(conf=conf)}"], stdout=subprocess.DEVNULL, stderr=subprocess.DEVNULL)
        ask = f"dig @127.0.0.1 -p {self.port} +tries=1 +time=1 example.org SOA"  # an answer of any kind
        if not wait_for(lambda: run(ask)[0] == 0) or self.process.poll() is not None:
            raise TimeoutError(f"{command.format(conf=conf)}: it does not answer")
        if socket:
            must(f"chmod 666 {place}/{socket}")

    def publish(self):
        """Begins to take the zones there, as cron does."""
        words = ["runuser", "-u", "publisher", "--", "env", f"PORT={self.port}", f"CONTROL={self.control}", "TRIES=30", "publish", self.kind, self.folder, *ZONES]
        return subprocess.Popen(words, stdin=subprocess.DEVNULL, stdout=subprocess.PIPE, stderr=subprocess.STDOUT, text=True)

    def dig(self, name, kind, words):
        return sorted(must(f"dig @127.0.0.1 -p {self.port} {words} '{name}' {kind}").splitlines())


class NameServers:
    """All three. What they answer differently is given apart for each."""

    def __init__(self):
        must("usermod --append --groups bind,knot,nsd,adm publisher && install -m 755 deploy/publish /usr/local/bin/", cwd=TOP)
        must("[ -e /etc/bind/rndc.key ] || rndc-confgen -a; chown bind:bind /etc/bind/rndc.key; chmod 640 /etc/bind/rndc.key")
        must(f"ip address add {CHILD}/32 dev lo && ip address add 198.51.100.53/32 dev lo")
        self.servers = [Server(kind) for kind in SERVERS]
        self.seen = {zone: 0 for zone in ZONES}
        self.refusing = ["none yet"]
        self.child = None
        self.set_up_files()
        if not wait_for(lambda: not self.publish(), 300):  # at first a server has no file of the zone
            raise TimeoutError(f"publish does not take the zones: {self.publish()}")
        self.write()

    @staticmethod
    def set_up_files():
        """What the chapter of the page sets up beside the records."""
        for command in shown("operations.md", "apt-get install python3 python3-dnspython").splitlines():
            if not command.startswith(("apt-get", "systemctl")):
                must(command, cwd=TOP)
        must(f"install -d -m 750 -o zoneoffice-page -g zoneoffice-page {STATE} && install -d -m 750 -o zoneoffice-children -g zoneoffice-children {FOUND}")
        with open(f"{PLACE}/zones", "w", encoding="utf-8") as file:
            file.write("".join(f"{zone}\n" for zone in (*ZONES, BIG)))

    def publish(self):
        """Takes the zones to all of them. Those that refuse are in `refusing`."""
        runs = {one.kind: one.publish() for one in self.servers}
        said = {kind: (process.communicate()[0], process.returncode) for kind, process in runs.items()}
        self.refusing = [kind for kind, (_, status) in said.items() if status]
        return {kind: text for kind, (text, status) in said.items() if status}

    def is_new(self):
        """Whether the office has changes that were not taken."""
        for zone in ZONES:
            more = json.loads(must(f"{CURL}/{zone}/changes/{self.seen[zone] + 1}"))["changes"]
            self.seen[zone] = more[-1]["number"] if more else self.seen[zone]
            if more:
                return True
        return False

    def take(self):
        """Takes what is new, and gives the servers that refuse it."""
        if self.is_new() or self.refusing:
            self.publish()
        return self.refusing

    def dig(self, name, kind="A", words="+short"):
        """What they answer: lines in order, or those of each server where one answers otherwise."""
        self.take()
        said = {one.kind: one.dig(name, kind, words) for one in self.servers}
        first = said["bind"]
        return first if all(lines == first for lines in said.values()) else said

    def authority(self, name):
        """The servers and addresses of a referral."""
        said = self.dig(name, "A", "+noall +authority +additional +norecurse")
        parts = [line.split() for line in said] if isinstance(said, list) else []
        return sorted(" ".join(part[3:]) for part in parts if part[3] in ("NS", "A", "AAAA")) or said

    def write(self):
        """Writes the files of each user, as zoneoffice-page.timer does each minute."""
        must(f"install -m 644 /etc/zoneoffice/policy.toml {PLACE}/policy.toml")
        folders = " ".join(f"--published {one.folder}" for one in self.servers)
        must(f"setpriv --reuid zoneoffice-page --regid zoneoffice-page --groups publisher,adm,knot,zoneoffice-children {SCRIPT} write "
             f"--policy {PLACE}/policy.toml {folders} --zones {PLACE}/zones {MINE} {STATE}")

    def check_children(self):
        """Asks the servers of delegations, as zoneoffice-children.timer does each hour."""
        self.write()
        must(f"setpriv --reuid zoneoffice-children --regid zoneoffice-children --groups zoneoffice-page {SCRIPT} check {STATE}/delegations.json {FOUND}")
        self.write()

    def start_child(self, child):
        """Starts a server of a child at its address."""
        place = f"{PLACE}/child"
        must(f"install -d -m 755 {place}")
        with open(f"{place}/zone", "w", encoding="utf-8") as file:
            file.write(f"@ 60 IN SOA ns1 hostmaster 1 2 3 4 5\n@ 60 IN NS ns1\nns1 60 IN A {CHILD}\nwww 60 IN A 198.51.100.80\n")
        with open(f"{place}/named.conf", "w", encoding="utf-8") as file:
            file.write(f'options {{ directory "{place}"; pid-file none; session-keyfile none; listen-on {{ {CHILD}; }}; listen-on-v6 {{ none; }}; recursion no; '
                       f'dnssec-validation no; }};\ncontrols {{ }};\nzone "{child}" {{ type primary; file "zone"; }};\n')
        self.child = subprocess.Popen(["named", "-f", "-u", "root", "-n", "1", "-c", f"{place}/named.conf"], stdout=subprocess.DEVNULL, stderr=subprocess.DEVNULL)
        if not wait_for(lambda: run(f"dig +short @{CHILD} {child} SOA")[1].endswith(" 2 3 4 5")):
            raise TimeoutError(f"the server of {child} does not answer")

    def stop(self):
        for process in [*(one.process for one in self.servers), *([self.child] if self.child else [])]:
            process.kill()
            process.wait()
