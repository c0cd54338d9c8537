"""The six steps of the tour as a script: it sends them through the front, and prints each request and its reply."""

import http.client
import json
import urllib.parse

from front import LOST
from office import ORIGIN


class Visitor:
    """Who takes the steps, as one caller after the other. It keeps the lines that it prints."""

    def __init__(self, port):
        self.port, self.caller, self.cookie, self.lines = port, "", "", []

    def say(self, text):
        print(text, flush=True)
        self.lines += text.split("\n")

    def send(self, method, path, body=None):
        """Sends a request as the page does. Returns the fields of the reply, its status and its text."""
        connection = http.client.HTTPConnection("127.0.0.1", self.port, timeout=90)
        try:
            connection.request(method, path, body, {"Origin": f"http://127.0.0.1:{self.port}", "Cookie": self.cookie})
            reply = connection.getresponse()
            return reply.headers, f"{reply.status} {reply.read().decode().rstrip()}"
        except http.client.RemoteDisconnected:
            return {}, "no reply"
        finally:
            connection.close()

    def choose(self, caller):
        self.caller = caller
        fields, _ = self.send("POST", "/demo/caller", urllib.parse.urlencode({"caller": caller}))
        self.cookie = fields.get("Set-Cookie", "").partition(";")[0]

    def read(self, what):
        path = f"/zones/{ORIGIN}/{what}"
        self.say(f"{self.caller} GET {path}")
        self.say(self.send("GET", path)[1])

    def update(self, name, *operations, tests=()):
        """Sends an update under an identifier."""
        path = f"/zones/{ORIGIN}/updates"
        body = json.dumps({"id": name, "prerequisites": tests, "operations": operations}, separators=(",", ":"))
        self.say(f"{self.caller} POST {path} {body}")
        self.say(self.send("POST", path, body)[1])

    def plan(self, *items):
        text = "\n".join(items)
        self.say(f"{self.caller} plan\n{text}")
        self.say(self.send("POST", "/demo/plan", urllib.parse.urlencode({"items": text}))[1].partition(" ")[2])


def host(name):
    return f"{name}.physics.{ORIGIN}"


def address(name, data):
    """Returns the operation that adds an address to a host."""
    return {"op": "add", "name": host(name), "ttl": 3600, "type": "A", "data": data}


def move(name, old, new):
    """Returns the operations that give a host one address in place of another."""
    return {"op": "delete-record", "name": host(name), "type": "A", "data": old}, address(name, new)


def seen(name, data):
    """Returns the test that a host has this address and no other."""
    return {"test": "rrset-equals", "name": host(name), "type": "A", "data": data}


def take(visitor):
    """Takes the six steps."""
    visitor.say("# 1. A change: physics adds a host.")
    visitor.choose("phys")
    visitor.update("step-1", address("pc7", "192.0.2.131"))

    visitor.say("\n# 2. A denial with its rule: nobody touches the vault, not even the hostmasters.")
    visitor.update("step-2", address("vault", "192.0.2.66"))
    visitor.choose("admin")
    visitor.update("step-2", address("vault", "192.0.2.66"))

    visitor.say(f"\n# 3. A repeated request: {LOST} replies are lost, and the change is made once.")
    visitor.choose("phys")
    visitor.send("POST", "/demo/lose", "")
    for _ in range(LOST + 1):
        visitor.update("step-3", address("pc8", "192.0.2.132"))
    visitor.read("changes/2")

    visitor.say("\n# 4. Two editors: both saw the same address of the printer, and the second one hears that it is another now.")
    visitor.update("step-4-first", *move("printer", "192.0.2.130", "192.0.2.135"), tests=[seen("printer", "192.0.2.130")])
    visitor.update("step-4-second", *move("printer", "192.0.2.130", "192.0.2.136"), tests=[seen("printer", "192.0.2.130")])

    visitor.say("\n# 5. A plan: what would be answered, and what would change. Nothing does.")
    visitor.plan(f"delete-rrset {host('printer')} A", f"add {host('printer')} 3600 A 192.0.2.137")
    visitor.plan(f"add www.{ORIGIN} 300 A 192.0.2.137")

    visitor.say("\n# 6. An undo by hand: a change says what went and what came, and the way back is an update too.")
    visitor.read("changes/3")
    visitor.update("step-6", *move("printer", "192.0.2.135", "192.0.2.130"), tests=[seen("printer", "192.0.2.135")])
    visitor.read(f"records/{host('printer')}")
    visitor.read("changes/4")
