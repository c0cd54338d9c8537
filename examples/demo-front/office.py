"""The demo's folder, which goes when the demo goes, and the example's office over a store in it."""

import ctypes
import http.client
import os
import re
import secrets
import shutil
import signal
import subprocess
import tempfile
import threading
import time

TOP = os.path.dirname(os.path.dirname(os.path.dirname(os.path.abspath(__file__))))
BUILT = os.path.join(TOP, "crates/zoneoffice/out/zoneoffice")
EXAMPLE = os.path.join(TOP, "examples/office")
ORIGIN = "example.org."
LIBC = ctypes.CDLL(None)
DIE_WITH_PARENT = 1  # PR_SET_PDEATHSIG of prctl(2)


class Refusal(Exception):
    """Why there can be no demo."""


def keep_folder():
    """Has another process make the demo's folder, and delete it once this process is gone, even killed.

    Returns the folder, and a function that lets that process delete it and waits until it is gone.
    """
    base = os.path.abspath(os.environ.get("TMPDIR") or "/tmp")
    told, tell = os.pipe()
    gone, here = os.pipe()
    keeper = os.fork()
    if keeper == 0:
        try:
            os.close(here)
            make_and_delete(base, tell, gone)
        finally:
            os._exit(0)
    os.close(tell)
    os.close(gone)

    with os.fdopen(told, "rb") as said:
        word, _, rest = os.fsdecode(said.read()).partition(" ")

    def delete():
        os.close(here)
        os.waitpid(keeper, 0)
        if word == "made":
            shutil.rmtree(rest, ignore_errors=True)  # it is there if somebody killed the other process

    if word != "made":
        delete()
        raise Refusal(f"no folder can be made in {base}: {rest or 'the process that makes it ended'}. TMPDIR names another place for it")
    return rest, delete


def make_and_delete(base, tell, gone):
    """Makes a folder, writes its path to `tell`, and deletes it at the end of the stream `gone`. No signal of a terminal ends it."""
    os.setsid()
    for number in signal.SIGINT, signal.SIGTERM, signal.SIGHUP:
        signal.signal(number, signal.SIG_IGN)
    try:
        folder = tempfile.mkdtemp(prefix="zoneoffice-demo-", dir=base)
    except OSError as fault:
        os.write(tell, f"not {fault.strerror}".encode())
        return
    try:
        os.write(tell, os.fsencode(f"made {folder}"))
        os.close(tell)
        os.read(gone, 1)
    finally:
        for _ in range(200):  # an office that is just being killed may still write there
            shutil.rmtree(folder, ignore_errors=True)
            if not os.path.exists(folder):
                break
            time.sleep(0.05)


def find_program():
    """Returns the path of the program: the one of ZONEOFFICE, the one that was built here, or an installed one."""
    path = os.environ.get("ZONEOFFICE") or (BUILT if os.path.exists(BUILT) else shutil.which("zoneoffice"))
    if path is None:
        raise Refusal('there is no program: build it (README.md, "A first run"), or say in ZONEOFFICE where it is')
    if not (os.path.isfile(path) and os.access(path, os.X_OK)):
        raise Refusal(f"there is no program {path}: build it, or say in ZONEOFFICE where it is")
    return os.path.abspath(path)


def die_with(parent):
    """Returns what a child does before it becomes the program: it asks the kernel to be killed when its parent is gone."""

    def ask():
        LIBC.prctl(DIE_WITH_PARENT, signal.SIGKILL)
        if os.getppid() != parent:  # it was gone before
            os._exit(1)

    return ask


class Office:
    """The program, which serves the example's zone by the example's policy."""

    def __init__(self, program, folder):
        self.program = program
        self.policy = shutil.copy(os.path.join(EXAMPLE, "policy.toml"), folder)
        self.planning = threading.Lock()
        self.fill(os.path.join(folder, "store"), os.path.join(EXAMPLE, "university.zone"))
        self.serve(os.path.join(folder, "store"))

    def fill(self, store, zone):
        """Puts the zone into the store."""
        with open(zone, "rb") as text:
            importing = self.start(["import", "--store", store, "--origin", ORIGIN], text)
        said = importing.stdout.read().strip()
        if importing.wait():
            raise Refusal(f"{self.program} does not take in the example's zone: {said or f'it ended with status {importing.returncode}'}")

    def serve(self, store):
        """Starts the office at an address of this machine that no web site can guess, since it does not ask where a request is from.

        What it prints later is read and dropped, so that it never waits.
        """
        self.address = ".".join(["127", *(str(1 + secrets.randbelow(254)) for _ in range(3))])
        words = ["--store", store, "--policy", self.policy, "--listen", f"{self.address}:0", "--patience", "5"]
        self.process = self.start(["serve", *words])
        said = self.process.stdout.readline().strip()
        if not re.fullmatch(rf"listening {re.escape(self.address)}:[0-9]+", said):
            self.stop()
            raise Refusal(f"{self.program} does not serve: {said or f'it ended with status {self.process.returncode}'}")
        self.port = int(said.rpartition(":")[2])
        threading.Thread(target=lambda: [None for _ in self.process.stdout], daemon=True).start()

    def start(self, words, text=subprocess.DEVNULL):
        try:
            return subprocess.Popen([self.program, *words], stdin=text, stdout=subprocess.PIPE, stderr=subprocess.STDOUT, text=True,
                                    errors="replace", start_new_session=True, preexec_fn=die_with(os.getpid()))
        except OSError as fault:
            raise Refusal(f"{self.program} does not start: {fault.strerror}") from None

    def stop(self):
        self.process.kill()
        self.process.wait()

    def ask(self, caller, method, path, body=None):
        """Sends a request of a caller on a connection of its own. Returns the status, the type and the body of the reply."""
        connection = http.client.HTTPConnection(self.address, self.port, timeout=60)
        try:
            connection.request(method, path, body, {"X-Office-Caller": caller, "Connection": "close"})
            reply = connection.getresponse()
            return reply.status, reply.getheader("Content-Type"), reply.read()
        finally:
            connection.close()

    def plan(self, caller, items):
        """Returns what the program's `plan` says of an update of a caller: the answer, and what would change. One at a time."""
        words = [self.program, "plan", "--policy", self.policy, "--caller", caller]
        with self.planning:
            zone = self.ask("publisher", "GET", f"/zones/{ORIGIN}/file")[2]
            return subprocess.run(words, input=zone + b"--\n" + items, stdout=subprocess.PIPE, stderr=subprocess.STDOUT, timeout=60).stdout
