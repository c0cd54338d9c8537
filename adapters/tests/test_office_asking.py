"""What is asked of an office, beside a small HTTP server that loses, cuts, delays and inflates its replies."""

import contextlib
import http.server
import json
import os
import pathlib
import shutil
import socket
import ssl
import subprocess
import sys
import tempfile
import threading
import time
import unittest
from collections.abc import Iterator
from typing import Any
from unittest import mock

sys.path.insert(0, str(pathlib.Path(__file__).parents[1]))

import office_asking  # noqa: E402 pylint: disable=wrong-import-position, import-error
from office_asking import Kept, NoReply, NotGiven, Office, TooLong, Unsafe  # noqa: E402 pylint: disable=wrong-import-position, import-error

NOERROR = b'{"code":0,"name":"NOERROR"}'


class Handler(http.server.BaseHTTPRequestHandler):
    """Answers each request by the next of the server's scripted answers, and keeps what was asked."""

    def answer(self) -> None:
        """Answers as the script says: a pair of status and body, or a function of this handler."""
        body = self.rfile.read(int(self.headers.get("Content-Length", 0)))
        server: Any = self.server
        server.asked.append((self.command, self.path, dict(self.headers), body))
        answer = server.script.pop(0) if len(server.script) > 1 else server.script[0]
        if callable(answer):
            answer(self)
            return
        status, text = answer
        self.send_response(status)
        self.send_header("Content-Length", str(len(text)))
        self.end_headers()
        self.wfile.write(text)

    do_GET = do_POST = answer  # pylint: disable=invalid-name

    def log_message(self, format: str, *args: Any) -> None:  # pylint: disable=redefined-builtin
        """Says nothing."""


class UnixServer(http.server.ThreadingHTTPServer):
    """The same server at a socket of this machine."""
    address_family = socket.AF_UNIX

    def server_bind(self) -> None:
        """Binds, and looks up no name of a host."""
        self.socket.bind(self.server_address)

    def get_request(self) -> tuple[socket.socket, Any]:
        """A connection, whose peer has an address for the handler."""
        return self.socket.accept()[0], ("unix", 0)


def lose(handler: Handler) -> None:
    """The request arrived, and its reply is lost."""
    handler.connection.shutdown(socket.SHUT_RDWR)


def cut(handler: Handler) -> None:
    """A reply whose body ends before its length."""
    handler.wfile.write(b"HTTP/1.1 200 OK\r\nContent-Length: 27\r\n\r\n" + NOERROR[:9])


def drip(handler: Handler) -> None:
    """A reply of which an octet comes now and then."""
    with contextlib.suppress(OSError):
        for octet in b"HTTP/1.1 200 OK\r\nContent-Length: 27\r\n\r\n" + NOERROR:
            handler.wfile.write(bytes([octet]))
            time.sleep(0.1)


def inflate(handler: Handler) -> None:
    """A reply without an end."""
    with contextlib.suppress(OSError):
        handler.wfile.write(b"HTTP/1.1 200 OK\r\nContent-Length: 99999999999\r\n\r\n")
        while True:
            handler.wfile.write(b" " * 65536)


def head_only(handler: Handler) -> None:
    """A head without an end."""
    with contextlib.suppress(OSError):
        handler.wfile.write(b"HTTP/1.1 200 OK\r\n")
        while True:
            handler.wfile.write(b"X: " + b"y" * 65536 + b"\r\n")


@contextlib.contextmanager
def serving(*script: Any, path: str | None = None) -> Iterator[Any]:
    """A server with scripted answers, of which the last is repeated."""
    kind: Any = UnixServer if path else http.server.ThreadingHTTPServer
    server: Any = kind(path or ("127.0.0.1", 0), Handler)
    server.script, server.asked, server.daemon_threads = list(script), [], True
    thread = threading.Thread(target=server.serve_forever, args=(0.01,), daemon=True)
    thread.start()
    server.url = f"unix:{path}" if path else f"http://127.0.0.1:{server.server_port}"
    try:
        yield server
    finally:
        server.shutdown()
        server.server_close()


class Asking(unittest.TestCase):
    """Requests and replies."""

    def setUp(self) -> None:
        pause = mock.patch.object(office_asking, "PAUSE", 0.01)
        pause.start()
        self.addCleanup(pause.stop)

    def update(self, *script: Any, tries: int = 3, seconds: float = 5) -> tuple[office_asking.Reply, list[Any]]:
        """The reply to an update, and what was asked for it."""
        with serving(*script) as server:
            office = Office(server.url, caller="phys", tries=tries, seconds=seconds)
            return office.update("example.org.", {"operations": []}, "i1"), server.asked

    def test_update_is_sent_with_caller_and_identifier(self) -> None:
        """Method, path, caller and body are those of docs/api.md."""
        reply, asked = self.update((200, NOERROR))
        self.assertEqual((reply.status, reply.code, reply.rule, reply.refusal, reply.place), (200, "NOERROR", None, None, None))
        method, path, fields, body = asked[0]
        self.assertEqual((method, path, fields["X-Office-Caller"]), ("POST", "/zones/example.org./updates", "phys"))
        self.assertEqual(json.loads(body), {"id": "i1", "operations": []})

    def test_lost_replies_repeat_the_same_request(self) -> None:
        """After no reply, half a reply and 502 to 504 the same octets are sent."""
        for lost in lose, cut, (502, b'{"front":502,"reason":"down"}'), (503, b""), (504, b"x"), (429, b"{}"):
            reply, asked = self.update(lost, lost, (200, NOERROR))
            self.assertEqual(reply.code, "NOERROR")
            self.assertEqual(len({one[3] for one in asked}), 1)
            self.assertEqual(len(asked), 3)

    def test_tries_end(self) -> None:
        """After the last try there is no reply."""
        for lost in lose, cut, (502, b""):
            with self.assertRaises(NoReply):
                self.update(lost, tries=2)

    def test_refused_connection(self) -> None:
        """Where nothing listens there is no reply."""
        with socket.create_server(("127.0.0.1", 0)) as taken:
            port = taken.getsockname()[1]
        with self.assertRaises(NoReply):
            Office(f"http://127.0.0.1:{port}", caller="phys").get("example.org.", "file")

    def test_bounds_of_time_and_size(self) -> None:
        """A reply that takes too long is none; one with too many octets in head or body is given up at once."""
        for bad, error in (drip, NoReply), (inflate, TooLong), (head_only, TooLong):
            start = time.monotonic()
            with self.assertRaises(error):
                self.update(bad, tries=1, seconds=1)
            self.assertLess(time.monotonic() - start, 4)

    def test_denial(self) -> None:
        """A denial has its rule and its place; SERVFAIL is a reply, and not repeated."""
        reply, _ = self.update((403, b'{"by":"closing","code":5,"item":1,"list":"operations","name":"REFUSED"}'))
        self.assertEqual((reply.code, reply.rule, reply.place), ("REFUSED", "closing", ("operations", 1)))
        self.assertEqual(reply.cause(), "REFUSED operations 1 by closing")
        reply, asked = self.update((500, b'{"code":2,"name":"SERVFAIL"}'))
        self.assertEqual((reply.code, len(asked)), ("SERVFAIL", 1))
        reply, _ = self.update((409, b'{"refusal":61}'))
        self.assertEqual((reply.code, reply.refusal, reply.cause()), ("", 61, "409 refusal 61"))

    def test_odd_replies_have_no_code(self) -> None:
        """Of a front server, or of no form: no code, and nothing unprintable in the cause."""
        for status, text in (401, b'{"front":401,"reason":"\\u001b[2J"}'), (403, b"[" * 5000), (404, b'{"name":"\x1b[2J","item":true}'):
            reply, _ = self.update((status, text))
            self.assertEqual((reply.code, reply.place), ("", None))
            self.assertEqual(reply.cause(), f"front {status}")

    def test_lists(self) -> None:
        """Records, changes and rights are parsed; what has not their form is not given."""
        with serving((200, b'{"records":["a"]}'), (200, b'{"changes":[{"added":["b"],"number":2,"removed":[]}]}'),
                     (200, b'{"by":"r1","granted":false}'), (200, b'{"records":[1]}'), (404, b'{"code":9,"name":"NOTAUTH"}')) as server:
            office = Office(server.url).as_caller("phys")
            self.assertEqual(office.list_records("example.org.", "a/b.example.org."), ["a"])
            self.assertEqual(office.changes("example.org.", 2), [office_asking.Change(2, [], ["b"])])
            self.assertEqual(office.rights("example.org.", "A", "add"), office_asking.Right(False, "r1"))
            for _ in range(2):
                with self.assertRaises(NotGiven):
                    office.list_records("example.org.")
            self.assertEqual([one[1] for one in server.asked[:3]], ["/zones/example.org./records/a%2Fb.example.org.",
                                                                    "/zones/example.org./changes/2", "/rights/example.org./A/add"])

    def test_socket(self) -> None:
        """An office at a socket of this machine."""
        with tempfile.TemporaryDirectory() as folder, serving((200, NOERROR), path=f"{folder}/s") as server:
            self.assertEqual(Office(server.url, caller="phys").update("a.", {}, "i").code, "NOERROR")

    @unittest.skipUnless(shutil.which("openssl"), "openssl makes the certificate")
    def test_https(self) -> None:
        """The server's certificate is checked; user and password go to no other."""
        with tempfile.TemporaryDirectory() as folder:
            for name in "one", "two":
                subprocess.run(["openssl", "req", "-x509", "-newkey", "ec", "-pkeyopt", "ec_paramgen_curve:P-256", "-nodes", "-subj",
                                "/CN=localhost", "-addext", "subjectAltName=DNS:localhost", "-keyout", f"{folder}/{name}.key", "-out",
                                f"{folder}/{name}.pem"], check=True, capture_output=True)
            context = ssl.SSLContext(ssl.PROTOCOL_TLS_SERVER)
            context.load_cert_chain(f"{folder}/one.pem", f"{folder}/one.key")
            with serving((200, NOERROR)) as server:
                server.socket = context.wrap_socket(server.socket, server_side=True)
                url = f"https://localhost:{server.server_port}"
                office = Office(url, user="phys", password="a:b", ca=f"{folder}/one.pem")
                self.assertEqual(office.update("example.org.", {}, "i1").code, "NOERROR")
                self.assertEqual(server.asked[0][2]["Authorization"], "Basic cGh5czphOmI=")
                self.assertNotIn("X-Office-Caller", server.asked[0][2])
                for wrong in Office(url, user="phys", password="a", ca=f"{folder}/two.pem"), Office(url, user="phys", password="a"), \
                        Office(url.replace("localhost", "127.0.0.1"), user="phys", password="a", ca=f"{folder}/one.pem"):
                    with self.assertRaises(NoReply):
                        wrong.get("example.org.", "records")
                self.assertEqual(len(server.asked), 1)

    def test_places_and_names_that_are_refused(self) -> None:
        """Passwords and callers go nowhere else; no octet gets into a head."""
        bad: list[tuple[str, dict[str, Any]]] = [
            ("http://192.0.2.1", {}), ("ftp://localhost", {}), ("unix:a", {}), ("https://", {}), ("https://u:p@localhost", {}),
            ("http://localhost?x", {}), ("http://localhost", {"user": "a", "password": "b"}), ("https://localhost", {"user": "a"}),
            ("http://localhost", {"user": "a"}), ("https://localhost", {"caller": "a"}), ("http://localhost", {"caller": "a\r\nX: y"})]
        for url, more in bad:
            with self.assertRaises(ValueError, msg=url):
                Office(url, **more)
        with self.assertRaises(ValueError):
            Office("http://localhost").update("a.", {}, "a b")

    def test_identifiers(self) -> None:
        """Where octets are divided counts, and an identifier is one of docs/formats.md."""
        self.assertNotEqual(office_asking.identifier_of(b"ab", b"c"), office_asking.identifier_of(b"a", b"bc"))
        self.assertRegex(office_asking.identifier_of(b""), r"\A[A-Za-z0-9._-]{1,64}\Z")

    def test_printable(self) -> None:
        """Nothing but printable ASCII, and cut."""
        self.assertEqual(office_asking.printable("a\x1b\n\u202eb"), "a\\x1b\\n\\u202eb")
        self.assertEqual(office_asking.printable("a" * 300), "a" * 200 + "...")


class Keeping(unittest.TestCase):
    """State on disk."""

    def setUp(self) -> None:
        folder = tempfile.TemporaryDirectory()  # pylint: disable=consider-using-with
        self.addCleanup(folder.cleanup)
        self.top = folder.name
        self.place = os.path.join(folder.name, "state")
        self.kept = Kept(self.place)
        self.addCleanup(self.kept.close)

    def test_what_is_written_is_read(self) -> None:
        """Old octets go, others stay, removed ones are not there."""
        self.kept.write("a", b"1")
        self.kept.write("a", b"2" * 100000)
        self.kept.write("b", b"")
        self.assertEqual((self.kept.read("a"), self.kept.read("b"), self.kept.read("c")), (b"2" * 100000, b"", None))
        self.assertEqual(self.kept.names(), ["a", "b"])
        self.kept.remove("a")
        self.kept.remove("a")
        self.assertEqual(os.listdir(self.place), ["b"])
        self.assertEqual(os.stat(self.place).st_mode & 0o777, 0o700)
        self.assertEqual(os.stat(self.place + "/b").st_mode & 0o777, 0o600)

    def test_write_that_fails_leaves_the_old_octets(self) -> None:
        """A full disk changes nothing."""
        self.kept.write("a", b"1")
        with mock.patch("os.write", side_effect=OSError(28, "full")), self.assertRaises(OSError):
            self.kept.write("a", b"2")
        self.assertEqual((os.listdir(self.place), self.kept.read("a")), (["a"], b"1"))

    def test_leftovers_go(self) -> None:
        """What killed writers left goes after an hour, and what is being written stays."""
        for name, age in ("old", 7200), ("new", 0):
            path = f"{self.place}/.new-{name}"
            with open(path, "w", encoding="ascii"):
                os.utime(path, (time.time() - age,) * 2)
        Kept(self.place).close()
        self.assertEqual(os.listdir(self.place), [".new-new"])

    def test_links_and_odd_files_are_refused(self) -> None:
        """A link, a second name, a pipe and a folder are no state."""
        with open(self.top + "/other", "wb") as file:
            file.write(b"x")
        os.symlink(self.top + "/other", self.place + "/link")
        os.link(self.top + "/other", self.place + "/hard")
        os.mkfifo(self.place + "/pipe")
        os.mkdir(self.place + "/folder")
        for name in "link", "hard", "pipe", "folder":
            with self.assertRaises(Unsafe, msg=name):
                self.kept.read(name)
        self.kept.write("link", b"y")
        with open(self.top + "/other", "rb") as file:
            self.assertEqual(file.read(), b"x")

    def test_folders_of_others_are_refused(self) -> None:
        """A link to a folder, a folder that others enter, and one of another user."""
        os.symlink(self.place, self.top + "/link")
        os.mkdir(self.top + "/open", 0o755)
        for name in "link", "open":
            with self.assertRaises(Unsafe, msg=name):
                Kept(f"{self.top}/{name}")
        with mock.patch("os.geteuid", return_value=os.geteuid() + 1), self.assertRaises(Unsafe):
            Kept(self.place)

    def test_names_are_plain(self) -> None:
        """No name leads out of the folder."""
        for name in "", "..", "a/b", ".a", "a\0":
            with self.assertRaises(ValueError, msg=name):
                self.kept.write(name, b"")


if __name__ == "__main__":
    unittest.main()
