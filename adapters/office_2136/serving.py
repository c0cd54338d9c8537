"""The gateway's sockets: UDP, and TCP with a bounded number of connections, each of which is silent for a bounded time only."""

import concurrent.futures
import hashlib
import itertools
import socket
import sys
import threading
import time
import traceback
from collections.abc import Callable, Iterable
from typing import Any

from .gateway import Gateway, Job, Peer, Wait
from .limits import Doors, Turns, place_of
from .settings import Settings

WORKERS = 8
LINE = 64  # messages of a key that wait
WRITE, LONGEST_WRITE = 30.0, 900.0  # seconds in which a peer takes a message, and all answers to one
OLDEST = 3600.0  # seconds of a connection


WRITING = threading.Lock()


def log(line: str) -> None:
    """Writes a line, whole."""
    with WRITING:
        sys.stdout.write(line + "\n")
        sys.stdout.flush()


def log_fault() -> None:
    """Writes a line on a fault of the gateway itself."""
    log("fault " + ascii(traceback.format_exc())[-2000:])


class Server:  # pylint: disable=too-few-public-methods
    """All sockets of a gateway."""

    def __init__(self, settings: Settings) -> None:
        self.settings = settings
        self.sockets = [(self._bound(address, socket.SOCK_DGRAM), self._bound(address, socket.SOCK_STREAM)) for address in settings.listen]
        self.gateway = Gateway(settings, log)
        self.turns = Turns(WORKERS, LINE)
        self.doors = Doors(settings.tcp_connections, max(4, settings.tcp_connections // 5))
        self.numbers = itertools.count()
        self.asked: set[tuple[Any, bytes]] = set()  # who asked over UDP, and what, of those that wait for their answer

    @staticmethod
    def _bound(address: tuple[str, int], kind: int) -> socket.socket:
        family = socket.AF_INET6 if ":" in address[0] else socket.AF_INET
        bound = socket.socket(family, kind)
        if kind == socket.SOCK_STREAM:
            bound.setsockopt(socket.SOL_SOCKET, socket.SO_REUSEADDR, 1)
        bound.bind(address)
        if kind == socket.SOCK_STREAM:
            bound.listen(128)
        return bound

    def run(self) -> None:
        """Serves for ever."""
        threads = [threading.Thread(target=target, args=(bound,), daemon=True)
                   for pair in self.sockets for target, bound in zip((self._serve_udp, self._serve_tcp), pair)]
        for thread in threads:
            thread.start()
        log("listening " + " ".join(f"{host}:{port}" for host, port in self.settings.listen))
        for thread in threads:
            thread.join()

    def _serve_udp(self, bound: socket.socket) -> None:
        while True:
            try:
                wire, where = bound.recvfrom(65535)
                self._take_udp(bound, wire, where)
            except OSError:
                continue  # of an answer to somebody who went away
            except Exception:  # pylint: disable=broad-exception-caught
                log_fault()  # of this message: others are served

    def _take_udp(self, bound: socket.socket, wire: bytes, where: tuple[str, int]) -> None:
        peer = Peer(where[0], False)
        found = self.gateway.take(wire, peer)
        if isinstance(found, bytes):
            bound.sendto(found, where)
        elif isinstance(found, Job):
            self._put_udp(bound, found, (where, hashlib.sha256(wire).digest()), peer)
        elif isinstance(found, Wait):
            self.gateway.drop(peer, found.limit)

    def _put_udp(self, bound: socket.socket, job: Job, asked: tuple[Any, bytes], peer: Peer) -> None:
        """Puts a job into its line, unless the same message of the same client is there: it gets one answer."""
        def work() -> None:
            try:
                _quietly(lambda: [bound.sendto(one, asked[0]) for one in job.answers()])
            finally:
                self.asked.discard(asked)

        if asked in self.asked:
            return
        self.asked.add(asked)
        if not self.turns.put(job.holder, work):
            self.asked.discard(asked)
            self.gateway.drop(peer, "line")

    def _serve_tcp(self, bound: socket.socket) -> None:
        while True:
            try:
                connection, where = bound.accept()
            except OSError:
                time.sleep(0.1)  # no more files, for a while
                continue
            number, peer = next(self.numbers), Peer(where[0], True)
            if not self.doors.enter(number, place_of(peer.address), lambda at=connection: _shut(at)):  # type: ignore[misc]
                self.gateway.drop(peer, "connections")
                connection.close()
                continue
            threading.Thread(target=self._serve_connection, args=(connection, number, peer), daemon=True).start()

    def _serve_connection(self, connection: socket.socket, number: int, peer: Peer) -> None:
        def serve() -> None:
            until = time.monotonic() + OLDEST
            while time.monotonic() < until and self._serve_message(connection, number, peer):
                pass

        try:
            _quietly(serve)
        finally:
            self.doors.leave(number)
            connection.close()

    def _serve_message(self, connection: socket.socket, number: int, peer: Peer) -> bool:
        """Answers one message; false at the end of the connection."""
        until = time.monotonic() + self.settings.tcp_idle
        length = _receive(connection, 2, until)
        wire = _receive(connection, int.from_bytes(length, "big"), until) if length else None
        if wire is None:
            return False
        found = self.gateway.take(wire, peer)
        while isinstance(found, Wait):
            time.sleep(min(1.0, found.seconds))
            found = self.gateway.take(wire, peer)
        if isinstance(found, Job):
            if found.signed:
                self.doors.begin(number)
            answers = self._turn(found)
            going_on = answers is not None and _send(connection, answers)
            self.doors.rest(number)
            return going_on
        return found is not None and _send(connection, [found])

    def _turn(self, job: Job) -> Iterable[bytes] | None:
        """The answers of a job, when its turn has come."""
        future: concurrent.futures.Future[Iterable[bytes]] = concurrent.futures.Future()

        def work() -> None:
            try:
                future.set_result(job.answers())
            except BaseException as error:  # pylint: disable=broad-exception-caught
                future.set_exception(error)

        return future.result() if self.turns.put(job.holder, work) else None


def _quietly(work: Callable[[], object]) -> None:
    """Does what may fail as its peer goes away; other faults are logged, and others are served."""
    try:
        work()
    except OSError:
        pass
    except Exception:  # pylint: disable=broad-exception-caught
        log_fault()


def _shut(connection: socket.socket) -> None:
    _quietly(lambda: connection.shutdown(socket.SHUT_RDWR))


def _receive(connection: socket.socket, length: int, until: float) -> bytes | None:
    """So many octets, or nothing if they do not come in time."""
    octets = bytearray()
    while len(octets) < length:
        left = until - time.monotonic()
        if left <= 0:
            return None
        connection.settimeout(left)
        piece = connection.recv(length - len(octets))
        if not piece:
            return None
        octets += piece
    return bytes(octets)


def _send(connection: socket.socket, answers: Iterable[bytes]) -> bool:
    until = time.monotonic() + LONGEST_WRITE
    for one in answers:
        connection.settimeout(WRITE)
        connection.sendall(len(one).to_bytes(2, "big") + one)
        if time.monotonic() > until:
            return False
    return True
