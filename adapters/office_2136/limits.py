"""Limits that come before the work: how often, how many at once, and whose turn it is."""

import collections
import dataclasses
import ipaddress
import threading
import time
from collections.abc import Callable, Hashable


class Buckets:  # pylint: disable=too-few-public-methods
    """Token buckets, one for each of a bounded number of holders: who was not seen for longest is forgotten."""

    def __init__(self, rate: float, burst: float, most: int = 10_000, clock: Callable[[], float] = time.monotonic) -> None:
        self.rate, self.burst, self.most, self.clock = rate, burst, most, clock
        self.lock = threading.Lock()
        self.buckets: collections.OrderedDict[Hashable, tuple[float, float]] = collections.OrderedDict()

    def take(self, holder: Hashable) -> float:
        """Takes a token, and gives 0; or takes none, and gives the seconds until there is one."""
        with self.lock:
            now = self.clock()
            tokens, then = self.buckets.pop(holder, (self.burst, now))
            tokens = min(self.burst, tokens + (now - then) * self.rate)
            wait = 0.0 if tokens >= 1 else (1 - tokens) / self.rate
            self.buckets[holder] = (tokens if wait else tokens - 1, now)
            if len(self.buckets) > self.most:
                self.buckets.popitem(last=False)
            return wait


def place_of(address: str) -> str:
    """What counts as one address: one of IPv4, or the /64 of one of IPv6."""
    found = ipaddress.ip_address(address.partition("%")[0])
    if isinstance(found, ipaddress.IPv4Address):
        return str(found)
    return str(found.ipv4_mapped or ipaddress.ip_network((int(found) >> 64 << 64, 64)))


class Turns:  # pylint: disable=too-few-public-methods
    """Jobs of many holders for few workers: a holder has one job at work, its others wait in a short line, and holders take turns."""

    def __init__(self, workers: int, length: int) -> None:
        self.length = length
        self.changed = threading.Condition()
        self.lines: dict[Hashable, collections.deque[Callable[[], None]]] = {}
        self.ready: collections.deque[Hashable] = collections.deque()
        for _ in range(workers):
            threading.Thread(target=self._work, daemon=True).start()

    def put(self, holder: Hashable, job: Callable[[], None]) -> bool:
        """Puts a job into the holder's line, unless that is full."""
        with self.changed:
            line = self.lines.get(holder)
            if line is None:
                line = self.lines[holder] = collections.deque()
                self.ready.append(holder)
                self.changed.notify()
            if len(line) >= self.length:
                return False
            line.append(job)
            return True

    def _work(self) -> None:
        while True:
            with self.changed:
                while not self.ready:
                    self.changed.wait()
                holder = self.ready.popleft()
                job = self.lines[holder].popleft()
            job()
            with self.changed:
                if self.lines[holder]:
                    self.ready.append(holder)
                    self.changed.notify()
                else:
                    del self.lines[holder]


class Shares:
    """A bounded number of tasks at once, and of each holder."""

    def __init__(self, most: int, of_holder: int) -> None:
        self.most, self.of_holder = most, of_holder
        self.lock = threading.RLock()  # a task may end as garbage, in a thread that has the lock
        self.taken: collections.Counter[Hashable] = collections.Counter()

    def enter(self, holder: Hashable) -> bool:
        """Begins a task, unless there are too many."""
        with self.lock:
            if self.taken.total() >= self.most or self.taken[holder] >= self.of_holder:
                return False
            self.taken[holder] += 1
            return True

    def leave(self, holder: Hashable) -> None:
        """A task has ended."""
        with self.lock:
            self.taken[holder] -= 1
            if not self.taken[holder]:
                del self.taken[holder]


@dataclasses.dataclass
class Connection:
    """A connection: whence, what closes it, whether it has shown a key, and whether something is done for it."""
    place: str
    end: Callable[[], None]
    known: bool = False
    busy: bool = False


class Doors:
    """A bounded number of connections, and of each place. Where all are taken, one for which nothing is done has to go: the one
    that is so for longest, of those without a key if there are any."""

    def __init__(self, most: int, of_place: int) -> None:
        self.most, self.of_place = most, of_place
        self.lock = threading.Lock()
        self.open: dict[int, Connection] = {}  # by number, those that did something last at the end

    def enter(self, number: int, place: str, end: Callable[[], None]) -> bool:
        """Lets a connection in, which `end` closes, unless there are too many."""
        with self.lock:
            here = [one for one in self.open.items() if one[1].place == place]
            if len(here) >= self.of_place:
                fits = self._send_away(here)
            else:
                fits = len(self.open) < self.most or self._send_away(list(self.open.items()))
            if fits:
                self.open[number] = Connection(place, end)
            return fits

    def _send_away(self, some: list[tuple[int, Connection]]) -> bool:
        idle = [one for one in some if not one[1].busy]
        number, connection = next((one for one in idle if not one[1].known), idle[0] if idle else (0, None))
        if connection is None:
            return False
        del self.open[number]
        connection.end()
        return True

    def begin(self, number: int) -> None:
        """The connection has sent a message that is rightly signed, and waits for the answer."""
        with self.lock:
            if number in self.open:
                self.open[number] = dataclasses.replace(self.open.pop(number), known=True, busy=True)

    def rest(self, number: int) -> None:
        """The answer has been sent."""
        with self.lock:
            if number in self.open:
                self.open[number] = dataclasses.replace(self.open.pop(number), busy=False)

    def leave(self, number: int) -> None:
        """The connection has ended."""
        with self.lock:
            self.open.pop(number, None)
