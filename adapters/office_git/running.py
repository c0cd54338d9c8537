"""Runs commands within bounds: what they print, how long they take, and what they see of this process."""

import contextlib
import dataclasses
import os
import signal
import subprocess
import tempfile
import threading
from collections.abc import Iterable, Iterator

from office_asking import printable

SHOWN = 2000  # octets of standard error that are read


class Failed(Exception):
    """A command did not do what it was to do."""

    def __init__(self, words: str, status: int | None = None) -> None:
        super().__init__(words)
        self.status = status


class Exceeded(Failed):
    """A command prints more, or takes longer, than it may."""


@dataclasses.dataclass(frozen=True)
class Done:
    """What came of a command."""
    status: int
    out: bytes
    said: str  # on standard error, its beginning


def run(words: list[str], variables: dict[str, str], given: bytes = b"", *, most: int, seconds: int) -> Done:
    """Runs a command without a shell. Exceeded if it prints more octets, or takes longer, than it may."""
    with tempfile.TemporaryFile() as stdin:
        stdin.write(given)
        stdin.seek(0)
        with _started(words, variables, stdin.fileno(), subprocess.PIPE) as (process, said):
            assert process.stdout
            with _clock(process, seconds) as late:
                out = process.stdout.read(most + 1)
                if len(out) > most:
                    raise Exceeded(f"{words[0]} prints more than {most} octets")
                status = process.wait()
            if late.is_set():
                raise Exceeded(f"{words[0]} takes more than {seconds} seconds")
            return Done(status, out, said())


def feed(words: list[str], variables: dict[str, str], pieces: Iterable[bytes], kept: tuple[int, ...] = ()) -> None:
    """Writes pieces to a command's standard input as they are made. The command keeps these descriptors open."""
    with _started(words, variables, subprocess.PIPE, subprocess.DEVNULL, kept) as (process, said):
        assert process.stdin
        with contextlib.suppress(BrokenPipeError):
            for piece in pieces:
                process.stdin.write(piece)
            process.stdin.close()
        if process.wait():
            raise Failed(f"{words[0]}: status {process.returncode}: {said()}")


def lines(words: list[str], variables: dict[str, str]) -> Iterator[str]:
    """The lines that a command prints, as they come. It ends when no more are asked for; Failed if it fails before."""
    with _started(words, variables, subprocess.DEVNULL, subprocess.PIPE) as (process, said):
        assert process.stdout
        for line in process.stdout:
            yield line.decode("utf-8", "replace").rstrip("\n")
        if process.wait():
            raise Failed(f"{words[0]}: status {process.returncode}: {said()}")


class _Said:  # pylint: disable=too-few-public-methods
    """The beginning of what a command says on standard error."""

    def __init__(self, file: int) -> None:
        self.file = file

    def __call__(self) -> str:
        return printable(os.pread(self.file, SHOWN, 0).decode("utf-8", "replace").strip(), 600)


@contextlib.contextmanager
def _started(words: list[str], variables: dict[str, str], stdin: int, stdout: int,
             kept: tuple[int, ...] = ()) -> Iterator[tuple[subprocess.Popen[bytes], _Said]]:
    """A command that runs, and ends with all that it started when this is left."""
    with tempfile.TemporaryFile() as said, subprocess.Popen(words, stdin=stdin, stdout=stdout, stderr=said, env=variables, cwd="/",
                                                            pass_fds=kept, start_new_session=True) as process:
        try:
            yield process, _Said(said.fileno())
        finally:
            _end(process)


@contextlib.contextmanager
def _clock(process: subprocess.Popen[bytes], seconds: int) -> Iterator[threading.Event]:
    """Ends a command after so many seconds; the event is set then."""
    late = threading.Event()

    def ring() -> None:
        late.set()
        _end(process)

    timer = threading.Timer(seconds, ring)
    timer.start()
    try:
        yield late
    finally:
        timer.cancel()


def _end(process: subprocess.Popen[bytes]) -> None:
    if process.returncode is None:
        with contextlib.suppress(ProcessLookupError):
            os.killpg(process.pid, signal.SIGKILL)
