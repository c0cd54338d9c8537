"""What the client says: lines on standard error, and text of a server that a terminal may show."""

import os
import re
import sys
from typing import Any


class Bad(Exception):
    """Wrong words, or a request that did not reach the office: status 2."""


class Lost(Exception):
    """No reply came, so the update may have been made: status 2."""


class Refused(Exception):
    """The office, or a rule that the client checks before it sends anything, says no: status 1. With the body of the office's reply."""

    def __init__(self, text: str, fields: dict[str, Any] | None = None) -> None:
        super().__init__(text)
        self.fields = fields or {}


def escape(found: re.Match[str]) -> str:
    """A character as JSON escapes it."""
    return re.sub("(....)", r"\\u\1", found[0].encode("utf-16-be", "surrogatepass").hex())


def clean(text: str, kept: str = "") -> str:
    """What a server sent, with an escape for each character that is not printable ASCII: the office sends none, and a terminal acts
    on some of them."""
    return re.sub(rf"[^ -~{kept}]", escape, text)


def harmless(text: object) -> str:
    """What the user wrote, with an escape for each character that is not printable."""
    return re.sub(r"[^ -~]", lambda found: found[0] if found[0].isprintable() else escape(found), str(text))


def say(text: object) -> None:
    """A line on standard error. What cannot be written there is left out."""
    line = f"office: {harmless(text)}\n"
    if sys.stderr is None:
        return
    try:
        sys.stderr.write(line)
    except UnicodeEncodeError:
        sys.stderr.write(clean(line, "\n"))
    except OSError:
        pass


def put(text: str, end: str = "\n") -> None:
    """A line of output. Where its reader went away the rest of it goes nowhere, and the work goes on."""
    try:
        print(text, end=end)
    except BrokenPipeError:
        leave_pipe()


def flush() -> None:
    """Hands on what was put."""
    try:
        if sys.stdout is not None:
            sys.stdout.flush()
    except BrokenPipeError:
        leave_pipe()


def leave_pipe() -> None:
    """Lets the output go nowhere, as its reader went away."""
    nothing = os.open(os.devnull, os.O_WRONLY)
    os.dup2(nothing, sys.stdout.fileno())
    os.close(nothing)
