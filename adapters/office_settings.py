"""Settings of an adapter: a TOML file that nobody else may read, in which each key is asked for by its name and its type."""

import getopt
import os
import re
import stat
import sys
from typing import Any

import tomllib

from office_asking import Office, printable

LARGEST = 1 << 20  # octets of a file of settings
NAME = re.compile(r"(?:(?:[!-\-/-\[\]-~]|\\[0-9]{3}|\\[!-/:-~]){1,63}\.)+")  # an absolute name in ASCII


class Wrong(Exception):
    """The settings, or the words of the command, are wrong."""


class Settings:
    """A table of settings. A key that was not asked for is wrong: it would be one that is misspelt."""

    def __init__(self, table: dict[str, Any], where: str) -> None:
        self._table = dict(table)
        self.where = where

    def _take(self, name: str, kind: type, words: str) -> Any:
        value = self._table.pop(name, None)
        if value is not None and type(value) is not kind:  # pylint: disable=unidiomatic-typecheck
            raise Wrong(f"{self.where}: {name} is not {words}")
        return value

    def text(self, name: str) -> str | None:
        """A text, or None if the key is not there."""
        value: str | None = self._take(name, str, "a text")
        return value

    def needed(self, name: str) -> str:
        """A text that has to be there."""
        value = self.text(name)
        if not value:
            raise Wrong(f"{self.where}: {name} is missing")
        return value

    def flag(self, name: str) -> bool:
        """Whether a key is true; false if it is not there."""
        return bool(self._take(name, bool, "true or false"))

    def number(self, name: str, default: int, least: int, most: int) -> int:
        """A whole number within bounds."""
        value = self._take(name, int, "a whole number")
        if value is None:
            return default
        if not least <= value <= most:
            raise Wrong(f"{self.where}: {name} is not from {least} to {most}")
        return int(value)

    def texts(self, name: str) -> list[str]:
        """A list of texts; empty if the key is not there."""
        value = self._take(name, list, "a list of texts") or []
        if not all(isinstance(one, str) for one in value):
            raise Wrong(f"{self.where}: {name} is not a list of texts")
        return list(value)

    def zones(self, name: str) -> list[str]:
        """A list of origins, one at least."""
        found = self.texts(name)
        if not found:
            raise Wrong(f"{self.where}: {name} names no zone")
        return [absolute(one) for one in found]

    def tables(self, name: str) -> list["Settings"]:
        """A list of tables; empty if the key is not there."""
        value = self._take(name, list, "a list of tables") or []
        if not all(isinstance(one, dict) for one in value):
            raise Wrong(f"{self.where}: {name} is not a list of tables")
        return [Settings(one, f"{self.where}: {name} {number}") for number, one in enumerate(value, 1)]

    def office(self) -> Office:
        """The office and who asks it: `url`, and `caller`, or `user` and `password`, or `cert` and `key`; `ca`, `tries`, `seconds`."""
        return self.offices([self])[0]

    def offices(self, callers: list["Settings"]) -> list[Office]:
        """The same office for several callers, each of a table of its own."""
        url, tries = self.needed("url"), self.number("tries", 8, 1, 100)  # 16 seconds, in which an office may restart
        seconds = self.number("seconds", 70, 1, 300)  # the front server gives up after 60
        authorities, found = self.text("ca"), []
        for one in callers:
            words = {name: one.text(name) for name in ("caller", "user", "password", "cert", "key")}
            try:
                found.append(Office(url, tries=tries, seconds=seconds, ca=authorities, **words))
            except (ValueError, OSError) as error:
                raise Wrong(f"{one.where}: {printable(str(error))}") from None
        return found

    def end(self) -> None:
        """Is called when all keys were asked for."""
        if self._table:
            raise Wrong(f"{self.where}: there is no {printable(min(self._table), 40)}")


def options_of(words: list[str], known: list[str], about: str | None) -> dict[str, str]:
    """The options of a command that takes nothing else. `--help` prints what it is about, and ends it."""
    try:
        found, rest = getopt.getopt(words, "", [*known, "help"])
    except getopt.GetoptError as error:
        raise Wrong(printable(str(error))) from None
    if ("--help", "") in found:
        print(str(about).strip())
        sys.exit(0)
    if rest:
        raise Wrong(f"{printable(rest[0])} is too much")
    return dict(found)


def absolute(word: str) -> str:
    """A name as it is sent: absolute, in lower case."""
    name = word.lower() if word.endswith(".") else word.lower() + "."
    if not NAME.fullmatch(name) or len(name) > 1004:
        raise Wrong(f"{printable(repr(word))} is not a name")
    return name


def read_settings(path: str) -> Settings:
    """The settings of a file that is this user's or root's, and that no other user may read or write: it has a password, perhaps."""
    try:
        octets = private(path)
        if len(octets) > LARGEST:
            raise Wrong(f"{path} has more than {LARGEST} octets")
        return Settings(tomllib.loads(octets.decode()), path)
    except OSError as error:
        raise Wrong(f"{path}: {error.strerror}") from None
    except (ValueError, RecursionError) as error:
        raise Wrong(f"{path}: {printable(str(error))}") from None


def private(path: str) -> bytes:
    """The first octets of such a file."""
    file = os.open(path, os.O_RDONLY | os.O_NONBLOCK | os.O_CLOEXEC)
    try:
        found = os.fstat(file)
        if not stat.S_ISREG(found.st_mode) or found.st_uid not in (0, os.geteuid()) or stat.S_IMODE(found.st_mode) & 0o027:
            raise Wrong(f"{path} is not a file of root's or this user's that no other may read: its mode has to be 0600, or 0640")
        with os.fdopen(file, "rb", closefd=False) as opened:
            return opened.read(LARGEST + 1)
    finally:
        os.close(file)
