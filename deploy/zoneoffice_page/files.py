"""Files that are written whole or not at all, and that are no links."""

import contextlib
import errno
import fcntl
import os
import re
import secrets
import stat
from types import TracebackType

BROKEN = re.compile(r"\.new-[0-9a-f]{32}")  # what a killed run leaves


class Unsafe(Exception):
    """What is in the place of a file or a folder cannot be used."""


def printable(text: str, most: int = 300) -> str:
    """The text, cut, with an escape for each character that a terminal or a log could act on."""
    cut = text[:most] + ("..." if len(text) > most else "")
    return re.sub(r"[^ -~]", lambda found: found[0].encode("unicode_escape").decode("ascii"), cut)


def read(name: str, most: int, folder: int | None = None) -> bytes | None:
    """The octets of an ordinary file, or None if there is none. A link is refused, and a pipe or a device is not waited for."""
    descriptor = open_file(name, folder)
    if descriptor is None:
        return None
    with open(descriptor, "rb") as file:
        octets = file.read(most + 1)
    if len(octets) > most:
        raise Unsafe(f"{printable(name)} has more than {most} octets")
    return octets


def open_file(name: str, folder: int | None = None) -> int | None:
    """The descriptor of an ordinary file, or None if there is none."""
    try:
        found = os.open(name, os.O_RDONLY | os.O_NOFOLLOW | os.O_NONBLOCK | os.O_CLOEXEC, dir_fd=folder)
    except FileNotFoundError:
        return None
    except OSError as error:
        why = "it is a symbolic link" if error.errno == errno.ELOOP else error.strerror
        raise Unsafe(f"{printable(name)}: {why}") from None
    if not stat.S_ISREG(os.fstat(found).st_mode):
        os.close(found)
        raise Unsafe(f"{printable(name)}: it is not an ordinary file")
    return found


class Folder:
    """A folder that nobody but this user can write, and what is in it."""

    def __init__(self, path: str, above: "Folder | None" = None) -> None:
        self.path: str = os.path.join(above.path, path) if above else path
        try:
            self.descriptor: int = os.open(path, os.O_RDONLY | os.O_DIRECTORY | os.O_NOFOLLOW | os.O_CLOEXEC,
                                      dir_fd=above.descriptor if above else None)
        except OSError as error:
            why = "it is a link, or no folder" if isinstance(error, NotADirectoryError) else error.strerror
            raise Unsafe(f"{printable(self.path)}: {why}") from None
        found = os.fstat(self.descriptor)
        if found.st_uid != os.geteuid() or stat.S_IMODE(found.st_mode) & 0o022:
            self.close()
            raise Unsafe(f"{printable(self.path)}: it is another user's, or others can write there")

    def __enter__(self) -> "Folder":
        return self

    def __exit__(self, kind: type[BaseException] | None, error: BaseException | None, trace: TracebackType | None) -> None:
        self.close()

    def close(self) -> None:
        """Gives the folder back."""
        os.close(self.descriptor)

    def lock(self) -> bool:
        """Keeps other runs out for as long as the folder is open; False if one is at work."""
        try:
            fcntl.flock(self.descriptor, fcntl.LOCK_EX | fcntl.LOCK_NB)
        except BlockingIOError:
            return False
        return True

    def below(self, name: str) -> "Folder":
        """A folder in it, which is made if it is not there."""
        with contextlib.suppress(FileExistsError):
            os.mkdir(name, 0o750, dir_fd=self.descriptor)
        return Folder(name, self)

    def names(self) -> list[str]:
        """The names in it, without what killed runs left, which goes."""
        found = os.listdir(self.descriptor)
        for name in found:
            if BROKEN.fullmatch(name):
                self.remove(name)
        return sorted(name for name in found if not BROKEN.fullmatch(name))

    def read(self, name: str, most: int) -> bytes | None:
        """The octets of a file, or None if there is none."""
        return read(name, most, self.descriptor)

    def put(self, name: str, octets: bytes, mode: int = 0o640) -> None:
        """Puts octets in the place of a file's, unless it has them: whole, or not at all if it is killed."""
        if self.has(name, octets):
            return
        new = f".new-{secrets.token_hex(16)}"
        made = os.open(new, os.O_WRONLY | os.O_CREAT | os.O_EXCL | os.O_NOFOLLOW | os.O_CLOEXEC, 0o600, dir_fd=self.descriptor)
        try:
            with open(made, "wb") as file:
                file.write(octets)
                file.flush()
                os.fchmod(file.fileno(), mode)
                os.fsync(file.fileno())
            os.rename(new, name, src_dir_fd=self.descriptor, dst_dir_fd=self.descriptor)
        except BaseException:
            self.remove(new)
            raise

    def has(self, name: str, octets: bytes) -> bool:
        """Whether a file has these octets, and is no link."""
        try:
            return self.read(name, len(octets)) == octets
        except Unsafe:
            return False

    def remove(self, name: str) -> None:
        """Removes a file, if it is there."""
        with contextlib.suppress(FileNotFoundError):
            os.unlink(name, dir_fd=self.descriptor)

    def remove_folder(self, name: str) -> None:
        """Removes a folder with the files in it; a link in its place goes, and not what it leads to."""
        try:
            with Folder(name, self) as old:
                for one in os.listdir(old.descriptor):
                    old.remove(one)
            os.rmdir(name, dir_fd=self.descriptor)
        except Unsafe:
            self.remove(name)
