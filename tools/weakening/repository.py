"""The files that are read: definitions, proofs and sources, and which crate stands on which."""

import functools
import glob
import os

from making.files import TOP, read


@functools.cache
def antt_files() -> list[str]:
    """The paths of all definitions and proofs, from the top."""
    found = [path for folder in ("specs", "proofs") for path in glob.glob(os.path.join(TOP, "crates", "*", folder, "**", "*.antt"), recursive=True)]
    return sorted(os.path.relpath(path, TOP) for path in found)


def proof_files() -> list[str]:
    return [path for path in antt_files() if path.split("/")[2] == "proofs"]


@functools.cache
def sources() -> list[str]:
    """The paths of all sources of the crates."""
    found = glob.glob(os.path.join(TOP, "crates", "*", "src", "**", "*.rt"), recursive=True)
    return sorted(os.path.relpath(path, TOP) for path in found)


def crate_of(path: str) -> str:
    return path.split("/")[1]


@functools.cache
def below() -> dict[str, list[str]]:
    """Each crate of crates.txt, lowest first, with those of this repository that it names."""
    lines = [line.partition("#")[0] for line in read("crates.txt").splitlines()]
    rows = {name.split()[0]: words.split() for name, mark, words in (line.partition(":") for line in lines) if mark}
    return {name: [word for word in words if word in rows] for name, words in rows.items()}


def is_test(crate: str) -> bool:
    return crate.startswith(("test_", "refuse_"))
