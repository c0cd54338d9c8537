"""The files of the repository, and text as Markdown has it."""

import os
import re

TOP = os.path.dirname(os.path.dirname(os.path.dirname(os.path.abspath(__file__))))


class Wrong(Exception):
    """Why something cannot be made."""


def read(*parts):
    with open(os.path.join(TOP, *parts), encoding="utf-8") as it:
        return it.read()


def write(path, text):
    """Writes a file where it differs, and makes its folder."""
    whole = os.path.join(TOP, path)
    os.makedirs(os.path.dirname(whole), exist_ok=True)
    if not os.path.exists(whole) or read(path) != text:
        with open(whole, "w", encoding="utf-8") as it:
            it.write(text)


def product_crates():
    """The product's crates, lowest first."""
    for line in read("crates.txt").splitlines():
        name = line.split(":")[0].strip()
        if name and not name.startswith(("#", "test_", "refuse_")):
            yield name


def escaped(text):
    """A text in Markdown: what would be taken for markup is escaped."""
    return re.sub(r"([*_<>|\\])", r"\\\1", text)


def cell(text):
    """A text with code in a table: what would be taken for markup is escaped outside code, and a bar within it too."""
    parts = text.split("`")
    return "`".join(part.replace("|", "\\|") if at % 2 else escaped(part) for at, part in enumerate(parts))


def table(heads, rows):
    """A table of Markdown, without a line's end at its end."""
    return "\n".join(f"| {' | '.join(row)} |" for row in [heads, *rows]).replace("\n", f"\n|{'---|' * len(heads)}\n", 1)


def cells(line):
    """The cells of a line of a table, as they stand."""
    return [one.strip() for one in re.split(r"(?<!\\)\|", line.strip())[1:-1]]
