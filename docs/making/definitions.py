"""What each definition of specs/ says, by the comments that stand above it."""

import os
import re

from making.files import TOP, product_crates, read

INTRODUCTION = """# Definitions

What each definition of `specs/` says, by the comment above it, with its source in the standard. Where no source stands, the definition is this project's own. The crates stand in the order of `crates.txt`, and their files in the order of `specs/Lib.antt`; a definition rests on those above it. A law is a statement of definitions alone, which a function that does nothing has as its contract (`src/laws.rt`). Octets are numbers below 256, texts are lists of octets, a name is a list of labels, and a label a list of octets.

`docs/make definitions` makes this page from the comments.
"""

# a definition: `abbrev pub name : ..`, `pub record Name (..) ..`, `infixl`, with `pub` where others may use it
DEFINITION = re.compile(r"^(?:  )?(?:(?:abbrev|unfoldable) )?pub (?:record|data |record )?\s*(?:data )?([^\s:({]+)")
FIELD = re.compile(r"^  pub ")


def modules(crate):
    """The files of a crate's specs, in their order."""
    path = os.path.join("crates", crate, "specs", "Lib.antt")
    if os.path.exists(os.path.join(TOP, path)):
        for line in read(path).splitlines():
            if line.startswith("pub mod "):
                yield line.split()[2]


def sentence(lines):
    text = " ".join(lines).strip()
    return text[:1].upper() + text[1:] + ("" if text.endswith((".", ":", "?")) else ".")


def plain(text):
    """A text in Markdown: what would be taken for markup is escaped, but where a code span may be open."""
    return re.sub(r"([*_<>|\\])(?![^`]*`(?:[^`]*`[^`]*`)*[^`]*$)", r"\\\1", text)


def head_of(lines):
    """The comment at the head of a file, and the lines behind it."""
    at = 0
    while at < len(lines) and lines[at].startswith("-- "):
        at += 1
    return [line[3:] for line in lines[:at]], lines[at:]


def parts_of(lines):
    """The parts of a file: a heading, or names with what they say."""
    parts, comment, in_record = [], [], False
    for line in lines:
        stripped = line.strip()
        if stripped.startswith("-- ----"):
            parts.append(("heading", stripped[7:].strip()))
            comment, in_record = [], False
        elif stripped.startswith("-- "):
            comment.append(stripped[3:])
        elif not stripped:
            comment, in_record = [], False
        elif in_record and FIELD.match(line):
            comment = []
        else:
            found = DEFINITION.match(line)
            if found and not line.startswith("pub mod"):
                in_record = "record" in line.split("pub", 1)[1].split("(")[0]
                add(parts, found[1], comment)
            comment = []
    return parts


def add(parts, name, comment):
    """Adds a definition: one without a comment of its own stands beside the one before it."""
    if comment:
        parts.append(([name], comment))
    elif parts and parts[-1][0] != "heading":
        parts[-1][0].append(name)
    else:
        parts.append(([name], []))


def told(names, comment):
    """The line of some definitions."""
    listed = ", ".join(f"`{name.replace('◌', '')}`" for name in names)
    return f"- {listed}: {plain(sentence(comment))}" if comment else f"- {listed}"


def blocks(parts):
    """The headings and the lists of a file."""
    lines = []
    for names, comment in parts:
        if names != "heading":
            lines.append(told(names, comment))
            continue
        if lines:
            yield "\n".join(lines) + "\n"
        lines = []
        yield f"{plain(sentence([comment]).rstrip('.'))}:\n"
    if lines:
        yield "\n".join(lines) + "\n"


def page():
    out = [INTRODUCTION]
    for crate in product_crates():
        names = list(modules(crate))
        if names:
            out.append(f"## `{crate}`\n")
        for name in names:
            title, behind = head_of(read("crates", crate, "specs", name + ".antt").splitlines())
            out.append(f"### {name}\n\n{plain(sentence(title))}\n")
            out += blocks(parts_of(behind))
    return "\n".join(out)
