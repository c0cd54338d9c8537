"""The files of the repository: which there are, what kind each is, and which part of it is written by hand."""
import functools
import os
import re
import subprocess

TOP = os.path.dirname(os.path.dirname(os.path.dirname(os.path.abspath(__file__))))
KINDS = ("code", "specs", "proofs", "docs", "tests", "rows")

# What a script makes of other files: whole files, each with its maker; and in any file what is between two marks,
# `<!-- made: NAME -->` and `<!-- end -->`, or the same after `#` or `//`.
MADE = {
    "web/refusals.json": "client/make-refusals",
    "crates/test_all/stdin": "tools/rows",
    "crates/test_all/stdout": "tools/rows",
}
MARKED = re.compile(r"(?P<sign><!--|#|//) made: [a-z ]+(?: -->|(?=\n)).*?(?P=sign) end(?: -->|$)", re.S | re.M)
# These name the members in order to count them.
COUNTER = re.compile(r"tools/(?:count$|counting/)")


class Missing(Exception):
    """Something that a measure looks for is not in the sources."""


def listed_by_git():
    """The files that git keeps or would take, by their paths from the top, or none where git does not answer."""
    try:
        asked = subprocess.run(["git", "ls-files", "-z", "--cached", "--others", "--exclude-standard"], cwd=TOP, capture_output=True, check=True)
    except (OSError, subprocess.CalledProcessError):
        return []
    return asked.stdout.decode().split("\0")[:-1]


def walked():
    """All files but those of the folders that .gitignore names, by their paths from the top."""
    left = {".git", *(line.rstrip("/") for line in read(".gitignore").splitlines())}
    for folder, folders, names in os.walk(TOP):
        folders[:] = [one for one in folders if not left & {one, os.path.relpath(os.path.join(folder, one), TOP)}]
        yield from (os.path.relpath(os.path.join(folder, name), TOP) for name in names if name != ".git")


@functools.cache
def files():
    """The paths of all files, from the top."""
    return sorted(path for path in set(listed_by_git() or walked()) if os.path.isfile(os.path.join(TOP, path)))


@functools.cache
def read(path):
    """The text of a file; of one that is no text, nothing."""
    with open(os.path.join(TOP, path), "rb") as it:
        octets = it.read()
    return "" if b"\0" in octets else octets.decode("utf-8", "replace")


@functools.cache
def by_hand(path):
    """The text of a file without what is made: its made parts, or all of it."""
    if path in MADE:
        return ""
    return MARKED.sub("", read(path))


@functools.cache
def crates():
    """The product's crates, each with those that it may call, which are below it, and itself."""
    found = {}
    for line in read("crates.txt").splitlines():
        name, _, uses = line.partition(":")
        if name and not name.startswith(("#", "test_", "refuse_")):
            found[name] = {name}.union(*(found.get(one, set()) for one in uses.split()))
    return found


def crate_of(path):
    """The crate that a file is of, or "" for one outside crates/."""
    parts = path.split("/")
    return parts[1] if parts[0] == "crates" and len(parts) > 2 else ""


def kind_of(path):
    """The kind of a file, or None for one that is not counted: a must-fail edit, a whole made file, and what counts."""
    if path in MADE or "/must-fail/" in path or COUNTER.match(path):
        return None
    crate, folder = crate_of(path), path.split("/")[2] if path.count("/") > 2 else ""
    if crate:
        if folder == "rows":
            return "rows"
        return {"src": "code", "specs": "specs", "proofs": "proofs"}.get(folder) if crate in crates() else "tests"
    if path.startswith(("acceptance/", "bench/")) and not path.endswith(".md"):
        return "tests"
    if path.endswith(".md") or path.startswith(("docs/", "examples/", "package/make-man", "package/README")):
        return "docs"
    return "code"


def of_kind(kind, ending=""):
    """The paths of the files of a kind."""
    return [path for path in files() if kind_of(path) == kind and path.endswith(ending)]


def product_sources():
    """The paths of the Rattle files of the product's crates."""
    return [path for path in of_kind("code", ".rt") if crate_of(path)]


def variants(enum):
    """The variants of an enum of the product, in their order."""
    for path in product_sources():
        found = re.search(rf"^pub(?:\(crate\))? enum {enum} \{{\n(.*?)^\}}", read(path), re.M | re.S)
        if found:
            return re.findall(r"^    ([A-Z]\w*)", found[1], re.M)
    raise Missing(f"no file has the enum {enum}")
