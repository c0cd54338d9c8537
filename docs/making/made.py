"""The pages that are made and not kept: they go into docs/made, which git ignores."""

import re

from making import believe, definitions, proved, refusals
from making.files import write

FOLDER = "docs/made"
HTML = FOLDER + "/html"  # the manual
# the pages, and what makes them
PAGES = {
    "believe": (FOLDER + "/believe.md", believe.page),
    "definitions": (FOLDER + "/definitions.md", definitions.page),
    "proved": (FOLDER + "/proved-tables.md", proved.page),
    "refusals": (FOLDER + "/refusals.md", refusals.page),
}


def make(name):
    path, page = PAGES[name]
    write(path, page())


def unread(name):
    """A line for each chapter in which nothing stands, since nothing of its sources was read."""
    path, page = PAGES[name]
    for chapter in page().split("\n## ")[1:]:
        if not re.search(r"^(?:(?:- |\| )`|```)", chapter, re.M):
            yield f"{path}: nothing is read for {chapter.splitlines()[0]}"


def is_made(path):
    """Whether `docs/make` makes what is at this path from the top; `*` stands for any page of the manual."""
    return path in (FOLDER, HTML, HTML + "/*", *(page for page, _ in PAGES.values()))
