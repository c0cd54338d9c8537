"""The figures of additions that the page on how to add states, between `<!-- counted: KEY -->` and `<!-- end -->`."""
import os
import re

from counting.additions import counts
from counting.sources import TOP, read

PAGE = "docs/overview.md"
STATED = re.compile(r"<!-- counted: (\w+) -->(.*?)<!-- end -->", re.S)


def figures():
    """What the page has to state for each addition, by its key."""
    return {count.addition.key: f"{len(count.shared)} files" for count in counts()}


def differences():
    """A line for each addition of which the page states another figure, or none."""
    stated, wanted = STATED.findall(read(PAGE)), figures()
    for key, found in stated:
        if key not in wanted:
            yield f"{PAGE}: no addition is counted by the name {key}"
        elif found.strip() != wanted[key]:
            yield f"{PAGE}: states {found.strip()} for {key}, and {wanted[key]} are counted"
    for key in wanted:
        if key not in dict(stated):
            yield f"{PAGE}: states nothing for {key}"


def write():
    """Writes the figures into the page."""
    wanted, old = figures(), read(PAGE)
    new = STATED.sub(lambda found: f"<!-- counted: {found[1]} -->{wanted.get(found[1], found[2])}<!-- end -->", old)
    if new != old:
        with open(os.path.join(TOP, PAGE), "w", encoding="utf-8") as it:
            it.write(new)
