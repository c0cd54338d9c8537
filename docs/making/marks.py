"""What is made within a file that is otherwise written by hand: it stands between two marks.

    <!-- made: NAME --> .. <!-- end -->     in Markdown, also within a line
    # made: NAME                            in YAML and Python, and // in JavaScript
    # end
"""

import re
import textwrap

from making.files import Wrong, cells, table

OPEN = r"(?P<open>(?P<sign><!--|#|//) made: (?P<name>[a-z ]+?)(?: -->|(?=\n)))"
MARKED = re.compile(OPEN + r"(?P<body>(?:(?!(?:<!--|#|//) made: ).)*?)(?P<close>(?P=sign) end(?: -->|$))", re.S | re.M)


def within(path, text, lists):
    """The text of a file with its lists made anew. `lists` has for each name what makes it of what stands there now."""
    found = [one["name"] for one in MARKED.finditer(text)]
    unended = [one["name"] for one in re.finditer(OPEN, text) if one["name"] not in found]
    if unended:
        raise Wrong(f"{path}: the mark of {unended[0]} has no end")
    if sorted(found) != sorted(lists):
        raise Wrong(f"{path}: the marks are of {', '.join(found) or 'nothing'}, and the lists of {', '.join(lists)}")

    def again(one):
        before, old, after = re.fullmatch(r"(\s*)(.*?)(\s*)", one["body"], re.S).groups()
        indent = before.rpartition("\n")[2]
        made = textwrap.indent(lists[one["name"]](textwrap.dedent(indent + old)), indent)
        return one["open"] + before + made.removeprefix(indent) + after + one["close"]

    return MARKED.sub(again, text)


def rows_by_hand(path, old, width, wanted):
    """A table whose first cells are made, and whose others are written by hand: they go with as many of the first as name a row."""
    heads, _, *lines = [cells(line) for line in old.splitlines()]
    words = {tuple(line[:width]): line[len(wanted[0]):] for line in lines}
    for row in wanted:
        if row[:width] not in words:
            raise Wrong(f"{path}: the table of {heads[0]} has no words of {' '.join(row)}: write a row of it")
    return table(heads, [[*row, *words[row[:width]]] for row in wanted])
