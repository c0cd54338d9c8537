"""The tables of refusals in docs/formats.md and docs/api.md, the page of all that is said of them, and web/refusals.json, from which the page
and the client have the words."""

import json
import re

from making import sources
from making.files import Wrong, cells, escaped, read, table

# a number of a kind as it is printed; N stands for the number of a fault inside it
PRINTED = {
    "Whole": "{}",
    "Name": "{}, 29.19.{}, 58.{}",
    "Type": "{}, 29.{}",
    "Data": "29.{}",
    "InnerName": "29.{}.N",
    "Entry": "{}.N",
    "RuleName": "{}.N",
    "Unprinted": "{}, never printed",
}


def printed(one):
    """How the number of a refusal is printed."""
    return PRINTED[one.kind].replace("{}", one.number)


def of_formats(_):
    """All numbers, with their names and meanings."""
    return table(("Number", "Name", "Meaning"), [(one.number, one.name, escaped(one.meaning)) for one in sources.refusals()])


def page():
    """All that is said of each refusal."""
    rows = [(one.number, printed(one), one.name, escaped(one.meaning), escaped(one.advice), one.source) for one in sources.refusals()]
    return (
        "# All refusals\n\nWhat each number means, what to do, and the standard that says so: what `zoneoffice explain` prints. `docs/make refusals` "
        "makes this page of the program's table.\n\nN is the number of the fault inside: from 1 to 6 in a name, from 11 to 20 or 33 in an entry.\n\n"
        + table(("Number", "Printed", "Name", "Meaning", "What to do", "Source"), rows) + "\n"
    )


def of_api(old):
    """The numbers of the table with their statuses, which are written by hand, and the reasons."""
    by_number = {one.number: one for one in sources.refusals()}
    heads, _, *rows = [cells(line) for line in old.splitlines()]
    unknown = [number for number, *_ in rows if number not in by_number]
    if unknown:
        raise Wrong(f"docs/api.md: there is no refusal {unknown[0]}")
    told = [(number, status, by_number[number]) for number, status, _ in rows]
    return table(heads, [(number, status, f"{escaped(one.meaning)} {escaped(one.advice)}") for number, status, one in told])


# The file of words

def plain(text):
    """A sentence as a part of a line: without its full stop, and with a small letter where it begins with a word."""
    text = text.rstrip(".")
    return text if text[1:2].isupper() else text[:1].lower() + text[1:]


def numbers():
    """What each number means."""
    told = {int(one.number): plain(one.meaning) for one in sources.refusals() if one.number.isdigit()}
    return {str(number): told[number] for number in sorted(told)}


def replies_and_front():
    """The names of replies, and the statuses of what the front server answers itself, by the tables of docs/api.md."""
    replies, front = {}, {}
    for block in re.findall(r"(?:^\|.*\n){2,}", read("docs", "api.md"), re.M):
        heads, _, *rows = [[one.replace("`", "") for one in cells(line)] for line in block.splitlines()]
        if heads[:2] == ["Status", "Body"]:
            for _, body, words in rows:
                name = re.search(r'"name":"([A-Z]+)"', body)
                if name and name[1] != "NOERROR":
                    replies[name[1]] = words
                replies.update(re.findall(r"([A-Z]+) \(\d+\): ([^;.]+)", words))
        elif heads[0] == "Status" and heads[1].startswith("It means"):
            front.update({status: words for statuses, words in rows for status in statuses.split(", ")})
    return replies, dict(sorted(front.items()))


def words():
    """The file: the numbers of refusals, the names of replies such as NXRRSET, and what the front server answers itself."""
    replies, front = replies_and_front()
    return json.dumps({"numbers": numbers(), "replies": replies, "front": front}, indent=1) + "\n"
