"""What refusals mean in words, by the table that client/make-refusals makes."""

import functools
import json
import os
from typing import Any

from .telling import clean

FOLDER = os.path.dirname(os.path.dirname(os.path.realpath(__file__)))
PLACES = FOLDER, os.path.join(FOLDER, os.pardir, "web")  # beside the modules, and in the sources


@functools.cache
def table() -> dict[str, str]:
    """The texts of refusals, by number and code."""
    for place in PLACES:
        try:
            with open(os.path.join(place, "refusals.json"), encoding="utf-8") as file:
                found = json.load(file)
                return {**found["numbers"], **found["replies"]}
        except (OSError, ValueError, KeyError):
            pass
    return {}


def text_of(number: object) -> str | None:
    """What a number or a code means."""
    return table().get(str(number))


def words(fields: dict[str, Any]) -> str:
    """What the body of a refusal says, in words."""
    what = fields.get("refusal", fields.get("name"))
    rule = f" by {clean(fields['by'][:200])}" if "by" in fields else ""
    text = text_of(what)
    return f"refused {clean(str(what)[:200])}{rule}{': ' + text if text else ''}"


def lack_line(lack: dict[str, str]) -> str:
    """A right that lacks, in words."""
    why = "no rule grants it (closing)" if lack["rule"] == "closing" else f"the rule {lack['rule']} denies it"
    return f"you lack {lack['action']} {lack['type']} at {lack['name']}: {why}"
