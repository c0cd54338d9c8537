"""The files that are kept in git and made, or made in part."""

from making import lists, refusals
from making.files import read
from making.marks import within

WORDS = "web/refusals.json"

# by what is made: the file, the name of the mark, and what makes it of what stands there
LISTS = {
    "types": [
        ("README.md", "types", lists.types_spoken),
        ("docs/formats.md", "types", lists.types_of_formats),
        ("docs/policy.md", "types", lists.types_listed),
        ("docs/proved.md", "types", lists.types_spoken),
        ("docs/openapi.yaml", "types", lists.types_in_either_case),
        ("docs/openapi.yaml", "types of lines", lists.types_of_lines),
        ("web/data.js", "types", lists.types_of_page),
        ("web/answers.js", "types", lists.types_of_questions),
        ("web/data.js", "fields", lists.fields_of_page),
        ("client/office_client/tables.py", "types", lists.types_of_client),
        ("adapters/office_records.py", "types", lists.types_of_adapters),
    ],
    "modules": [
        ("web/index.html", "modules", lists.modules_of_page),
    ],
    "actions": [
        ("docs/policy.md", "actions", lists.actions_listed),
        ("docs/policy.md", "what actions allow", lists.actions_of_policy),
        ("docs/openapi.yaml", "actions", lists.actions_of_openapi),
        ("client/office_client/tables.py", "actions", lists.actions_of_client),
        ("web/rights.js", "actions", lists.actions_of_page),
    ],
    "commands": [
        ("docs/commands.md", "arguments", lists.arguments_of_commands),
    ],
    "routes": [
        ("docs/formats.md", "routes", lists.routes_of_formats),
        ("docs/api.md", "routes", lists.routes_of_api),
    ],
    "refusals": [
        ("docs/formats.md", "refusals", refusals.of_formats),
        ("docs/api.md", "refusals", refusals.of_api),
    ],
}


def with_lists(path, text, names):
    """The text of a file with the lists of these names made anew."""
    makers = {mark: make if name in names else lambda old: old
              for name, rows in LISTS.items() for place, mark, make in rows if place == path}
    return within(path, text, makers)


def made(names):
    """The files in which something of these names is made, and their texts."""
    for path in sorted({place for name in names for place, _, _ in LISTS[name]}):
        yield path, with_lists(path, read(path), names)
    if "refusals" in names:
        yield WORDS, refusals.words()


def differing(names):
    """The files whose text differs from what is made."""
    return [path for path, text in made(names) if read(path) != text]
