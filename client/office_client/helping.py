"""The commands with the words that each takes, and the texts of help."""

import re
from typing import NamedTuple

from .options import LISTED

WIDTH = 44


class Command(NamedTuple):
    """A command: the words after it, what it does in a line, and what else is to be known."""
    words: str
    what: str
    more: str

    def least(self) -> int:
        """How many words it takes at least."""
        return len(re.sub(r"\[.*\]", "", self.words).split())

    def most(self) -> int | None:
        """How many it takes at most, or None if any number."""
        return None if "..." in self.words else len(self.words.replace("[", " ").replace("]", " ").split())


COMMANDS = {
    "list": Command("[NAME]", "the records you may list, or those within a name",
                    "With --strict it is status 3 if there is none."),
    "file": Command("[NUMBER]", "the same records as a master file, or as they were after a change",
                    "Edit it, and see office diff and office import. NUMBER is of office log; 0 is before all changes."),
    "delegations": Command("", "the delegations of the zone",
                           "After a server comes whether its address is listed, unlisted or outside."),
    "changes": Command("[FROM]", "the changes you may see, from a number on", "Record by record; office log says them in words."),
    "log": Command("[NAME]", "the same changes in words, or those at a name and below it",
                   "An arrow is between what went and what came. --last N says how many changes are printed; office undo takes one "
                   "back."),
    "blame": Command("[NAME]", "the records you may list, each after the number of the change that brought it",
                     "It is 0 where the record was there from the first on. office log has what each change did, and file NUMBER the zone."),
    "rights": Command("NAME TYPE ACTION", "whether you may list, check, add, delete or delegate records",
                      "It prints the rule that decides, and is status 0 if it grants and 1 if it denies."),
    "add": Command("NAME TTL TYPE DATA...", "adds a record",
                   "Each word of a TXT is one string. Where nothing changes it is said why; with --strict it is status 3."),
    "delete": Command("NAME [TYPE [DATA...]]", "deletes a record, the records of a type, or all at the name",
                      "To delete all at a name asks for the right to delegate too; else name the types, one after the other."),
    "set": Command("NAME TTL TYPE DATA...", "replaces the records of a type, one word per record",
                   "office set www.example.org 5m A 192.0.2.80 192.0.2.81"),
    "delegate": Command("CHILD TTL SERVER[=ADDRESS,...]...", "hands a name and all below it to servers",
                        "A server within the child needs an address. It replaces the servers there are; a DS stays."),
    "diff": Command("[OLD] FILE", "what leads from the zone, as you may list it, to a master file",
                    "Item lines, as of zoneoffice diff, and nothing is sent. Between two files it is what office import --since "
                    "OLD FILE sends."),
    "import": Command("FILE", "adds the records of a master file, of a piece of one, or of a table (.csv)",
                      "A table has rows of name and address, or of name, type and data, and perhaps a TTL. "
                      "It is guarded, and sent in as many updates as it needs; killed, the same command goes on where it was. A set that "
                      "is there with other records is refused, or replaced with --replace. --since OLD sends the difference between two "
                      "files, deletions too, unless somebody changed the same sets since."),
    "undo": Command("NUMBER", "takes a change back, unless something of it was changed since",
                    "NUMBER is of office log. It is a guarded update, and a change itself: it can be taken back too."),
    "plan": Command("COMMAND...", "what a command that changes something would send, item by item",
                    "Of each item: whether the policy allows it, and what it does to the records that you may list. Nothing is sent. It is "
                    "status 1 if it would be refused; --dry-run is the same."),
    "nsupdate": Command("[FILE]", "sends the updates of an nsupdate script",
                        "The whole script is read first, and with a mistake in any line nothing is sent. An update that is too large is "
                        "refused, or sent as several with --split."),
    "pending": Command("", "lists the updates that got no reply", "To send one again, run the command that sent it."),
    "forget": Command("ID", "drops one of them", "It may have been made; office list shows."),
    "completion": Command("SHELL", "prints the completion for bash or zsh",
                          "office completion bash > ~/.local/share/bash-completion/completions/office"),
    "help": Command("[COMMAND]", "prints this text, or what a command does", ""),
}
CHANGING = "add", "delete", "set", "delegate", "import", "undo", "nsupdate", "forget"

NOTES = r"""Names: one with a dot in it is absolute, with or without its last dot; a single label is within the zone. Letters beyond ASCII
are sent as xn--... Before a change the client reads what it concerns: it says where a name could be meant otherwise, or where
nothing changes, and refuses what name servers would not load. The identifier of an update is kept in $XDG_STATE_HOME/office until
the office has decided: after a lost reply run the same command again, and the change is made once.
Of a reply, each character that is not printable ASCII is printed as an escape (\uXXXX).
Status: 0 success; 1 refused, or a right is denied; 2 the request could not be sent, got no reply, or the words are wrong; 3 nothing
changed, with --strict. A reader of the output that goes away changes neither what is done nor the status."""


def usage(name: str) -> str:
    """How a command is written."""
    return f"office {name} {COMMANDS[name].words}".rstrip()


def row(words: str, what: str, width: int) -> str:
    """A line of the help, or two if the words are long."""
    return f"    {words:<{width}}{what}" if len(words) < width - 1 else f"    {words}\n    {'':<{width}}{what}"


def text() -> str:
    """All of it."""
    options = "\n".join(row(f"--{name} {value}".rstrip(), what, 24) for name, value, what in LISTED)
    commands = "\n".join(row(usage(name), one.what, WIDTH) for name, one in COMMANDS.items())
    return f"Reads and changes names of DNS zones at an office (zoneoffice).\n\nusage: office [OPTION]... COMMAND\n{commands}\n\n" \
        f"options:\n{options}\n\n{NOTES}"


def of_command(name: str) -> str:
    """What is to be known of a command."""
    one = COMMANDS[name]
    more = f"\n{one.more}" if one.more else ""
    return f"usage: {usage(name)}\n\n{one.what[0].upper()}{one.what[1:]}.{more}\n\noffice --help lists the options."
