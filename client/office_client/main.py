"""The client's way in: words, options, and the status. Modules that a command does not need are not loaded for it."""
# pylint: disable=import-outside-toplevel

import sys
from collections.abc import Callable
from typing import Any

from . import helping, options
from .tables import VERSION
from .telling import Bad, Lost, Refused, clean, flush, put, say


ENDED: dict[type[BaseException], str] = {MemoryError: "memory ran out", KeyboardInterrupt: "interrupted"}


def asked(arguments: list[str]) -> int | None:
    """Answers what asks for no office: help, the version and completions."""
    if arguments[:1] == ["complete"]:
        from . import completing
        completing.complete(arguments[1:])
        return 0
    given, words = options.read(arguments)
    if given.version:
        put(f"office {VERSION}")
        return 0
    if given.help or words[:1] == ["help"]:
        return print_help(words[1:] if words[:1] == ["help"] else words)
    if words[:1] == ["completion"]:
        from . import completing
        if len(words) != 2 or words[1] not in completing.SHELLS:
            raise Bad(f"usage: {helping.usage('completion')}: bash or zsh")
        put(completing.SHELLS[words[1]], end="")
        return 0
    return None


def print_help(words: list[str]) -> int:
    """The text on a command, or all of it."""
    names = [word for word in words if word in helping.COMMANDS]
    if words and not names:
        raise Bad(f"{words[0]} is not a command: the commands are {' '.join(helping.COMMANDS)}")
    put(helping.of_command(names[0]) if names else helping.text())
    return 0


def command_of(words: list[str], given: options.Options) -> tuple[str, list[str]]:
    """The command and its words, of which there are enough. A plan is a command that sends nothing."""
    if words[:1] == ["plan"]:
        words = words[1:]
        given.dry_run = True
        if not words or words[0] not in helping.CHANGING:
            raise Bad(f"usage: {helping.usage('plan')}, which is one of {' '.join(helping.CHANGING)}")
    if not words:
        raise Bad("a command is missing: office --help lists them")
    command, *rest = words
    if command not in helping.COMMANDS:
        raise Bad(f"{command} is not a command: the commands are {' '.join(helping.COMMANDS)}")
    most = helping.COMMANDS[command].most()
    if len(rest) < helping.COMMANDS[command].least() or most is not None and len(rest) > most:
        raise Bad(f"usage: {helping.usage(command)}")
    if given.strict and given.anyway:
        raise Bad("--strict and --anyway are opposites")
    return command, rest


def run(arguments: list[str]) -> int:
    """Does what the words ask for, and gives the status."""
    status = asked(arguments)
    if status is not None:
        return status
    given, words = options.read(arguments)
    command, rest = command_of(words, given)
    from .commands import RUN
    from .session import Session
    session = Session(given, command)
    return session.finish(reported(session.report, lambda: RUN[command](session, rest)))


def reported(report: dict[str, Any], work: Callable[[], int]) -> int:
    """The status of some work, whose failure is said, and kept for the report."""
    fields: dict[str, Any] = {}
    try:
        return work()
    except (Bad, Lost, OSError) as error:
        status, text = 2, str(error)
    except (MemoryError, KeyboardInterrupt) as error:
        status, text = 2, ENDED[type(error)]
    except Refused as error:
        status, text = 1, str(error)
        fields = {name: clean(value[:200]) if isinstance(value, str) else value for name, value in error.fields.items()
                  if name in ("code", "name", "refusal", "by", "item", "list")}
    report["error"] = {"text": text, **fields}
    for line in text.split("\n"):
        say(line)
    return status


def failed(arguments: list[str], text: str) -> int:
    """Says what is wrong with the words of the command line, also as a report where one is asked for."""
    say(text)
    if any(word.startswith("--j") and "--json".startswith(word) for word in arguments):
        from .update import compact
        command = next((word for word in arguments if word in helping.COMMANDS), "")
        put(compact({"command": command, "error": {"text": text}, "status": 2}))
        flush()
    return 2


def main() -> int:
    """Runs the client on the words of the command line."""
    arguments = sys.argv[1:]
    try:
        status = run(arguments)
        flush()
        return status
    except (Bad, Lost, OSError) as problem:
        return failed(arguments, str(problem))
    except (MemoryError, KeyboardInterrupt) as problem:
        return failed(arguments, ENDED[type(problem)])
