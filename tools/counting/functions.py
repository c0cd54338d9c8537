"""The functions of the product's crates, read by a small parser that knows comments, texts, clauses and blocks, and no types."""
import bisect
import functools
import re
from dataclasses import dataclass, field

from counting.sources import crate_of, product_sources, read

# Comments, texts, characters and lifetimes. What is in them becomes blank, so that columns stay.
SKIPPED = re.compile(r"//[^\n]*|/\*.*?\*/|b?r(#+)\".*?\"\1|b?\"(?:\\.|[^\"\\])*\"|b?'(?:\\(?:x..|u\{\w+\}|.)|[^\\'\n])'", re.S)
CLAUSE = re.compile(r"\b(?:requires|ensures|invariant|decreases)(?:\s+\w+)?\s*\{")
FUNCTION = re.compile(r"\bfn (\w+)")
HOLDER = re.compile(r"^(?:pub(?:\(crate\))? )?(?:(trait) (\w+)|impl(?:<[^{]*?>)? (?:([\w:]+)(?:<[^{]*?>)? for )?&?(?:'\w+ )?(?:mut )?([\w:]+))[^{;]*\{", re.M)
OPENED, CLOSED = "([{", ")]}"


@dataclass(eq=False)
class Function:
    """A function: where it is, the type or trait that holds it, the trait whose function it is, its parameters, and its body."""
    path: str
    line: int
    name: str
    holder: str
    trait: str
    parameters: list
    generics: str
    body: str
    raw_body: str
    crate: str = field(init=False)

    def __post_init__(self):
        self.crate = crate_of(self.path)

    def __str__(self):
        return f"{self.path}:{self.line} {self.holder + '::' if self.holder else ''}{self.name}"


def blanked(found):
    """Spaces in the place of a part, with its lines; a text keeps its quotes, since it is an argument."""
    text = re.sub(r"[^\n]", " ", found[0])
    return text if found[0].startswith("/") else '"' + text[1:-1] + '"'


def end_of(text, at):
    """The place behind the bracket that closes the one at a place."""
    depth = 0
    for place in range(at, len(text)):
        if text[place] in OPENED:
            depth += 1
        elif text[place] in CLOSED:
            depth -= 1
            if depth == 0:
                return place + 1
    return len(text)


def without_clauses(text):
    """A source in which the clauses of contracts and loops are blank."""
    at = 0
    while found := CLAUSE.search(text, at):
        end = end_of(text, found.end() - 1)
        text = text[:found.start()] + re.sub(r"[^\n]", " ", text[found.start():end]) + text[end:]
        at = found.start()
    return text


def parts(text):
    """What stands between commas that are in no brackets."""
    depth, start = 0, 0
    for at, letter in enumerate(text):
        if letter in OPENED + "<":
            depth += 1
        elif letter in CLOSED or letter == ">" and text[at - 1] not in "-=":
            depth -= 1
        elif letter == "," and depth == 0:
            yield text[start:at].strip()
            start = at + 1
    if text[start:].strip():
        yield text[start:].strip()


def end_of_generics(text, at):
    """The place behind the angle brackets that begin at a place, or the place."""
    if text[at] != "<":
        return at
    depth = 0
    for place in range(at, len(text)):
        if text[place] == "<":
            depth += 1
        elif text[place] == ">" and text[place - 1] != "-":
            depth -= 1
            if depth == 0:
                return place + 1
    return at


def holders(text):
    """The blocks of a source that hold functions: where they begin and end, what holds, and the trait whose functions they have."""
    for found in HOLDER.finditer(text):
        trait, of_trait, of_impl, holder = found.groups()
        name = (of_trait or holder).split("::")[-1]
        yield found.start(), end_of(text, found.end() - 1), name, name if trait else (of_impl or "").split("::")[-1]


def functions_of(path):
    """The functions of a file that have a body or are declared in a trait."""
    raw = read(path)
    text = without_clauses(SKIPPED.sub(blanked, raw))
    blocks, starts = list(holders(text)), [0, *(found.end() for found in re.finditer("\n", text))]
    for found in FUNCTION.finditer(text):
        opened = end_of_generics(text, found.end())
        closed = end_of(text, opened)
        stop = re.compile(r"[{;]").search(text, closed)
        end = end_of(text, stop.start()) if stop and stop[0] == "{" else closed
        body, raw_body = (text[stop.end():end - 1], raw[stop.end():end - 1]) if end > closed else (None, None)
        holder, trait = next(((name, of) for start, last, name, of in blocks if start < found.start() < last), ("", ""))
        yield Function(path, bisect.bisect(starts, found.start()), found[1], holder, trait, list(parts(text[opened + 1:closed - 1])),
                       text[found.end():opened] + text[closed:stop.start() if stop else closed], body, raw_body)


@functools.cache
def functions():
    """The functions of the product, in the order of their files."""
    return [one for path in product_sources() for one in functions_of(path)]


def with_bodies():
    return [one for one in functions() if one.body is not None]


# Measures of functions

def argument_names(function):
    """The names of the parameters, without `self`."""
    found = (re.match(r"(?:mut )?(\w+)\s*:", one) for one in function.parameters)
    return [one[1] for one in found if one]


def long_calls(least):
    """The functions with so many arguments or more, the receiver among them; a trait's function counts in the trait alone."""
    return [one for one in functions() if len(one.parameters) >= least and not (one.trait and one.holder != one.trait)]


def is_forward(function):
    """Whether a function that no trait asks for has one call as its body, with the same arguments in the same order and no others."""
    body = " ".join(function.body.split())
    found = re.fullmatch(r"(?:self(?:\.\w+)*\.)?(?:\w+::)*[a-z]\w*(?:::<[\w, ]*>)?(\(.*\))", body)
    if function.trait or not found or end_of(body, found.start(1)) != len(body):
        return False
    called = (re.sub(r"^(?:&mut |&|\*)", "", one) for one in parts(found[1][1:-1]))
    return [one for one in called if not re.fullmatch(r"self(?:\.\w+)*", one)] == argument_names(function)


def lines_of_body(function):
    """How many lines of a body have code."""
    return sum(1 for line in function.body.split("\n") if line.strip())


TOKEN = re.compile(r"\b(?:if|match|for|while|loop|else|let|in)\b|=>|[=!<>]=|[{}()\[\];=]")


def levels(body):
    """How many of `if`, `match`, `for`, `while` and `loop` stand in each other at the deepest place. Clauses of a pattern open none."""
    stack, deepest, waiting, in_pattern = [], 0, False, False
    for found in TOKEN.finditer(body):
        token = found[0]
        if token in ("if", "match", "for", "while", "loop", "else"):
            waiting, in_pattern = len(stack), token == "for"
        elif token == "let":
            in_pattern = waiting is not False
        elif token in ("=", "in"):
            in_pattern = False
        elif token in OPENED:
            counts = token == "{" and waiting is not False and waiting == len(stack) and not in_pattern
            stack.append(counts)
            if counts:
                waiting = False
            deepest = max(deepest, sum(stack))
        elif token in CLOSED and stack:
            stack.pop()
        elif token == ";":
            waiting = in_pattern = False
    return deepest
