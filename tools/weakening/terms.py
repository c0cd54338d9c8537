"""The expressions of antt as trees: types and proofs alike, read without a type in sight."""

from __future__ import annotations

import dataclasses
import functools
import re
from collections.abc import Iterator

from making import antt
from making.files import Wrong, read
from weakening.repository import antt_files

# from the loosest to the tightest; what is not here binds tighter
LOOSE = ("→", "↔", "⊎", "×")
OPENED = {"(": ")", "{": "}"}
CLOSING = frozenset(") } ] | ↦ ; , = : . in as where ← [".split())
BODIES = ("λ", "let", "do")  # what reaches to the end of the brackets that it is in


@dataclasses.dataclass(eq=False)
class Node:
    """A part of an expression: the tokens that it begins and ends with, by their places in the file."""
    start: antt.Token
    end: antt.Token = dataclasses.field(init=False)


@dataclasses.dataclass(eq=False)
class Name(Node):
    """A name, a numeral or a text, with the labels behind its dots."""
    path: list[str]


@dataclasses.dataclass(eq=False)
class Projection(Node):
    """What labels behind brackets take of a term."""
    of: Node
    path: list[str]


@dataclasses.dataclass(eq=False)
class Call(Node):
    """A term applied to others; an argument that is given by name has its name."""
    of: Node
    given: list[tuple[str | None, Node]]


@dataclasses.dataclass(eq=False)
class Infix(Node):
    """Terms with operators between them, the loosest alone: all of one strength."""
    signs: list[str]
    terms: list[Node]


@dataclasses.dataclass(eq=False)
class Binder(Node):
    """Names and their type, `(x y : A)` or `{x : A}`."""
    names: list[str]
    type: Node | None
    is_hidden: bool = False


@dataclasses.dataclass(eq=False)
class Lambda(Node):
    binders: list[Node]
    body: Node


@dataclasses.dataclass(eq=False)
class Let(Node):
    pattern: Node
    type: Node | None
    value: Node
    body: Node


@dataclasses.dataclass(eq=False)
class Cases(Node):
    """An `elim`: what is taken apart, if it stands there, and the cases."""
    of: Node | None
    rows: list[tuple[Node, Node]]


@dataclasses.dataclass(eq=False)
class Tuple(Node):
    items: list[Node]


@dataclasses.dataclass(eq=False)
class Literal(Node):
    """A record by its fields, with the record that has the others, if one is named."""
    base: Node | None
    fields: dict[str, Node]


@dataclasses.dataclass(eq=False)
class Row(Node):
    """A type of records without a name."""
    fields: dict[str, Node]


@functools.cache
def infixes() -> frozenset[str]:
    """The words of all operators that stand between two terms."""
    found = {word for path in antt_files() for word in re.findall(r"(?<![^\s{(,.])◌([^\s◌(){}.;,]+)◌(?![^\s}),:])", read(path))}
    return frozenset(found | {"→", "×"})


def tokens(text: str, line: int, margin: int = 0) -> list[antt.Token]:
    """The tokens of a text whose lines stand in so far, without comments."""
    found = []
    for at, one in enumerate(text.split("\n"), line):
        found += [antt.Token(it[0], at, it.start() + 1 + margin) for it in antt.TOKEN.finditer(one) if not it[0].startswith("--")]
    return found


class Reader:
    """Reads one expression from tokens."""

    def __init__(self, found: list[antt.Token], where: str) -> None:
        self.tokens, self.at, self.where, self.stops = found, 0, where, [()]
        self.texts = [one.text for one in found] + [""] * 3
        self.signs = infixes()

    def fail(self) -> Wrong:
        token = self.tokens[min(self.at, len(self.tokens) - 1)] if self.tokens else antt.Token("nothing", 0, 0)
        return Wrong(f"{self.where}:{token.line}: {token.text} is not understood here")

    def peek(self, ahead: int = 0) -> str:
        return self.texts[min(self.at + ahead, len(self.texts) - 1)]

    def take(self, *wanted: str) -> antt.Token:
        if self.at >= len(self.tokens) or wanted and self.peek() not in wanted:
            raise self.fail()
        self.at += 1
        return self.tokens[self.at - 1]

    def done(self, node: Node) -> Node:
        node.end = self.tokens[self.at - 1]
        return node

    def whole(self) -> Node:
        found = self.term()
        if self.at != len(self.tokens):
            raise self.fail()
        return found

    # Terms

    def term(self) -> Node:
        """A term with its operators, up to what closes or separates it."""
        begun, terms, signs = self.at, [self.operand()], []
        while self.texts[self.at] in self.signs:
            signs.append(self.take().text)
            terms.append(self.operand())
        return self.grouped(terms, signs, begun)

    def grouped(self, terms: list[Node], signs: list[str], begun: int) -> Node:
        """The terms by the strength of what is between them."""
        if len(terms) == 1:
            return terms[0]
        loosest = next((sign for sign in LOOSE if sign in signs), None)
        if loosest is None:
            return self.joined(Infix(terms[0].start, signs, terms), terms)
        parts, between, first = [], [], 0
        for at, sign in enumerate([*signs, loosest]):
            if sign == loosest:
                parts.append(self.grouped(terms[first:at + 1], signs[first:at], begun))
                first = at + 1
                between.append(sign)
        return self.joined(Infix(terms[0].start, between[:-1], parts), terms)

    @staticmethod
    def joined(node: Node, terms: list[Node]) -> Node:
        node.end = terms[-1].end
        return node

    def operand(self) -> Node:
        """What stands between operators: something applied, or a binder or several in front of an arrow."""
        text = self.texts[self.at]
        if text in BODIES:
            return self.body()
        if text == "¬":
            begun = self.take()
            sign = self.done(Name(begun, ["¬"]))
            return self.done(Call(begun, sign, [(None, self.operand())]))
        if text == "if":
            return self.choice()
        return self.applied(self.atom())

    def applied(self, first: Node) -> Node:
        """A term with its arguments."""
        given: list[tuple[str | None, Node]] = []
        while self.begins_atom():
            if self.peek() == "{" and self.peek(2) == "=":
                given.append(self.by_name())
            elif self.texts[self.at] in BODIES:
                given.append((None, self.body()))
                break
            else:
                given.append((None, self.atom()))
        return self.done(Call(first.start, first, given)) if given else first

    def by_name(self) -> tuple[str, Node]:
        """An argument that is given by name, `{x = e}`."""
        self.take("{")
        name = self.take().text
        self.take("=")
        found = self.term()
        self.take("}")
        return name, found

    def begins_atom(self) -> bool:
        text = self.texts[self.at]
        return bool(text) and text not in CLOSING and text not in self.stops[-1] and text not in self.signs

    def atom(self) -> Node:
        """A term that needs no brackets, with what is taken of it."""
        text = self.peek()
        if text == "(" or text == "{":
            found = self.bracketed()
        elif text == "record":
            found = self.record()
        elif text == "elim":
            found = self.cases()
        else:
            begun = self.take()
            if begun.text in (")", "}", "]", "|", "↦", ";", ",", "=", ":", "."):
                self.at -= 1
                raise self.fail()
            is_plain = begun.text[0] in "\"?" or begun.text[0].isdigit()
            found = self.done(Name(begun, [begun.text] if is_plain else antt.path_of(begun.text)))
        while self.texts[self.at].startswith(".") and len(self.texts[self.at]) > 1:
            behind = self.take()
            found = self.done(Projection(found.start, found, antt.path_of(behind.text[1:])))
        return found

    def bracketed(self) -> Node:
        """A binder, a tuple, or a term in brackets."""
        begun = self.take("(", "{")
        closing = OPENED[begun.text]
        self.stops.append(())
        found = self.inside(begun, closing)
        self.stops.pop()
        return found

    def inside(self, begun: antt.Token, closing: str) -> Node:
        """What stands in brackets, with them."""
        names = self.names()
        if names:
            kind = self.term()
            self.take(closing)
            return self.done(Binder(begun, names, kind, closing == "}"))
        if closing == "}":  # an implicit argument that a pattern binds, or levels
            inner = [self.take() for _ in iter(lambda: self.peek() != "}", False)]
            self.take("}")
            return self.done(Binder(begun, [one.text for one in inner if antt.is_name(one.text)], None, True))
        if self.peek() == ")":
            self.take()
            return self.done(Tuple(begun, []))
        items = [self.term()]
        while self.peek() == ",":
            self.take()
            items += [self.term()] if self.peek() != ")" else []
        self.take(")")
        return self.done(Tuple(begun, items))

    def names(self) -> list[str]:
        """The names of a binder; none if no binder stands here."""
        at = 0
        while antt.is_name(self.peek(at) or ".") or self.peek(at) == "_":
            at += 1
        if not at or self.peek(at) != ":":
            return []
        names = [self.take().text for _ in range(at)]
        self.take(":")
        return names

    def record(self) -> Node:
        """A record by its fields, or a type of records without a name."""
        begun = self.take("record")
        base = self.atom() if self.peek() != "{" else None
        self.take("{")
        self.stops.append(())
        fields, is_type = {}, False
        while self.peek() != "}":
            label = self.take().text.strip("«»")
            is_type = self.take("=", ":").text == ":"
            fields[label] = self.term()
            if self.peek() == ";":
                self.take()
        self.take("}")
        self.stops.pop()
        return self.done(Row(begun, fields) if is_type else Literal(begun, base, fields))

    def choice(self) -> Node:
        """`if`, `then` and `else` as a call with three arguments."""
        begun = self.take("if")
        sign = self.done(Name(begun, ["if"]))
        self.stops.append(("then", "else"))
        given = [self.term()]
        self.take("then")
        given.append(self.term())
        self.stops.pop()
        self.take("else")
        given.append(self.term())
        return self.done(Call(begun, sign, [(None, one) for one in given]))

    def cases(self) -> Node:
        """An `elim` with its cases."""
        begun = self.take("elim")
        of = None
        if self.peek() not in ("[", "[]"):
            of = self.atom()
        if self.peek() == "as":
            self.take()
            while self.peek() not in ("[", "[]"):
                self.atom()
        rows = []
        self.stops.append(())
        if self.take("[", "[]").text == "[":
            while self.peek() != "]":
                if self.peek() == "|":
                    self.take()
                pattern = self.term()
                self.take("↦")
                rows.append((pattern, self.term()))
            self.take("]")
        self.stops.pop()
        return self.done(Cases(begun, of, rows))

    # What reaches to the end

    def body(self) -> Node:
        return {"λ": self.function, "let": self.definition, "do": self.block}[self.peek()]()

    def function(self) -> Node:
        begun, binders = self.take("λ"), []
        while self.peek() != ".":
            binders.append(self.atom())
        self.take(".")
        return self.done(Lambda(begun, binders, self.term()))

    def definition(self) -> Node:
        begun = self.take("let")
        pattern, kind = self.atom(), None
        if self.peek() == ":":
            self.take()
            kind = self.term()
        self.take("=")
        value = self.term()
        self.take("in")
        return self.done(Let(begun, pattern, kind, value, self.term()))

    def block(self) -> Node:
        """The lines of a `do`, as calls in each other."""
        begun = self.take("do")
        column, rows = self.tokens[self.at].column, []
        while self.at < len(self.tokens) and self.tokens[self.at].column == column:
            pattern = None
            if self.peek(1) == "←":
                pattern = self.atom()
                self.take("←")
            inner = Reader(self.tokens[self.at:self.end_of_line(column)], self.where)
            rows.append((pattern, inner.term()))
            self.at += inner.at
        return self.done(Tuple(begun, [term for _, term in rows]))

    def end_of_line(self, column: int) -> int | None:
        """Where the next line of a `do` begins."""
        line = self.tokens[self.at].line
        return next((at for at, one in enumerate(self.tokens) if at > self.at and one.column == column and one.line != line), None)


def parsed(found: list[antt.Token], where: str) -> Node:
    return Reader(found, where).whole()


def parts(node: Node) -> Iterator[Node]:
    """What stands right below a node."""
    for field in dataclasses.fields(node):
        value = getattr(node, field.name, None)
        if isinstance(value, Node):
            yield value
        elif isinstance(value, dict):
            yield from value.values()
        elif isinstance(value, list):
            for one in value:
                yield from (it for it in (one if isinstance(one, tuple) else (one,)) if isinstance(it, Node))


def walk(node: Node) -> Iterator[Node]:
    yield node
    for part in parts(node):
        yield from walk(part)
