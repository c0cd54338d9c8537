"""The syntax of definitions (.antt) and of clauses: what a file imports and declares, and which names an expression leaves free."""

import re
from collections import namedtuple

from making.files import Wrong, read

# a comment, a text, a projection behind a bracket, a name with what it is reached by or projected to, or a sign
TOKEN = re.compile(r'--.*|"(?:[^"\\]|\\.)*"|(?<=[)}])(?:\.[^\s(){}.;,@"«»]+)+|(?:«[^»]+»|[^\s(){}.;,@"«»]+)(?:\.(?:«[^»]+»|[^\s(){}.;,@"«»]+))*|[(){}.;,@]')
SIGNS = set("→ × = : _ ← ⊔ Type record let in do λ ( ) { } . ; ,".split())
# what antt has and no definition here uses: it is refused, and not misread
UNREAD = set("axiom mutual ruleset deriving open elim where unfold mod syntax".split())
CLOSING = {"(": ")", "{": "}"}
USE = re.compile(r"(?P<pub>pub )?use (?P<path>[\w.+]+?)(?:\.\{(?P<names>.*)\}|(?: as (?P<alias>\S+))?)$", re.S)
# what begins a declaration, behind its marks
KIND = re.compile(r"(?:pattern |unfoldable |abbrev )*(?:pub )?(?:(record|data) )?")

Token = namedtuple("Token", "text line column")  # the column of what begins a line, from 1, and else 0
Import = namedtuple("Import", "name module of is_public")  # `of` is the name in the module, None where the module itself is brought in


def tokens(text, line=1):
    """The tokens of a text that begins on this line, without comments and texts."""
    found = []
    for at, one in enumerate(text.split("\n"), line):
        begun = [it for it in TOKEN.finditer(one) if not it[0].startswith(("--", '"'))]
        found += [Token(it[0], at, 0 if number else it.start() + 1) for number, it in enumerate(begun)]
    return found


def path_of(name):
    """The parts of a name: `types.«Type»` is `types`, `Type`."""
    return [part.strip("«»") for part in re.findall(r"«[^»]+»|[^.]+", name)] if "." in name or "«" in name else [name]


def is_name(text):
    return text not in SIGNS and not text[0].isdigit() and text[0] not in ".?"


def parts_of(name):
    """The words of an operator, as it stands between what it joins: `if`, `then` and `else` of `if◌then◌else◌`."""
    return [part for part in name.split("◌") if part] if "◌" in name else []


# Imports

def imports(path, text, line):
    """What a `use` brings in, by its text without a semicolon."""
    found = USE.fullmatch(" ".join(text.split()))
    if not found:
        raise Wrong(f"{path}:{line}: this use is not understood")
    module, is_public = found["path"], bool(found["pub"])
    if found["names"] is None:
        yield Import(found["alias"] or module.rpartition(".")[2], module, None, is_public)
        return
    for one in filter(None, (it.strip() for it in found["names"].split(","))):
        name, _, alias = one.partition(" as ")
        inner, _, last = name.strip().rpartition(".")
        yield Import((alias or last).strip("« »"), f"{module}.{inner}" if inner else module, last.strip("«»"), is_public)


# Names

class Expression:
    """Reads tokens, and yields those that are names which nothing in the expression binds.

    A binder holds up to the end of the brackets that it stands in, or to the next `,` or `;` there.
    """

    def __init__(self, found):
        self.tokens, self.at = found, 0

    def next_is(self, *texts, ahead=0):
        return self.at + ahead < len(self.tokens) and self.tokens[self.at + ahead].text in texts

    def take(self):
        self.at += 1
        return self.tokens[self.at - 1]

    def free(self, outer, *stops, column=None):
        """The free names up to one of the stops, to a line that begins in this column, or to the end."""
        bound, first = set(outer), self.at
        while self.at < len(self.tokens) and not self.next_is(*stops) and (self.at == first or self.tokens[self.at].column != column):
            token = self.take()
            if token.text in CLOSING:
                yield from self.bracket(CLOSING[token.text], bound)
            elif token.text == "λ":
                yield from self.binders(bound)
            elif token.text == "let":
                yield from self.definition(bound)
            elif token.text == "do":
                yield token._replace(text="◌>>=◌")
                yield from self.block(bound)
            elif token.text in ",;":
                bound = set(outer)
                self.skip_label()
            elif is_name(token.text) and path_of(token.text)[0] not in bound:
                yield token

    def skip_label(self):
        """Skips the name in front of `=`, of a field or of an implicit argument."""
        if self.next_is("=", ahead=1):
            self.at += 2

    def group(self):
        """The names of a binder, `x y` of `(x y : A)`; none if no binder stands here."""
        at = self.at
        while at < len(self.tokens) and (is_name(self.tokens[at].text) or self.tokens[at].text == "_"):
            at += 1
        if at == self.at or at == len(self.tokens) or self.tokens[at].text != ":":
            return []
        names = [token.text for token in self.tokens[self.at:at]]
        self.at = at + 1
        return names

    def levels(self):
        """The names up to the end of the brackets."""
        begun = self.at
        while not self.next_is(*CLOSING.values()):
            self.at += 1
        return [token.text for token in self.tokens[begun:self.at]]

    def bracket(self, closing, bound):
        """What stands in brackets, which may be a binder."""
        names = self.group()
        if not names and closing == "}":
            self.skip_label()
        yield from self.free(bound, closing)
        self.at += 1
        bound.update(names)

    def binders(self, bound):
        """The binders of a λ, up to its dot: names, names with their type, tuples."""
        names = set()
        while not self.next_is("."):
            token = self.take()
            typed = self.group() if token.text in CLOSING else []
            if typed:
                yield from self.free(bound | names, CLOSING[token.text])
                self.at += 1
            names.update(typed or [token.text])
        self.at += 1
        bound |= names

    def definition(self, bound):
        """What a `let` binds, from there on."""
        names = set()
        while not self.next_is(":", "="):
            names.add(self.take().text)
        yield from self.free(bound, "in")
        self.at += 1
        bound |= names

    def block(self, bound):
        """The lines of a `do`, each of which may bind a name for those behind it."""
        column = self.tokens[self.at].column
        while column and self.at < len(self.tokens) and self.tokens[self.at].column == column:
            names = {self.take().text, self.take().text} - {"←"} if self.next_is("←", ahead=1) else set()
            yield from self.free(bound, column=column)
            bound |= names


def free_names(found, bound=()):
    return Expression(found).free(bound)


def cut(found, sign):
    """The tokens before and behind the first such sign outside brackets."""
    depth = 0
    for at, token in enumerate(found):
        depth += (token.text in CLOSING) - (token.text in CLOSING.values())
        if depth == 0 and token.text == sign:
            return found[:at], found[at + 1:]
    return found, []


def bound_by(found):
    """The names of binders and of levels in brackets, one behind the other, in front of a colon: `{ℓ κ} (A B : Type ℓ)`."""
    reader, names, depth = Expression(found), set(), 0
    while reader.at < len(found):
        token = reader.take()
        if token.text in CLOSING and not depth:
            names.update(reader.group() or reader.levels())
        depth += (token.text in CLOSING) - (token.text in CLOSING.values())
    return names


# Declarations

class Declaration:
    """A definition as it stands: its lines with the comments among them, the comment above it, and what it declares."""

    def __init__(self, spec, line, lines, section):
        self.spec, self.line, self.lines, self.section = spec, line, lines, section
        self.fixity, self.comment, self.group = [], [], self
        marks = KIND.match(lines[0])
        self.kind = marks[1] or "function"
        self.head = tokens("\n".join([lines[0][marks.end():], *(lines[1:] if self.kind == "function" else [])]), line)
        self.clauses = []
        self.name = self.head[0].text.strip("«»")
        if self.name in UNREAD or self.kind != "function" and self.head.pop().text != "where":
            raise Wrong(f"{spec.path}:{line}: this declaration is not understood")
        self.constructors = [name for entry in self.entries() for name in names_of(entry)] if self.kind == "data" else []

    def add(self, found, lines, comment):
        """Adds a clause, with the comment above it."""
        self.lines = [*self.lines, *comment, *lines]
        self.clauses.append(found)

    def entries(self):
        """The fields of a record or the constructors of a type, as their tokens."""
        entries = []
        for at, text in enumerate(self.lines[1:], self.line + 1):
            if re.match(r"  (?!--)[^ ]", text):
                entries.append((at, [text.replace("pub ", "", 1)]))
            elif entries:
                entries[-1][1].append(text)
        return [tokens("\n".join(texts), at) for at, texts in entries]

    def is_of(self, found):
        """Whether a clause is of this definition: its name stands first, or its words as an operator do."""
        words = parts_of(self.name)
        left, _ = cut(found, "=")
        return left[0].text in (self.name, "unfolding") or any(token.text in words for token in left)

    def free(self, is_constructor):
        """The names that the definition uses, but its own and those that it binds."""
        outer = tokens(self.section or "")[2:-1]
        bound = bound_by(outer)
        yield from free_names(outer)
        if self.kind == "function":
            yield from self.free_in_function(bound, is_constructor)
        else:
            yield from self.free_in_type(bound)

    def free_in_function(self, bound, is_constructor):
        front, behind = cut(self.head, ":")
        yield from free_names(behind, bound | bound_by(front))
        for clause in self.clauses:
            left, right = cut(clause, "=")
            if left[0].text == "unfolding":
                yield from left[1:]
                continue
            names = set(bound)
            yield from self.pattern(left, names, is_constructor)
            yield from free_names(right, names)

    def pattern(self, left, bound, is_constructor):
        """The names that stand for constructors on the left of a clause; the others are bound."""
        own = [self.name, *parts_of(self.name)]
        for at, token in enumerate(left):
            is_label = left[at + 1:at + 2] and left[at + 1].text == "="
            if is_name(token.text) and token.text not in own and not is_label:
                if "." in token.text or is_constructor(token):
                    yield token
                else:
                    bound.add(token.text)

    def free_in_type(self, bound):
        yield from free_names(self.head[1:], bound)
        bound = bound | bound_by(cut(self.head[1:], ":")[0])
        for entry in self.entries():
            names, behind = cut(entry, ":")
            yield from free_names(behind, bound)
            if self.kind == "record":
                bound = bound | {token.text for token in names}


def names_of(entry):
    """The names of an entry of a body, in front of the colon."""
    return [token.text.strip("«»") for token in cut(entry, ":")[0]]


# Files

def chunks(lines, first):
    """What begins in the first column, with its line, the comment above it, and what is indented or closed below it."""
    found, comment = [], []
    for at, text in enumerate(lines, first):
        if not text.strip():
            comment = []
        if not text.strip() or text.startswith((" ", "}", ")", "]")):
            if found:
                found[-1][2].append(text)
        elif text.startswith("--") and not text.startswith("-- ----"):
            comment.append(text)
        else:
            found.append((at, comment, [text]))
            comment = []
    return [(at, above, "\n".join(texts).rstrip().split("\n")) for at, above, texts in found]


def words_of(names):
    """The operators among names, by each of their words."""
    found = {}
    for name in names:
        for word in parts_of(name):
            found.setdefault(word, []).append(name)
    return found


class Spec:
    """A file of definitions: what it imports, and what it declares, in order."""

    def __init__(self, path):
        self.path = path
        self.imports, self.declarations, self.by_name = {}, [], {}
        self.fixity, self.fixity_comment, self.group = [], [], None
        self.read(chunks(read(path).split("\n"), 1), None)
        self.words = words_of([*self.imports, *self.by_name])

    def read(self, found, section):
        for line, comment, lines in found:
            first = lines[0]
            if first.startswith(("use ", "pub use ")):
                self.bring(line, imports(self.path, "\n".join(lines), line))
            elif first.startswith("module "):
                self.read(chunks([one[2:] for one in lines[1:]], line + 1), first)
            elif first.startswith("infix"):
                self.fixity, self.fixity_comment = [first], comment
            elif first.startswith("-- ----"):
                self.group = None
            elif not first.startswith(("pub mod ", "mod ")):
                self.read_definition(line, comment, lines, section)

    def bring(self, line, found):
        for one in found:
            if self.imports.get(one.name, one) != one:
                raise Wrong(f"{self.path}:{line}: {one.name} is brought in twice")
            self.imports[one.name] = one

    def read_definition(self, line, comment, lines, section):
        """Reads a signature, a record or a type of cases, or a clause of the definition before it."""
        found = tokens("\n".join(lines), line)
        is_clause = not KIND.match(lines[0])[0] and bool(cut(found, "=")[1]) or found[0].text == "unfolding"
        if not is_clause:
            self.declare(Declaration(self, line, lines, section), comment)
        elif self.declarations and self.declarations[-1].is_of(found):
            self.declarations[-1].add(found, lines, comment)
        else:
            raise Wrong(f"{self.path}:{line}: this clause is of no definition")

    def declare(self, one, comment):
        one.comment, one.fixity = [*self.fixity_comment, *comment], self.fixity
        self.fixity, self.fixity_comment = [], []
        if one.fixity and not {one.name, *one.constructors} & set(one.fixity[0].split()):
            raise Wrong(f"{self.path}:{one.line}: {one.fixity[0]} is of no operator here")
        if one.comment or not self.group:
            self.group = one
        one.group = self.group
        self.declarations.append(one)
        for name in (one.name, *one.constructors):
            if name in self.by_name or name in self.imports:
                raise Wrong(f"{self.path}:{one.line}: two things are called {name}")
            self.by_name[name] = one
