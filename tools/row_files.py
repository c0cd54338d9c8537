"""What a file of rows holds: how it is read, and what it says of a line that it cannot read."""
import contextlib
import glob
import os
import re
import tempfile
from typing import NamedTuple

TOP = os.path.dirname(os.path.dirname(os.path.abspath(__file__)))
FOLDER = os.path.join(TOP, "crates/test_all")
ROWS = os.path.join(FOLDER, "rows")

# Rows that need none of those above are run so many at a time, so that what differs is shown as it is found.
BATCH = 64

# What a line is, by its form.
FORMS = {
    "head": re.compile(r"#.*"),
    "blank": re.compile(r""),
    "comment": re.compile(r";.*"),
    "row": re.compile(r"(?!section\b)[a-z][a-z0-9-]*(?: .*)?"),
    "body": re.compile(r"\|(?:-? .*)?"),
    "answer": re.compile(r"=(?: .*)?"),
}
# What a line of some forms has to be below; "" is the head of the file.
BELOW = {"head": ("", "head"), "body": ("row", "body"), "answer": ("row", "body", "answer")}
NO_ANSWER = "the row above has no answer: a line `= TEXT` for each line that it prints"
PLAIN = re.compile(r"[ -~]*")
# An octet, as <0D>, and a repetition, as <a*63>.
SPELLED = re.compile(r"<(?:[0-9A-Fa-f]{2}|[^<>*]*\*[0-9]+)>")
# At the head of a file: by which verbs rows begin a case, and which rows above it each case needs, the last of a verb.
CASES = re.compile(r"# A case begins with ([a-z, -]+)(?:; each needs ([a-z, -]+))?\.")


class Refused(Exception):
    """Why nothing can be said, in words."""


class Row:
    """A row, and the lines of its wanted answer, which are below it."""

    def __init__(self, first, line, text):
        self.first, self.line, self.asked, self.wanted = first, line, [text], []

    def verb(self):
        return self.asked[0].partition(" ")[0]

    def last(self):
        return self.line + len(self.asked) + len(self.wanted) - 1

    def line_of_answer(self, at):
        """Where a line of the answer is; that of the last one for those that it does not have."""
        return min(self.line + len(self.asked) + at, self.last())


class Run(NamedTuple):
    """Rows that are run together, and those above that these need."""

    needed: list
    rows: list


class Section:
    """The rows of a section, in a file or in stdin, and what is between them: a part is a Row, or a comment or blank line as (line, text)."""

    def __init__(self, name, file):
        self.name, self.file, self.head, self.parts = name, file, [], []

    def add(self, form, line, text, first):
        """Adds a line of a form; first is the line at which the comment right above it begins, or this one."""
        if form == "head":
            self.head.append(text)
        elif form == "row":
            self.parts.append(Row(first, line, text))
        elif form == "body":
            self.parts[-1].asked.append(text)
        elif form == "answer":
            self.parts[-1].wanted.append(text[2:])
        else:
            self.parts.append((line, text))

    def place(self, line):
        return f"{self.file}:{line}"

    def rows(self):
        return [part for part in self.parts if isinstance(part, Row)]

    def verbs_of_cases(self):
        """The verbs of the rows that begin a case, and those of the rows that each case needs."""
        begin, need = [], []
        for line, text in enumerate(self.head, 1):
            if text.startswith("# A case"):
                found = CASES.fullmatch(text)
                begin, need = (words.split(", ") if words else [] for words in found.groups()) if found else ([], [])
                known = {row.verb() for row in self.rows()}
                if not found or not known.issuperset(begin + need):
                    raise Refused(f"{self.place(line)}: not `# A case begins with VERB, ..; each needs VERB, ...`, with verbs of rows below")
        return begin, need

    def runs(self, keeps):
        """The rows as they are run; keeps says whether an answer can rest on what rows above it left."""
        rows = self.rows()
        if not keeps:
            return [Run([], rows[at:at + BATCH]) for at in range(0, len(rows), BATCH)]
        begin, need = self.verbs_of_cases()
        runs, last = [Run([], [])], {}
        for row in rows:
            if row.verb() in begin:
                runs.append(Run(list(last.values()), []))
            if row.verb() in need:
                last.pop(row.verb(), None)
                last[row.verb()] = row
            runs[-1].rows.append(row)
        return [run for run in runs if run.rows]

    def run_at(self, line, keeps):
        """The run of the one row at a line, which may be any line of it, of its answer, or of the comment right above it."""
        for run in self.runs(keeps):
            for place, row in enumerate(run.rows):
                if row.first <= line <= row.last():
                    return Run(run.needed + run.rows[:place] if keeps else [], [row])
        raise Refused(f"{self.place(line)}: no row is at that line")

    def asked(self):
        """The lines that go to stdin, each with its place."""
        for part in self.parts:
            if isinstance(part, Row):
                yield from ((text, self.place(part.line + at)) for at, text in enumerate(part.asked))
            else:
                yield part[1], self.place(part[0])

    def wanted(self):
        """The lines that go to stdout, each with its place."""
        for part in self.parts:
            if isinstance(part, Row):
                yield from ((text, self.place(part.line_of_answer(at))) for at, text in enumerate(part.wanted))
            else:
                yield part[1], self.place(part[0])

    def text(self):
        """The text of its file."""
        lines = [*self.head]
        for part in self.parts:
            if isinstance(part, Row):
                lines += [*part.asked, *(f"= {text}" if text else "=" for text in part.wanted)]
            else:
                lines.append(part[1])
        return "".join(f"{line}\n" for line in lines)


def lines_of(path):
    """The lines of a file, octet for octet."""
    try:
        with open(path, encoding="latin-1", newline="") as file:
            text = file.read()
    except OSError as error:
        raise Refused(f"{path}: {error.strerror}") from None
    if text and not text.endswith("\n"):
        raise Refused(f"{path}: the last line has no line end")
    return text.split("\n")[:-1]


def form_of(text):
    """The form of a line, or what is wrong with it."""
    if not PLAIN.fullmatch(text):
        raise Refused("an octet outside printable ASCII: write it as <0D>")
    form = next((form for form, pattern in FORMS.items() if pattern.fullmatch(text)), None)
    if form is None:
        raise Refused("no row `VERB TEXT`, no body `| TEXT` or `|- TEXT`, no answer `= TEXT` or `=`, no comment and not blank")
    if form in ("row", "body") and "<" in SPELLED.sub("", text):
        raise Refused("`<` begins neither an octet, as <0D>, nor a repetition, as <a*63>")
    return form


def refuse_below(form, before, has_answers):
    """Refuses a line of a form below one of another, where it cannot be; before is "" at the head of a file."""
    if form in ("head", "answer") and not has_answers:
        raise Refused(f"a line `{'#' if form == 'head' else '='}`, which only a file of rows has")
    if has_answers and before in ("row", "body") and form not in ("body", "answer"):
        raise Refused(NO_ANSWER)
    if form in BELOW and before not in BELOW[form]:
        raise Refused({"head": "a line `#` below others", "body": "a body without its row", "answer": "an answer without its row"}[form])


def parsed(section, lines, start=1, has_answers=True):
    """The section with these lines of its file, from a line on, of which each row has an answer, or none has."""
    before, first = "", start
    for line, text in enumerate(lines, start):
        try:
            form = form_of(text)
            refuse_below(form, before, has_answers)
        except Refused as why:
            raise Refused(f"{section.place(line)}: {why}") from None
        first = first if before == "comment" else line
        section.add(form, line, text, first)
        before = form
    if has_answers and before in ("row", "body"):
        raise Refused(f"{section.place(start + len(lines))}: {NO_ANSWER}")
    return section


def path_of(name):
    return os.path.join(ROWS, f"{name}.rows")


def read_section(name):
    return parsed(Section(name, f"{name}.rows"), lines_of(path_of(name)))


def read_sections(known):
    """The sections of these names, besides which there is none."""
    for file in sorted(glob.glob("*.rows", root_dir=ROWS)):
        if file.removesuffix(".rows") not in known:
            raise Refused(f"{file}: crates/test_all/src/sections.rt has no section of this name")
    return [read_section(name) for name in known]


def write_files(texts):
    """Writes files by their paths, and none before each is whole in a file beside it."""
    ready = []
    try:
        for path, text in texts.items():
            with tempfile.NamedTemporaryFile("w", encoding="ascii", newline="", dir=os.path.dirname(path), prefix=".new-", delete=False) as file:
                ready.append((file.name, path))
                file.write(text)
            os.chmod(file.name, 0o644)
        for name, path in ready:
            os.replace(name, path)
    finally:
        for name, _ in ready:
            with contextlib.suppress(FileNotFoundError):
                os.remove(name)
