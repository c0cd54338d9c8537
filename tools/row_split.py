"""Which lines of stdout are the answer to which row of stdin.

A comment is a line of both files, and of no answer, so comments cut both into pieces of a few rows. In a piece each blank line of stdin
is one of stdout too, and each row has one line or more. Where that can be so in several ways, the answers that rows have elsewhere
say which: the way in which most rows have such an answer.
"""
import collections
from typing import Any, NamedTuple

from row_files import Refused, Row


class Way(NamedTuple):
    """Answers to the first rows of a piece: how many of them no such row has elsewhere, in how many ways that can be, and one of these."""

    new: int
    ways: int
    answers: Any  # the last answer, and those before it in the same form


def ways(piece, lines, known):
    """The best way to give the rows of a piece these lines, if there is one; known has answers by what is asked."""
    found = {0: Way(0, 1, None)}
    for at, part in enumerate(piece):
        below = len(piece) - at - 1
        after = {}
        for start, way in found.items():
            for end in ends(part, lines, start, len(lines) - below):
                answer = tuple(lines[start:end])
                other = way
                if isinstance(part, Row):
                    other = Way(way.new + (answer not in known[tuple(part.asked)]), way.ways, (answer, way.answers))
                after[end] = better(after.get(end), other)
        found = after
    return found.get(len(lines))


def ends(part, lines, start, last):
    """Where the lines of a part that begin at a line can end."""
    if isinstance(part, Row):
        return range(start + 1, last + 1)
    return [start + 1] if start < last and lines[start] == part else []


def better(one, other):
    """The better of two ways, or both as one where neither is."""
    if one is None or other.new < one.new:
        return other
    return one if one.new < other.new else one._replace(ways=one.ways + other.ways)


def pieces(lines):
    """What is between comments, and the comments."""
    found, comments = [[]], []
    for line in lines:
        if isinstance(line, str) and line.startswith(";"):
            comments.append(line)
            found.append([])
        else:
            found[-1].append(line)
    return found, comments


def give_answers(parts, lines, known):
    """Gives each row among the parts of stdin, the others of which are lines, its lines of stdout.

    known has answers by what is asked, and gets these too. The pieces that can be divided in one way only come first.
    """
    asked, comments = pieces(parts)
    answered, others = pieces(lines)
    if comments != others:
        at = next((at for at, pair in enumerate(zip(comments, others)) if pair[0] != pair[1]), min(len(comments), len(others)))
        raise Refused("stdin and stdout have other comments: {} and {}".format(*((*it[at:at + 1], "no more")[0] for it in (comments, others))))
    left = [pair for pair in zip(asked, answered) if pair != ([], [])]
    while left:
        undecided = []
        for piece, lines_of_it in left:
            way = ways(piece, lines_of_it, known)
            if way is not None and way.ways == 1:
                take(piece, way, known)
            else:
                undecided.append((piece, lines_of_it))
        if len(undecided) == len(left):
            raise Refused(refusal(*left[0], known))
        left = undecided


def take(piece, way, known):
    chain = way.answers
    for row in reversed([part for part in piece if isinstance(part, Row)]):
        row.wanted, chain = list(chain[0]), chain[1]
        known[tuple(row.asked)].add(tuple(row.wanted))


def refusal(piece, lines, known):
    """Why a piece is not divided. Its rows have their lines in stdin."""
    places = [f"stdin:{part.line}" for part in piece if isinstance(part, Row)]
    where = places[0] if places else "stdout"
    if ways(piece, lines, known) is None:
        return f"{where}: up to the next comment, stdout has not what the lines of stdin print"
    return f"{where}: which of the answers ends where is not clear: put a comment between the rows, in stdin and in stdout"


def known_of(sections):
    """The answers of rows, by what is asked."""
    known = collections.defaultdict(set)
    for section in sections:
        for row in section.rows():
            known[tuple(row.asked)].add(tuple(row.wanted))
    return known
