"""Pages of Markdown as HTML, by Debian's python3-markdown, with what GitHub does and it does not."""

import re
import sys

from making.files import Wrong

DEBIAN = "/usr/lib/python3/dist-packages"  # where Debian's packages are, which another python3 does not look into


def library():
    """The library, of this python3 or of Debian."""
    try:
        import markdown
    except ImportError:
        sys.path.append(DEBIAN)
        try:
            import markdown
        except ImportError:
            raise Wrong("the manual in HTML needs Debian's package python3-markdown: apt-get install python3-markdown") from None
    return markdown


def without_comments(text):
    """A page without its comments, on lines of their own or the marks within a line."""
    return re.sub(r"<!-- (?:made: [a-z ]+|end) -->", "", re.sub(r"^ {0,3}<!-- .* -->\n", "", text, flags=re.M))


def with_wide_lists(text):
    """What belongs to an item of a list, indented by four spaces, and an empty line before an item behind it, as the library wants."""
    lines, width = [], 0
    for line in text.split("\n"):
        item = re.match(r"(?:- |\d+\. )", line)
        if item:
            if lines and lines[-1] and not re.match(r"(?:- |\d+\. )", lines[-1]):
                lines.append("")
            width = item.end()
        elif line and not line.startswith(" " * width):
            width = 0
        lines.append(" " * (4 - width) + line if width and line and not item else line)
    return "\n".join(lines)


def with_bars(text):
    """Tables in which a bar within code has no backslash, which the library would show."""
    def bars(found):
        return re.sub(r"`[^`]*`", lambda code: code[0].replace("\\|", "|"), found[0])

    return re.sub(r"^\|.*$", bars, text, flags=re.M)


def anchor(heading):
    """The anchor of a heading by GitHub's rule: small letters, no punctuation, hyphens for spaces."""
    return re.sub(r"[^\w\- ]", "", heading.lower()).replace(" ", "-")


def anchors():
    """What makes the anchors of one page: those that were there before get a number."""
    seen = {}

    def next_anchor(heading, _):
        one = anchor(heading)
        seen[one] = seen.get(one, -1) + 1
        return f"{one}-{seen[one]}" if seen[one] else one

    return next_anchor


def html(text):
    """A page as HTML."""
    markdown = library()
    maker = markdown.Markdown(extensions=["tables", "fenced_code", "sane_lists", "toc"],
                              extension_configs={"toc": {"slugify": anchors(), "anchorlink": False}})
    maker.ESCAPED_CHARS = [*maker.ESCAPED_CHARS, "<", "|"]
    return maker.convert(with_bars(with_wide_lists(without_comments(text))))
