"""The manual: all pages as HTML, with a menu and a search that need no server."""

import html
import json
import os
import posixpath
import re
import shutil
import subprocess
from html.parser import HTMLParser

from making import made, markup
from making.files import TOP, Wrong, read, write

ASSETS = "docs/making/assets"
NAMING = {"docs/proved.md": ("believe", "definitions", "proved"), "docs/formats.md": ("refusals",)}  # the pages that name those that are made
LINK = re.compile(r'\b(href|src)="([^"]+)"')


class Page:
    """A page: its path from the top, its text, and what is made of it."""

    def __init__(self, path, text):
        self.path, self.text = path, text
        self.name = posixpath.basename(path).removesuffix(".md")
        self.file = self.name + ".html"
        self.title = re.search(r"^# (.*)$", text, re.M)[1].replace("`", "")

    def convert(self):
        self.body = markup.html(self.text)
        self.sections = Sections(self.body).found
        self.anchors = {one["anchor"] for one in self.sections}


class Sections(HTMLParser):
    """What stands under each heading of a page."""

    def __init__(self, body):
        super().__init__()
        self.found, self.in_heading = [], False
        self.feed(body)

    def handle_starttag(self, tag, attributes):
        if re.fullmatch("h[1-6]", tag):
            self.found.append({"level": int(tag[1]), "anchor": dict(attributes)["id"], "heading": "", "text": ""})
            self.in_heading = True

    def handle_endtag(self, tag):
        if re.fullmatch("h[1-6]", tag):
            self.in_heading = False
        elif tag in ("p", "li", "td", "th", "pre") and self.found:
            self.found[-1]["text"] += " "

    def handle_data(self, text):
        if self.found:
            self.found[-1]["heading" if self.in_heading else "text"] += text


# The pages

def all_pages():
    """README.md, the pages in the order of the links at its end, those that are made after the one that names them, and the others."""
    paths = ["README.md", "CONTRIBUTING.md", "SECURITY.md", "CHANGELOG.md", "bench/RESULTS.md",
             *sorted(f"docs/{name}" for name in os.listdir(os.path.join(TOP, "docs")) if name.endswith(".md"))]
    pages = {path: Page(path, read(path)) for path in paths}
    pages.update((path, Page(path, page())) for path, page in made.PAGES.values())
    listed = re.findall(r"\]\(([^)#]+\.md)", read("README.md").rpartition("\n## More")[2])
    order = [path for path in ["README.md", *listed] if path in pages]
    for naming, names in NAMING.items():
        after = order.index(naming) + 1 if naming in order else len(order)
        order[after:after] = [made.PAGES[name][0] for name in names]
    return [pages[path] for path in dict.fromkeys([*order, *sorted(pages, key=lambda path: pages[path].title.lower())])]


def resolved(page, target):
    """The path from the top to which a link of a page leads."""
    return posixpath.normpath(posixpath.join(posixpath.dirname(page.path), target))


class Manual:
    def __init__(self):
        self.pages = all_pages()
        self.by_path = {page.path: page for page in self.pages}
        self.by_name = {page.name: page for page in self.pages}
        self.copied = {}

    def target(self, page, link):
        """Where a link of a page leads in the manual. What is no page is copied."""
        path, _, anchor = link.partition("#")
        if re.match(r"[a-z]+:", link):
            return link
        other = self.by_path.get(resolved(page, path)) if path else page
        if other is None:
            return self.copy(page, path)
        if anchor and anchor not in other.anchors:
            raise Wrong(f"{page.path}: the link {link} leads to no heading")
        return (other.file if path else "") + ("#" + anchor if anchor else "")

    def copy(self, page, path):
        whole = resolved(page, path)
        if not os.path.isfile(os.path.join(TOP, whole)):
            raise Wrong(f"{page.path}: the link {path} leads to no file")
        return self.copied.setdefault(whole, "files/" + whole.replace("/", "-"))

    def linked(self, page):
        """The body of a page with links within the manual, also where it names another page in code."""
        def named(found):
            other = self.by_name.get(found[1])
            return f'<a href="{other.file}">{found[0]}</a>' if other and other is not page else found[0]

        body = LINK.sub(lambda found: f'{found[1]}="{self.target(page, html.unescape(found[2]))}"', page.body)
        body = re.sub(r'(<h[23] id="([^"]+)">.*?)(</h[23]>)', r'\1 <a class="to" href="#\2" aria-label="This heading">#</a>\3', body, flags=re.S)
        parts = re.split(r"(<a .*?</a>)", body, flags=re.S)
        return "".join(part if at % 2 else re.sub(r"<code>(?:docs/(?:made/)?)?([\w-]+)\.md</code>", named, part) for at, part in enumerate(parts))

    def menu(self, current):
        """The menu, with the chapters of the current page."""
        for page in self.pages:
            here = ' aria-current="page"' if page is current else ""
            yield f'<li><a href="{page.file}"{here}>{html.escape(page.title)}</a>'
            chapters = [one for one in page.sections if one["level"] == 2] if page is current else []
            if chapters:
                yield "<ul>" + "".join(f'<li><a href="#{one["anchor"]}">{html.escape(one["heading"])}</a></li>' for one in chapters) + "</ul>"
            yield "</li>"

    def write(self, file, title, body, current=None):
        text = read(ASSETS, "page.html")
        for name, part in ("title", html.escape(title)), ("version", version()), ("menu", "\n".join(self.menu(current))), ("body", body):
            text = text.replace("{" + name + "}", part, 1)
        write(f"{made.HTML}/{file}", text)

    def contents(self):
        """The first page: each page with its first sentence."""
        lines = [f"<h1>zoneoffice {version()}</h1>", "<dl>"]
        for page in self.pages:
            first = re.sub(r"<[^>]*>", "", (re.search(r"<p>(.*?)</p>", page.body, re.S) or ["", ""])[1])
            sentence = re.match(r".*?[.:](?= |$)|.*", first, re.S)[0]
            lines.append(f'<dt><a href="{page.file}">{html.escape(page.title)}</a></dt><dd>{sentence}</dd>')
        return "\n".join([*lines, "</dl>"])

    def index(self):
        """The index of the search, as a script, since a page of a file reads no other file."""
        pages = [[page.file, page.title] for page in self.pages]
        sections = [[at, one["anchor"], one["heading"], " ".join(one["text"].split())] for at, page in enumerate(self.pages) for one in page.sections]
        return f"const PAGES = {json.dumps(pages)};\nconst SECTIONS = {json.dumps(sections, ensure_ascii=False)};\n"

    def make(self):
        for page in self.pages:
            page.convert()
        shutil.rmtree(os.path.join(TOP, made.HTML), ignore_errors=True)
        for page in self.pages:
            self.write(page.file, page.title, self.linked(page), page)
        self.write("index.html", "Manual", self.contents())
        write(f"{made.HTML}/index.js", self.index())
        for name in ("manual.css", "search.js"):
            write(f"{made.HTML}/{name}", read(ASSETS, name))
        for path, copy in self.copied.items():
            os.makedirs(os.path.dirname(os.path.join(TOP, made.HTML, copy)), exist_ok=True)
            shutil.copy(os.path.join(TOP, path), os.path.join(TOP, made.HTML, copy))


def version():
    return subprocess.run([os.path.join(TOP, "tools/version")], stdout=subprocess.PIPE, text=True, check=True).stdout.strip()


def make():
    markup.library()
    Manual().make()
