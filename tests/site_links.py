"""Follows the links of a folder of pages: prints each that leads nowhere, and how many pages and links there are.

    site_links.py FOLDER

A link leads somewhere if it names a file of the folder, and, with an anchor, an element of that. A page may link to an
address of a network, but takes nothing from there. A call that a page names as code has to be a link as well.
"""

import html.parser
import pathlib
import sys
import urllib.parse

top = pathlib.Path(sys.argv[1]).resolve()


class Page(html.parser.HTMLParser):
    """The links and the anchors of a page, and what it has as code that isn't in a link, a heading or a block."""

    def __init__(self, file):
        super().__init__()
        self.links, self.anchors, self.sources, self.loose = [], set(), [], []
        self.inside = []
        self.feed(file.read_text())

    def handle_starttag(self, tag, attributes):
        values = dict(attributes)
        if "id" in values:
            self.anchors.add(values["id"])
        if tag == "a" and "href" in values:
            self.links.append(values["href"])
        if tag != "a" and ("href" in values or "src" in values):
            self.sources.append(values.get("href") or values.get("src"))
        if tag in ("a", "pre", "code", "h1", "h2", "h3", "h4", "nav"):
            self.inside.append(tag)

    def handle_endtag(self, tag):
        if tag in self.inside:
            while self.inside.pop() != tag:
                pass

    def handle_data(self, data):
        if self.inside == ["code"]:
            self.loose.append(data.removesuffix("()"))


pages = {file: Page(file) for file in sorted(top.rglob("*.html"))}
calls = {file.name.removesuffix(".3.html") for file in (top / "man").glob("*.3.html")}
count = 0
for file, page in pages.items():
    name = file.relative_to(top)
    for link in page.links + page.sources:
        parts = urllib.parse.urlsplit(link)
        count += 1
        target = (file.parent / urllib.parse.unquote(parts.path)).resolve() if parts.path else file
        if parts.scheme or parts.netloc:
            if link in page.sources:
                print(f"{name}: {link} is from elsewhere")
        elif top not in target.parents or not target.is_file():
            print(f"{name}: {link} leads nowhere")
        elif parts.fragment and urllib.parse.unquote(parts.fragment) not in pages[target].anchors:
            print(f"{name}: {link} leads to no element")
    for word in page.loose:
        if word in calls:
            print(f"{name}: {word} is no link")
print(len(pages), "pages", count, "links", len(calls), "calls")
