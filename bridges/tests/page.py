#!/usr/bin/env python3
"""Says what is wrong in the structure of a page: elements that aren't closed, or anything that would be fetched."""
import html.parser
import sys

ALONE = {"meta", "br"}


class Structure(html.parser.HTMLParser):
    def __init__(self):
        super().__init__()
        self.within, self.found = [], set()

    def handle_starttag(self, tag, attributes):
        self.found.add(tag)
        if tag not in ALONE:
            self.within.append(tag)
        for name, value in attributes:
            if name in ("src", "href") or (value and "://" in value):
                print(f"<{tag}> fetches {value}")

    def handle_startendtag(self, tag, attributes):
        self.found.add(tag)

    def handle_endtag(self, tag):
        if not self.within or self.within.pop() != tag:
            print(f"</{tag}> closes another element")


structure = Structure()
with open(sys.argv[1], encoding="utf-8") as page:
    structure.feed(page.read())
for tag in structure.within:
    print(f"<{tag}> isn't closed")
for tag in {"html", "title", "svg", "line", "table"} - structure.found:
    print(f"there is no <{tag}>")
