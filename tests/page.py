#!/usr/bin/env python3
"""Whether a page of examples/page.py is well-formed, has no outside parts, and has the text that `arrange` prints.

    page.py PAGE ARRANGED     # two files
"""

import sys
from html.parser import HTMLParser

VOID = {"meta", "input"}
OUTSIDE = {"src", "srcset", "data", "action"}


class Page(HTMLParser):
    """Reads the first view: its headings and texts, without what was deleted and without references."""

    def __init__(self):
        super().__init__(convert_charrefs=True)
        self.open = []
        self.faults = []
        self.ids = []
        self.links = []
        self.printed = []

    def handle_starttag(self, tag, attrs):
        attrs = dict(attrs)
        if tag not in VOID:
            self.open.append((tag, attrs.get("class", "")))
        self.ids += [attrs["id"]] if "id" in attrs else []
        self.links += [attrs["href"]] if "href" in attrs else []
        self.faults += [f"outside part: {name}" for name in attrs if name in OUTSIDE or name.startswith("on")]

    def handle_endtag(self, tag):
        if not self.open or self.open[-1][0] != tag:
            self.faults.append(f"</{tag}> closes {self.open[-1:]}")
            return
        _, kind = self.open.pop()
        if self.is_in_first_view() and (tag == "h2" or kind == "text"):
            self.printed.append("\n")

    def is_in_first_view(self):
        return ("div", "view view-0") in self.open

    def handle_data(self, data):
        tags = [tag for tag, _ in self.open]
        if not self.is_in_first_view() or {"del", "sup"} & set(tags):
            return
        if "h2" in tags:
            self.printed.append(f"# {data}")
        elif ("div", "text") in self.open:
            self.printed.append(data)


def main(page_file, arranged_file):
    with open(page_file, encoding="utf-8", newline="") as file:
        text = file.read()
    with open(arranged_file, encoding="utf-8", newline="") as file:
        arranged = file.read()
    page = Page()
    page.feed(text)
    page.close()
    faults = page.faults + [f"left open: {tag}" for tag, _ in page.open]
    faults += ["an identifier stands twice"] if len(set(page.ids)) != len(page.ids) else []
    faults += [f"no part {link}" for link in page.links if link[:1] != "#" or link[1:] not in page.ids]
    faults += ["the text is not that of arrange"] if "".join(page.printed) != arranged else []
    for fault in faults:
        print(fault, file=sys.stderr)
    return 1 if faults else 0


if __name__ == "__main__":
    sys.exit(main(*sys.argv[1:]))
