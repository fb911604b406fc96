"""Looks at a page of `ddtplan report`: companion_page.py PAGE DIFF ROLLOUT

Its elements are closed, none of them is a script or loads something, and the cells of its rows are the fields of the lines
that `ddtplan diff` and `ddtplan rollout` wrote into the two files, line by line. The status is 1 where that isn't so.
"""
import html.parser
import sys

OPEN = {"meta", "br"}
FORBIDDEN = {"script", "link", "img", "iframe", "object", "embed", "form", "a", "base"}
TABLES = [["summary"], ["site"], ["zone"], ["group"], ["*", "["], ["step", "wait", "resolvers"], ["caches"]]


class Page(html.parser.HTMLParser):
    """The rows of a page, each as the texts of its cells."""

    def __init__(self):
        super().__init__()
        self.open, self.rows, self.heads = [], [], 0

    def handle_starttag(self, tag, attrs):
        assert tag not in FORBIDDEN, tag
        assert not [name for name, value in attrs if name in ("src", "href") or name.startswith("on")], attrs
        if tag not in OPEN:
            self.open.append(tag)
        if tag == "tr" and "tbody" in self.open:
            self.rows.append([])
        if tag == "td":
            self.rows[-1].append("")

    def handle_startendtag(self, tag, attrs):
        assert tag not in FORBIDDEN, tag

    def handle_endtag(self, tag):
        assert self.open.pop() == tag, tag

    def handle_data(self, data):
        if self.open and self.open[-1] == "td":
            self.rows[-1][-1] += data


def main():
    path, diff, rollout = sys.argv[1:]
    page = Page()
    with open(path, encoding="utf-8") as file:
        page.feed(file.read())
    page.close()
    assert page.open == [], page.open
    with open(diff, encoding="utf-8") as first, open(rollout, encoding="utf-8") as second:
        lines = [line for line in (first.read() + second.read()).split("\n") if line]
    wanted = [line.split("\t") for fronts in TABLES for line in lines if line.startswith(tuple(fronts))]
    assert page.rows == wanted, (page.rows, wanted)


main()
