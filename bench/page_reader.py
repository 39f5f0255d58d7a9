"""Reads a page as a browser's user meets it: tables by their captions, figures by their names, the titles of bars; and what is missing of what a page needs. For `bench/manager`."""
from html.parser import HTMLParser

EMPTY = {"meta", "rect", "line", "br"}


class PageReader(HTMLParser):
    def __init__(self, text):
        super().__init__()
        self.tables, self.figures, self.bars, self.wrong, self.levels, self.open = {}, {}, [], [], [], []
        self.table, self.row, self.text, self.figure = None, None, None, None
        self.feed(text)
        self.close()

    def handle_starttag(self, name, attributes):
        given = dict(attributes)
        if name not in EMPTY:
            self.open.append(name)
        if name == "table":
            self.table = {"caption": None, "thead": [], "tbody": [], "tfoot": []}
        elif name == "tr":
            self.row = []
        elif name == "th" and given.get("scope") not in ("row", "col"):
            self.wrong.append("a th without a scope")
        elif name == "svg" and not given.get("aria-label") and given.get("aria-hidden") != "true":
            self.wrong.append("a picture without a label")
        elif name == "html" and not given.get("lang"):
            self.wrong.append("no language")
        elif name in ("h1", "h2", "h3"):
            self.levels.append(int(name[1]))
        elif name == "ul" and given.get("class") == "figures":
            self.figure = ""
        if name in ("caption", "th", "td", "title", "strong", "span"):
            self.text = ""

    def handle_startendtag(self, name, attributes):
        pass

    def handle_data(self, text):
        if self.text is not None:
            self.text += text

    def handle_endtag(self, name):
        if not self.open or self.open.pop() != name:
            self.wrong.append(f"an end of {name} out of place")
        if name == "caption":
            self.table["caption"] = self.text
        elif name in ("th", "td") and self.row is not None:
            self.row.append(self.text)
        elif name == "tr":
            self.table[next(it for it in reversed(self.open) if it in ("thead", "tbody", "tfoot"))].append(self.row)
            self.row = None
        elif name == "table":
            if not self.table["caption"] or self.table["caption"] in self.tables:
                self.wrong.append("a table without a caption of its own")
            self.tables[self.table["caption"]] = self.table
        elif name == "title" and "g" in self.open:
            self.bars.append(self.text)
        elif self.figure is not None and "ul" in self.open:
            self.reads_figure(name)
        if name == "ul":
            self.figure = None

    def reads_figure(self, name):
        if name == "span":
            self.figure = self.text
        elif name == "strong":
            self.figures[self.figure] = self.text

    def body(self, caption):
        """The rows of a table; none where it isn't there, as where it has none."""
        return self.tables[caption]["tbody"] if caption in self.tables else []

    def foot(self, caption):
        return self.tables[caption]["tfoot"][0] if caption in self.tables and self.tables[caption]["tfoot"] else []

    def faults(self):
        found = list(self.wrong)
        if self.open:
            found.append(f"{self.open} aren't ended")
        if self.levels.count(1) != 1 or self.levels[0] != 1 or any(it > before + 1 for before, it in zip(self.levels, self.levels[1:])):
            found.append(f"the levels of headings {self.levels}")
        return found
