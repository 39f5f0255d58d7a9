"""Parts of a manager's pages: elements of HTML, tables, figures, whole pages, and the same rows as CSV.

Each text is escaped where it is put into an element; only `Markup` is taken as it is. A page is one file without a script, and asks for nothing from elsewhere.
"""
import csv
import dataclasses
import datetime
import html
import io
import re

STYLE = """
:root{color-scheme:light;--paper:#ffffff;--ink:#1b1f24;--soft:#57606a;--line:#d5dae0;--band:#f4f6f8;--mark:#0b6b8a;--other:#a9690c;--warn:#9a3412}
@media screen and (prefers-color-scheme:dark){:root{color-scheme:dark;--paper:#15181c;--ink:#e6e9ec;--soft:#a3adb8;--line:#3a424b;--band:#1e2328;--mark:#58b4d4;--other:#e0ac55;--warn:#f4a57d}}
*{box-sizing:border-box}
body{margin:0 auto;max-width:64rem;padding:1.5rem 1.25rem 3rem;background:var(--paper);color:var(--ink);font:1rem/1.5 system-ui,-apple-system,"Segoe UI",Roboto,"DejaVu Sans",sans-serif}
h1{font-size:1.6rem;line-height:1.2;margin:0}
h2{font-size:1.2rem;line-height:1.3;margin:2.5rem 0 .5rem}
p{margin:.4rem 0;max-width:44rem}
a{color:var(--mark)}
.soft,figcaption,footer{color:var(--soft);font-size:.875rem}
.notice{border-left:3px solid var(--warn);padding:.1rem .75rem;margin:1rem 0}
.notice strong{color:var(--warn)}
nav ul{display:flex;flex-wrap:wrap;gap:.25rem 1.25rem;list-style:none;margin:1rem 0 0;padding:.5rem 0;border-top:1px solid var(--line);border-bottom:1px solid var(--line)}
ul.figures{display:grid;grid-template-columns:repeat(auto-fill,minmax(11rem,1fr));gap:.75rem;list-style:none;margin:1.25rem 0;padding:0}
ul.figures li{background:var(--band);border:1px solid var(--line);border-radius:.4rem;padding:.6rem .8rem}
ul.figures span,ul.figures strong,ul.figures small{display:block}
ul.figures span{color:var(--soft);font-size:.875rem}
ul.figures strong{font-size:1.35rem;font-weight:600;font-variant-numeric:tabular-nums}
ul.figures small{color:var(--soft);font-size:.8125rem}
.wide{overflow-x:auto;margin:.75rem 0 1.25rem}
table{border-collapse:collapse;min-width:min(100%,24rem);font-size:.9375rem;font-variant-numeric:tabular-nums}
caption{text-align:left;font-weight:600;padding:.25rem 0 .4rem}
th,td{padding:.3rem .9rem .3rem 0;text-align:left;vertical-align:top;border-bottom:1px solid var(--line)}
th:last-child,td:last-child{padding-right:0}
thead th{color:var(--soft);font-weight:600;font-size:.8125rem;border-bottom:1px solid var(--soft);vertical-align:bottom}
tbody th{font-weight:400}
tfoot th,tfoot td{font-weight:600;border-bottom:0;border-top:1px solid var(--soft)}
.n{text-align:right;white-space:nowrap}
thead .n{white-space:normal}
time,.k{white-space:nowrap}
.none{color:var(--soft)}
figure{margin:1rem 0 1.5rem;overflow-x:auto}
figure svg{display:block;width:100%;min-width:34rem;height:auto}
figcaption{font-size:1rem;font-weight:600;color:var(--ink)}
.legend{color:var(--soft);font-size:.875rem;margin:.1rem 0 .4rem}
.legend span{margin-right:1.25rem}
.legend svg{display:inline;width:.75rem;height:.75rem;min-width:0}
svg text{font:12px system-ui,-apple-system,"Segoe UI",Roboto,"DejaVu Sans",sans-serif;fill:var(--soft);font-variant-numeric:tabular-nums}
svg .value{fill:var(--ink)}
svg .grid{stroke:var(--line);stroke-width:1}
svg .axis{stroke:var(--soft);stroke-width:1}
svg .bar{fill:var(--mark)}
svg .other{fill:var(--other)}
footer{margin-top:3rem;border-top:1px solid var(--line);padding-top:.5rem}
@media print{
@page{margin:15mm}
:root{font-size:10pt}
body{max-width:none;padding:0}
nav,.files{display:none}
a{color:inherit;text-decoration:none}
h2{break-after:avoid}
figure,tr,ul.figures li,.notice{break-inside:avoid}
.wide,figure{overflow:visible}
table{font-size:.85rem}
th,td{padding-right:.6rem}
figure svg{min-width:0;max-width:150mm}
thead{display:table-header-group}
tfoot{display:table-row-group}
caption{break-after:avoid}
}
""".strip()
MONTHS = "January February March April May June July August September October November December".split()
MINUS = "\N{MINUS SIGN}"


class Markup(str):
    """A text that is HTML already."""


def escape(value):
    return value if isinstance(value, Markup) else Markup(html.escape(str(value)))


def element(name, *children, **attributes):
    """Returns an element. `class_` is the attribute class, `aria_label` is aria-label; an attribute that is None is left out."""
    words = "".join(f' {key.rstrip("_").replace("_", "-")}="{html.escape(str(value))}"' for key, value in attributes.items() if value is not None)
    return Markup(f"<{name}{words}>{''.join(map(escape, children))}</{name}>")


def empty(name, **attributes):
    """Returns an element of SVG that has nothing in it."""
    return Markup(element(name, **attributes).removesuffix(f"></{name}>") + "/>")


def joined(parts):
    return Markup("".join(map(escape, parts)))


def dollars(cents):
    """Returns cents as 1234.50, or -1234.50."""
    return f"{'-' if cents < 0 else ''}{abs(cents) // 100}.{abs(cents) % 100:02}"


def money(cents):
    """Returns cents as $1,234.50; below zero with a minus sign."""
    return f"{MINUS if cents < 0 else ''}${abs(cents) // 100:,}.{abs(cents) % 100:02}"


def day_text(day):
    """Returns 2026-03-01 as 1 March 2026."""
    year, month, number = day.split("-")
    return f"{int(number)} {MONTHS[int(month) - 1]} {int(year)}"


def month_text(month):
    year, number = month.split("-")
    return f"{MONTHS[int(number) - 1]} {int(year)}"


def moment_text(moment):
    """Returns 2026-03-01T10:00:00 as 1 March 2026, 10:00."""
    return f"{day_text(moment[:10])}, {moment[11:16]}"


def days_before(day, count):
    """Returns the day that is so many days earlier, or the calendar's first."""
    found = datetime.date.fromisoformat(day)
    return (found - datetime.timedelta(days=min(count, (found - datetime.date(1970, 1, 1)).days))).isoformat()


def months_to(month, count):
    """Returns so many months up to this one, the earliest first."""
    found = [month]
    while len(found) < count:
        found.append(days_before(found[-1] + "-01", 1)[:7])
    return sorted(set(found))


def time(value, text):
    return element("time", text, datetime=value)


# How the values of each kind of column are shown on a page.
SHOWN = {
    "text": escape,
    "phone": lambda it: element("span", it, class_="k"),
    "id": escape,
    "number": lambda it: f"{it:,}",
    "money": money,
    "day": lambda it: time(it, day_text(it)),
    "month": lambda it: time(it, month_text(it)),
    "moment": lambda it: time(it, moment_text(it)),
}


@dataclasses.dataclass(frozen=True)
class Column:
    """A column of a report: its name there, its heading on a page, its kind, and whether the page adds it up."""

    name: str
    heading: str
    kind: str = "text"
    is_summed: bool = False

    def cell(self, row):
        value = row[self.name]
        return "" if value is None else SHOWN[self.kind](value)

    @property
    def side(self):
        """The class of its cells: numbers are on the right."""
        return "n" if self.kind in ("id", "number", "money") else None

    @property
    def csv_name(self):
        """Its name in a file of CSV, where money is in dollars."""
        if self.kind != "money":
            return self.name
        return "dollars" if self.name == "cents" else f"{self.name}_dollars"


def table(caption, columns, rows, most=None, rest="", none="None."):
    """Returns a table of rows, or the caption and `none` if there is no row. Of more rows than `most` the first ones are shown, and `rest` says where all are."""
    if not rows:
        return element("p", element("strong", caption), ": ", element("span", none, class_="none"))
    shown = rows if most is None else rows[:most]
    heads = joined(element("th", it.heading, scope="col", class_=it.side) for it in columns)
    first, others = columns[0], columns[1:]
    body = joined(element("tr", element("th", first.cell(row), scope="row", class_=first.side), *(element("td", it.cell(row), class_=it.side) for it in others), Markup("\n")) for row in shown)
    parts = [element("caption", caption), element("thead", element("tr", heads)), Markup("\n"), element("tbody", body)]
    if any(it.is_summed for it in columns):
        sums = [SHOWN[it.kind](sum(row[it.name] or 0 for row in rows)) if it.is_summed else "" for it in others]
        parts.append(element("tfoot", element("tr", element("th", "All", scope="row"), *(element("td", text, class_=it.side) for it, text in zip(others, sums)))))
    more = element("p", f"The first {most:,} of {len(rows):,} rows. {rest}", class_="soft") if len(shown) < len(rows) else ""
    return joined([element("div", element("table", *parts), class_="wide", role="region", tabindex="0", aria_label=caption), more])


def figures(pairs):
    """Returns key figures: each with its name, its text, and a note that may be empty."""
    boxes = (element("li", element("span", name), " ", element("strong", text), " ", element("small", note) if note else "") for name, text, note in pairs)
    return element("ul", *boxes, class_="figures")


def notice(strong, text):
    return element("p", element("strong", strong), " ", text, class_="notice")


def page(title, shop, lines, links, here, body):
    """Returns a whole page. `links` has each page's file and name, of which `here` is this one's file."""
    items = (element("li", element("strong", name) if file == here else element("a", name, href=file)) for file, name in links)
    head = [element("h1", shop if here == "index.html" else f"{title}: {shop}"), *(element("p", it, class_="soft") for it in lines)]
    return f"""<!DOCTYPE html>
<html lang="en">
<head>
<meta charset="utf-8">
<meta http-equiv="Content-Security-Policy" content="default-src 'none'; style-src 'unsafe-inline'">
<meta name="viewport" content="width=device-width, initial-scale=1">
<meta name="referrer" content="no-referrer">
<meta name="robots" content="noindex">
<title>{escape(f"{title}: {shop}")}</title>
<style>
{STYLE}
</style>
</head>
<body>
{element("header", *head, element("nav", element("ul", *items), aria_label="Pages"))}
{element("main", *body)}
{element("footer", "Made from a copy of the books. Nothing on these pages changes them.")}
</body>
</html>
"""


def file_list(files):
    """The CSV files of a folder, by their names with what they show. They aren't listed on paper."""
    words = "For a spreadsheet: UTF-8, commas, and amounts in dollars. A text that a spreadsheet could take for a formula has an apostrophe before it."
    links = (element("li", element("a", f"{name}.csv", href=f"{name}.csv"), f": {what}") for name, what in files.items())
    return element("section", element("h2", "Files"), element("p", words), element("ul", *links), class_="files")


def spreadsheet_text(text):
    """Returns a text that no spreadsheet takes for a formula: an apostrophe is put before one that might be; a phone as +1 555 stays."""
    return "'" + text if re.match(r"[=@\t]|[+-](?![\d ()./-]*$)", text) else text


def csv_value(column, value):
    if value is None:
        return ""
    return dollars(value) if column.kind == "money" else spreadsheet_text(value) if isinstance(value, str) else value


def csv_bytes(columns, rows):
    """Returns rows as CSV for a spreadsheet: UTF-8 with its mark, money in dollars, which the column's name says."""
    text = io.StringIO(newline="")
    to = csv.writer(text)
    to.writerow(it.csv_name for it in columns)
    to.writerows([csv_value(it, row[it.name]) for it in columns] for row in rows)
    return text.getvalue().encode("utf-8-sig")
