"""The pages and files of head office: the branches beside each other. No customer's name is on them."""
import charts
from branch_figures import COLUMNS
from branch_pages import DAYS, DRAWER, MOST, chart_of_months, in_order, times
from page_parts import Column, csv_bytes, days_before, element, figures, file_list, money, moment_text, month_text, months_to, page, table

LINKS = [("index.html", "Overview"), ("takings.html", "Takings"), ("stock.html", "Stock"), ("transit.html", "On its way"), ("limits.html", "Limits")]
MONTHS = 6
BRANCH = Column("branch", "Branch", "id")
FILES = {
    "branches": "each branch with its figures", "takings-by-day": "payments of each day and branch", "takings-by-month": "payments of each month and branch",
    "takings-by-staff": "payments by who entered them", "sales-by-category": "what rentals brought by branch and category", "stock": "copies by branch and film",
    "transit": "consignments that aren't received", "limits": "how full each caller is",
}
OF_BRANCHES = [
    BRANCH, Column("place", "Place"), Column("manager", "Manager"), Column("last_command", "Last command", "moment"), Column("this_month", "This month", "money", True),
    Column("last_month", "Last month", "money", True), Column("sales", "Paid for rentals, in all", "money", True), Column("out", "Out", "number", True),
    Column("overdue", "Overdue", "number", True), Column("owed_to", "Owed to it", "money", True), Column("owed_by", "Owed by it", "money", True),
]
TRANSIT = [
    Column("from", "From", "id"), Column("to", "To", "id"), Column("number", "Consignment", "id"), Column("sent", "Sent", "moment"), Column("days", "Days ago", "number"),
    Column("copies", "Copies", "number", True), Column("titles", "Films"),
]
LIMITS = [Column("caller", "Caller"), *COLUMNS["limits"]]


class OfficeFigures:
    """Sums of the branches' figures, each under its branch."""

    def __init__(self, chain, branches):
        self.chain, self.branches, self.at = chain, branches, chain.at
        self.day, self.month = self.at[:10], self.at[:7]
        self.last_month = days_before(self.month + "-01", 1)[:7]
        self.by_day, self.by_month = self.summed("day", [it.by_day for it in branches]), self.summed("month", [it.by_month for it in branches])
        self.of_branches = [self.of_branch(it) for it in branches]
        self.limits = [it | {"caller": f"branch {it['caller']}" if it["caller"] else "head office"} for it in chain.limits]

    def of_branch(self, it):
        return {
            "branch": it.number, "place": ", ".join(part for part in (it.address, it.city) if part), "manager": it.manager or "", "last_command": it.last_moment,
            "this_month": it.taken(self.month)["cents"], "last_month": it.taken(self.last_month)["cents"], "sales": self.chain.sales.get(it.number, 0), "out": len(it.out),
            "overdue": len(it.overdue), "owed_to": sum(row["balance"] for row in it.owing), "owed_by": -sum(row["balance"] for row in it.owed),
        }

    @staticmethod
    def summed(part, lists):
        """Returns the sums of all branches' takings by a day or a month."""
        found = {}
        for row in (it for rows in lists for it in rows):
            here = found.setdefault(row[part], {part: row[part], "payments": 0, "of_rentals": 0, "of_none": 0, "cents": 0})
            for name in ("payments", "of_rentals", "of_none", "cents"):
                here[name] += row[name]
        return [found[it] for it in sorted(found)]

    def of_each(self, rows):
        """Returns rows of all branches, each with its branch."""
        return [{"branch": it.number} | row for it in self.branches for row in rows(it)]

    def files(self):
        """Returns the columns and the rows of each file of CSV."""
        with_branch = lambda name, rows: ([BRANCH, *COLUMNS[name]], self.of_each(rows))
        return {
            "branches": (OF_BRANCHES, self.of_branches), "takings-by-day": with_branch("takings-by-day", lambda it: it.by_day),
            "takings-by-month": with_branch("takings-by-month", lambda it: it.by_month), "takings-by-staff": with_branch("takings-by-staff", lambda it: it.by_staff),
            "sales-by-category": with_branch("sales-by-category", lambda it: it.by_category), "stock": with_branch("stock", lambda it: it.stock), "transit": (TRANSIT, self.chain.transit),
            "limits": (LIMITS, self.limits),
        }


def chart_of_branches(it):
    bars = [charts.Bar((row["this_month"],), f"branch {row['branch']}: {money(row['this_month'])}", f"Branch {row['branch']}") for row in it.of_branches]
    if not bars:
        return ""
    description = f"The most: {max(bars, key=lambda bar: bar.values).says}."
    return charts.rows(f"Takings by branch, {month_text(it.month)}", description, bars, money)


def overview(it):
    total = lambda name: sum(row[name] for row in it.of_branches)
    boxes = [
        (f"Takings, {month_text(it.month)}", money(total("this_month")), ""), (f"Takings, {month_text(it.last_month)}", money(total("last_month")), ""),
        ("Copies out", f"{total('out'):,}", f"{total('overdue'):,} overdue"), ("Owed to branches", money(total("owed_to")), ""), ("Owed by branches", money(total("owed_by")), ""),
        ("On their way", f"{sum(row['copies'] for row in it.chain.transit):,}", times(len(it.chain.transit), "consignment", "consignments")),
    ]
    links = element("ul", *(element("li", element("a", f"branch {row['branch']}", href=f"../branch-{row['branch']}/index.html"), f": {row['place']}") for row in it.of_branches))
    columns = in_order(OF_BRANCHES, "branch", "place", "this_month", "last_month", "out", "overdue", "owed_to", "owed_by")
    return [
        figures(boxes), chart_of_branches(it), element("h2", "Branches"), table("Takings, copies out and balances of the branches", columns, it.of_branches), element("p", "Each branch's own pages:"), links,
        file_list(FILES),
    ]


def takings(it):
    columns = [BRANCH, *(Column(month, f"{month_text(month)[:3]} {month[:4]}", "money", True) for month in months_to(it.month, MONTHS))]
    rows = [{"branch": branch.number} | {column.name: branch.taken(column.name)["cents"] for column in columns[1:]} for branch in it.branches]
    since = days_before(it.day, DAYS - 1)
    return [
        element("p", DRAWER), chart_of_months(it), element("h2", "By branch"), table(f"Takings by branch, of {MONTHS} months", columns, rows), element("h2", "By day"),
        table("Takings by day, all branches", COLUMNS["takings-by-day"], [row for row in reversed(it.by_day) if since <= row["day"] <= it.day]),
        element("p", "Each branch's days are in takings-by-day.csv.", class_="soft"), element("h2", "By month"),
        table("Takings by month, all branches", COLUMNS["takings-by-month"], it.by_month[::-1], 36, "All are in takings-by-month.csv."), element("h2", "Paid for rentals"),
        table("Paid for rentals by branch, in all", in_order(OF_BRANCHES, "branch", "place", "manager", "sales"), it.of_branches),
    ]


def stock(it):
    films = {}
    for row in it.of_each(lambda branch: branch.stock):
        here = films.setdefault(row["film"], row | {name: 0 for name in ("in_shop", "out", "sent", "scrapped", "copies", "branch")})
        for name in ("in_shop", "out", "sent", "scrapped", "copies"):
            here[name] += row[name]
        here["branch"] += 1
    columns = [*in_order(COLUMNS["stock"], "film", "title", "withdrawn", "in_shop", "out", "scrapped"), Column("branch", "Branches", "number")]
    words = "A copy that was sent and received is a copy of its new branch. Each branch's copies are in stock.csv."
    return [element("p", words), table("Copies by film, all branches", columns, [films[it] for it in sorted(films)], 2 * MOST, "All are in stock.csv.")]


def transit(it):
    words = "The days are those since the sender's date. A box that is long on its way is one to ask for by telephone."
    return [element("p", words), table("Consignments that aren't received", TRANSIT, it.chain.transit, MOST, "All are in transit.csv.")]


def limits(it):
    words = "If a branch's last command is later than now, a clock was ahead, and its commands are refused until then."
    return [
        element("h2", "Limits"), element("p", "At 80 percent it is time to act. Copies that were sent or scrapped count too."),
        table("What each caller has of what it can have", LIMITS, it.limits), element("h2", "Last commands"), element("p", words),
        table("The last command of each branch", in_order(OF_BRANCHES, "branch", "place", "manager", "last_command"), it.of_branches),
    ]


def office_folder(chain, branches, copied):
    """Returns the files of head office's folder by their names."""
    it, bodies = OfficeFigures(chain, branches), {"index.html": overview, "takings.html": takings, "stock.html": stock, "transit.html": transit, "limits.html": limits}
    lines = [times(len(branches), "branch", "branches"), f"As of {moment_text(it.at)}. {copied}"]
    found = {file: page(title, "Head office", lines, LINKS, file, bodies[file](it)).encode() for file, title in LINKS}
    return found | {f"{name}.csv": csv_bytes(columns, rows) for name, (columns, rows) in it.files().items()}
