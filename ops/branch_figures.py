"""What a manager's pages show of a branch: the rows of its reports at a moment.

Each row is of a report of one branch (reports/README.md), so nothing here depends on another branch's rows. Beside them stand the branch's own address, its manager, and the
catalogue's titles.
"""
import collections
import datetime
import json
import sqlite3

from page_parts import Column, days_before, month_text
from report_queries import rows
from zones import moment_at, standard_offset

WEEKS = 13
ALWAYS = ("1970-01-01T00:00:00", "9999-12-31T23:59:59")
PAID = [Column("payments", "Payments", "number", True), Column("of_rentals", "For rentals", "money", True), Column("of_none", "For no rental", "money", True), Column("cents", "All", "money", True)]
# The columns of each file of CSV. A page's table has them too, or some of them.
COLUMNS = {
    "takings-by-day": [Column("day", "Day", "day"), *PAID],
    "takings-by-month": [Column("month", "Month", "month"), *PAID],
    "takings-by-staff": [Column("since", "From", "moment"), Column("until", "To", "moment"), Column("name", "Staff"), *PAID],
    "sales-by-category": [Column("category", "Category"), Column("total", "Paid for rentals", "money", True)],
    "payments-of-none": [
        Column("payment", "Payment", "id"), Column("moment", "Entered", "moment"), Column("staff_name", "Staff"), Column("customer", "Number", "id"), Column("name", "Customer"),
        Column("cents", "Amount", "money", True), Column("may_correct", "May correct rental", "id"),
    ],
    "rentals-by-weekday": [Column("day", "Day"), Column("rentals", "Copies that went out", "number", True)],
    "copies-out": [
        Column("rental", "Rental", "id"), Column("copy", "Copy", "id"), Column("film", "Film", "id"), Column("title", "Title"), Column("customer", "Number", "id"),
        Column("name", "Customer"), Column("phone", "Phone", "phone"), Column("rented", "Went out", "moment"), Column("due", "Last day", "day"), Column("late", "Days past", "number"),
    ],
    "balances": [
        Column("customer", "Number", "id"), Column("name", "Customer"), Column("phone", "Phone", "phone"), Column("rentals", "Rentals cost", "money", True),
        Column("payments", "Paid", "money", True), Column("balance", "Balance", "money", True),
    ],
    "stock": [
        Column("film", "Film", "id"), Column("title", "Title"), Column("withdrawn", "Withdrawn"), Column("in_shop", "In the shop", "number", True), Column("out", "Out", "number", True),
        Column("sent", "Sent away", "number", True), Column("scrapped", "Scrapped", "number", True), Column("copies", "All", "number", True),
    ],
    "arrivals": [Column("from", "From branch", "id"), Column("number", "Consignment", "id"), Column("copies", "Copies", "number", True), Column("titles", "Films")],
    "sent": [Column("to", "To branch", "id"), Column("number", "Consignment", "id"), Column("sent", "Sent", "moment"), Column("copies", "Copies", "number", True), Column("titles", "Films")],
    "limits": [Column("kind", "What"), Column("count", "So far", "number"), Column("most", "At most", "number"), Column("percent", "Percent", "number"), Column("note", "Note")],
}
COLUMNS["overdue"] = COLUMNS["copies-out"]


class Chain:
    """A copy of a chain at a moment: what the branches share, and what head office alone may see. A branch of `zones` has the moment by its own clock."""

    def __init__(self, file, at, zones=None):
        self.file, self.at, self.zones = file, at, zones or {}
        self.branches, self.limits = rows("branches", file), rows("limits", file)
        self.moments = {it["number"]: self.moment_of(it["number"]) for it in self.branches}
        self.transit = self.read_transit()
        self.sales = {it["branch"]: it["total"] for it in rows("sales-by-branch", file)}
        self.staff = {it["number"]: f"{it['first']} {it['last']}" for it in rows("staff", file)}
        it = sqlite3.connect(f"file:{file}?mode=ro", uri=True)
        try:
            self.titles = dict(it.execute("SELECT number, title FROM film"))
            (self.is_by_comment,) = it.execute("SELECT comment_rule FROM chain_rule").fetchone()
        finally:
            it.close()
        for row in self.transit:
            spell_films(row, self.titles)

    def moment_of(self, branch):
        return moment_at(self.at, standard_offset(self.zones[branch])) if branch in self.zones else self.at

    def read_transit(self):
        """Returns the consignments on their way, each with its days by its sender's clock."""
        lists = {at: rows("transit", self.file, at=at) for at in sorted(set(self.moments.values()))}
        return [lists[self.moments[row["from"]]][place] for place, row in enumerate(next(iter(lists.values()), []))]


def spell_films(row, titles):
    """Gives a consignment's row the number of its copies, and its films by their titles."""
    films = json.loads(row["films"])
    counts = collections.Counter(films)
    row["copies"] = len(films)
    row["titles"] = "; ".join(titles[film] + (f" \N{MULTIPLICATION SIGN} {count}" if count > 1 else "") for film, count in counts.items())


class BranchFigures:
    """The rows of a branch's reports, and sums of them."""

    def __init__(self, chain, branch):
        self.number, self.address, self.city, self.last_moment = branch["number"], branch["address"], branch["city"], branch["last_moment"]
        self.manager = chain.staff.get(branch["manager"])
        self.is_by_comment, self.file = chain.is_by_comment, chain.file
        self.zone, now = chain.zones.get(self.number), chain.moments[self.number]
        day_later = (datetime.datetime.fromisoformat(now) + datetime.timedelta(days=1)).isoformat() if now < "9999-12-31" else now
        self.clock_was_ahead = self.last_moment is not None and self.last_moment > day_later
        # The branch may be in another time zone than is known of it.
        self.at = now if self.last_moment is None or self.clock_was_ahead else max(now, self.last_moment)
        self.day, self.month = self.at[:10], self.at[:7]
        self.last_month = days_before(self.month + "-01", 1)[:7]
        self.spans = {"in all": ALWAYS} | {month_text(month): (f"{month}-01T00:00:00", f"{month}-31T23:59:59") for month in (self.month, self.last_month)}
        self.limits = [it for it in chain.limits if it["caller"] == self.number]
        self.read(chain.titles)

    def read(self, titles):
        ask = lambda name, **more: rows(name, self.file, branch=self.number, **more)
        self.by_day, self.by_month, self.by_category = ask("takings-by-day"), ask("takings-by-month"), ask("sales-by-category")
        self.by_staff = self.staff(ask)
        self.of_none = ask("payments-of-none")
        self.weeks_since = days_before(self.day, 7 * WEEKS - 1)
        self.by_weekday = ask("rentals-by-weekday", since=f"{self.weeks_since}T00:00:00", until=f"{self.day}T23:59:59")
        self.out, self.overdue, self.balances = (ask(name, at=self.at) for name in ("copies-out", "overdue", "balances"))
        self.stock, self.arrivals, self.sent = ask("stock"), ask("arrivals"), ask("sent")
        for row in self.arrivals + self.sent:
            spell_films(row, titles)
        for row in self.stock:
            row["withdrawn"] = "withdrawn" if row["withdrawn"] else ""

    def staff(self, ask):
        """Returns what each of the staff took in all, this month and last month. A number is added to a name that two have: numbers count the staff of all branches."""
        found = [{"since": since, "until": until} | it for since, until in self.spans.values() for it in ask("takings-by-staff", since=since, until=until)]
        names = collections.Counter(name for _, name in {(it["staff"], it["name"]) for it in found})
        return [it | {"name": it["name"] + (f" ({it['staff']})" if names[it["name"]] > 1 else "")} for it in found]

    @property
    def name(self):
        return f"Branch {self.number}"

    def taken(self, month):
        """Returns the row of a month's takings."""
        found = [it for it in self.by_month if it["month"] == month]
        return found[0] if found else {"month": month, "payments": 0, "of_rentals": 0, "of_none": 0, "cents": 0}

    @property
    def owing(self):
        """The rows of who owes the branch, the greatest first."""
        return [it for it in self.balances if it["balance"] > 0]

    @property
    def owed(self):
        """The rows of whom the branch owes, the greatest first."""
        return [it for it in reversed(self.balances) if it["balance"] < 0]

    def files(self):
        """Returns the rows of each file of CSV."""
        return {
            "takings-by-day": self.by_day, "takings-by-month": self.by_month, "takings-by-staff": self.by_staff, "sales-by-category": self.by_category,
            "payments-of-none": self.of_none, "rentals-by-weekday": self.by_weekday, "copies-out": self.out, "overdue": self.overdue, "balances": self.balances, "stock": self.stock,
            "arrivals": self.arrivals, "sent": self.sent, "limits": self.limits,
        }
