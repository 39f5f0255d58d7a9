"""The pages and files of one branch, for its manager."""
import charts
from branch_figures import COLUMNS, WEEKS
from page_parts import csv_bytes, day_text, days_before, element, figures, file_list, money, moment_text, month_text, months_to, notice, page, table

LINKS = [("index.html", "Overview"), ("takings.html", "Takings"), ("out.html", "Out and overdue"), ("owed.html", "Who owes"), ("stock.html", "Stock")]
DAYS, MONTHS, MOST = 31, 12, 500
FILES = {
    "takings-by-day": "payments of each day", "takings-by-month": "payments of each month", "takings-by-staff": "payments by who entered them: in all, this month and last month",
    "sales-by-category": "what rentals brought by category", "payments-of-none": "payments for no rental", "rentals-by-weekday": f"copies that went out by day of the week, of {WEEKS} weeks",
    "copies-out": "what is out", "overdue": "what is overdue", "balances": "who owes, and whom the branch owes", "stock": "copies by film", "arrivals": "what is on its way here",
    "sent": "what was sent from here", "limits": "how full the branch is",
}
DRAWER = (
    "These are the payments as they were entered. A payment for no rental may be a correction, for which no money was taken. Money that was handed back isn't entered. "
    "Compare them with the drawer and with the notes on paper."
)


def times(count, one, many):
    return f"{count:,} {one if count == 1 else many}"


def in_order(columns, *names):
    """Returns the columns of these names, in this order."""
    return [next(it for it in columns if it.name == name) for name in names]


def heads(it, copied):
    """The lines below a page's heading."""
    place = ", ".join(part for part in (it.address, it.city) if part)
    return [place + (f". Manager: {it.manager}" if it.manager else ""), f"As of {moment_text(it.at)}{f', in the standard time of {it.zone}' if it.zone else ''}. {copied}"]


def chart_of_days(it):
    """Takings of the last days, those without a payment too."""
    taken = {row["day"]: row for row in it.by_day}
    bars, labelled = [], None
    for back in range(DAYS - 1, -1, -1):
        day, label = days_before(it.day, back), ""
        row = taken.get(day, {"of_rentals": 0, "of_none": 0, "cents": 0})
        if back % 5 == 0:
            # The first label of a month has the month's name.
            label, labelled = f"{int(day[8:])}" + (f" {month_text(day[:7])[:3]}" if day[:7] != labelled else ""), day[:7]
        bars.append(charts.Bar((row["of_rentals"], row["of_none"]), f"{day_text(day)}: {money(row['cents'])}", label))
    return pair_chart(f"Takings of the last {DAYS} days", "Day by day", it, bars)


def chart_of_months(it):
    taken, bars = {row["month"]: row for row in it.by_month}, []
    for month in months_to(it.month, MONTHS):
        row = taken.get(month, {"of_rentals": 0, "of_none": 0, "cents": 0})
        bars.append(charts.Bar((row["of_rentals"], row["of_none"]), f"{month_text(month)}: {money(row['cents'])}", f"{month_text(month)[:3]} {month[2:4]}"))
    return pair_chart(f"Takings of the last {MONTHS} months", "Month by month", it, bars)


def pair_chart(caption, each, it, bars):
    all_of_them, most = sum(sum(bar.values) for bar in bars), max(bars, key=lambda bar: sum(bar.values))
    description = f"{each}, up to {day_text(it.day)}: {money(all_of_them)} in all. " + (f"The most: {most.says}." if all_of_them else "")
    return charts.columns(caption, description, bars, whole_dollars, unit=100, parts=("for rentals", "for no rental"))


def whole_dollars(cents):
    return f"${cents // 100:,}"


def chart_of_weekdays(it):
    bars = [charts.Bar((row["rentals"],), f"{row['day']}: {row['rentals']:,}", row["day"][:3]) for row in it.by_weekday]
    most = max(it.by_weekday, key=lambda row: row["rentals"])
    description = f"{WEEKS} weeks, up to {day_text(it.day)}. " + (f"The most, {most['rentals']:,}, on a {most['day']}." if most["rentals"] else "None.")
    return charts.columns(f"Copies that went out by day of the week, of {WEEKS} weeks", description, bars, lambda value: f"{value:,}")


def chart_of_categories(it):
    if not it.by_category:
        return ""
    bars = [charts.Bar((row["total"],), f"{row['category']}: {money(row['total'])}", row["category"]) for row in it.by_category]
    return charts.rows("Paid for rentals by category, in all", f"The most: {bars[0].says}.", bars, money)


def notices(it):
    found = []
    if it.clock_was_ahead:
        found.append(notice("A clock was ahead.", f"The branch's last command is of {moment_text(it.last_moment)}. Until then its commands are refused: tell who keeps the chain."))
    for row in it.limits:
        if row["note"]:
            found.append(notice("Nearly full." if row["note"] != "full" else "Full.", f"{row['count']:,} of {row['most']:,} {row['kind']}: tell who keeps the chain."))
    return found


def overview(it):
    now, last = it.taken(it.month), it.taken(it.last_month)
    longest = max((row["late"] for row in it.overdue), default=0)
    here = sum(row["in_shop"] for row in it.stock)
    boxes = [
        (f"Takings, {month_text(it.month)}", money(now["cents"]), times(now["payments"], "payment", "payments")),
        (f"Takings, {month_text(it.last_month)}", money(last["cents"]), times(last["payments"], "payment", "payments")),
        ("Copies out", f"{len(it.out):,}", times(here, "copy in the shop", "copies in the shop")),
        ("Overdue", f"{len(it.overdue):,}", f"the longest by {times(longest, 'day', 'days')}" if it.overdue else ""),
        ("Owed to the branch", money(sum(row["balance"] for row in it.owing)), "by " + times(len(it.owing), "customer", "customers")),
        ("Owed by the branch", money(-sum(row["balance"] for row in it.owed)), "to " + times(len(it.owed), "customer", "customers")),
        ("On their way here", f"{sum(row['copies'] for row in it.arrivals):,}", times(len(it.arrivals), "consignment", "consignments")),
        *((f"{row['kind'].capitalize()} so far", f"{row['count']:,}", f"{row['percent']} percent of {row['most']:,}") for row in it.limits if row["kind"] == "commands"),
    ]
    return [*notices(it), figures(boxes), chart_of_days(it), chart_of_weekdays(it), chart_of_categories(it), file_list(FILES)]


def takings(it):
    since = days_before(it.day, DAYS - 1)
    of = lambda name: COLUMNS[name]
    of_span = lambda span: [row for row in it.by_staff if (row["since"], row["until"]) == span]
    staff = [table(f"Takings by staff, {name}", of("takings-by-staff")[2:], of_span(span)) for name, span in it.spans.items()]
    hint = "A rental is named if it cost as much, came back on the day on which it went out, and no payment names it. That is a hint, and no proof."
    return [
        element("p", DRAWER), chart_of_days(it), chart_of_months(it), element("h2", "By day"),
        table(f"Takings by day, from {day_text(since)}", of("takings-by-day"), [row for row in reversed(it.by_day) if since <= row["day"] <= it.day]),
        element("p", "Earlier days are in takings-by-day.csv.", class_="soft"), element("h2", "By month"),
        table("Takings by month", of("takings-by-month"), it.by_month[::-1], 36, "All are in takings-by-month.csv."), element("h2", "By staff"), *staff,
        element("h2", "By category"), table("Paid for rentals by category, in all", of("sales-by-category"), it.by_category), element("h2", "Payments for no rental"), element("p", hint),
        table("Payments for no rental, the newest first", of("payments-of-none"), it.of_none, 100, "All are in payments-of-none.csv."),
    ]


def out(it):
    shown = in_order(COLUMNS["copies-out"], "name", "customer", "phone", "title", "copy", "rented", "due", "late")
    late = sorted(it.overdue, key=lambda row: (-row["late"], row["rental"]))
    still = [row for row in it.out if not row["late"]]
    return [
        element("h2", "Overdue"), table(f"Overdue: {len(late):,}, the longest first", shown, late, MOST, "All are in overdue.csv."),
        element("h2", "Out"), table(f"Out, and not overdue: {len(still):,}", shown[:-1], still, MOST, "All are in copies-out.csv."),
    ]


def owed(it):
    rule = "A rental that is out is charged late days as they pass, and its replacement cost once it is very late." if it.is_by_comment else "Late days are charged when the copy comes back."
    columns = in_order(COLUMNS["balances"], "name", "customer", "phone", "rentals", "payments", "balance")
    given = [row | {"balance": -row["balance"]} for row in it.owed]
    return [
        element("p", "A balance is what a customer's rentals cost, less what was paid. " + rule), element("h2", "Owed to the branch"),
        table(f"Who owes the branch: {len(it.owing):,}, the greatest first", columns, it.owing, MOST, "All are in balances.csv."), element("h2", "Owed by the branch"),
        table(f"Whom the branch owes: {len(given):,}, the greatest first", columns, given, MOST, "All are in balances.csv, with a minus."),
    ]


def stock(it):
    return [
        element("h2", "By film"), table("Copies by film", COLUMNS["stock"], it.stock, 2 * MOST, "All are in stock.csv."), element("h2", "On its way here"),
        table("Consignments on their way here", COLUMNS["arrivals"], it.arrivals, MOST, "All are in arrivals.csv."), element("h2", "Sent from here"),
        element("p", "Whether a consignment was received is not known here."),
        table("Consignments that were sent, the newest first", COLUMNS["sent"], it.sent[::-1], MOST, "All are in sent.csv."), element("h2", "Limits"),
        table("What the branch has of what it can have", COLUMNS["limits"], it.limits), element("p", "Copies that were sent or scrapped count too. At 80 percent it is time to act.", class_="soft"),
    ]


def branch_folder(it, copied):
    """Returns the files of a branch's folder by their names. `copied` says which copy they are of."""
    bodies = {"index.html": overview, "takings.html": takings, "out.html": out, "owed.html": owed, "stock.html": stock}
    found = {file: page(title, it.name, heads(it, copied), LINKS, file, bodies[file](it)).encode() for file, title in LINKS}
    return found | {f"{name}.csv": csv_bytes(COLUMNS[name], rows) for name, rows in it.files().items()}
