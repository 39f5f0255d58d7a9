"""Charts of a manager's pages, as SVG within the page: bars side by side, and bars one below the other.

Each has a title and a description for who can't see it, and a value's own title at its bar. Colours are the page's own, for light, dark and paper.
"""
import dataclasses

from page_parts import Markup, element, empty, joined

WIDTH, HEIGHT, LEFT, RIGHT, TOP, BOTTOM = 720, 230, 64, 8, 12, 26
ROW, BAR, LABEL, VALUE = 26, 16, 168, 96


@dataclasses.dataclass(frozen=True)
class Bar:
    """A bar: its parts' values from the bottom up, what it says of itself, and the label at the axis, which may be empty."""

    values: tuple
    says: str
    label: str = ""


def step(most):
    """Returns the step of the axis: 1, 2 or 5 times a power of ten, of which at most five reach the greatest value."""
    power = 1
    while True:
        for it in (power, 2 * power, 5 * power):
            if 5 * it >= most:
                return it
        power *= 10


def figure(caption, description, height, parts, legend=""):
    """Returns a chart with its caption, which is read aloud with the description."""
    svg = element("svg", Markup("\n"), *parts, viewBox=f"0 0 {WIDTH} {height}", role="img", aria_label=f"{caption}. {description}")
    return element("figure", element("figcaption", caption), legend, svg)


def legend(names):
    """Returns what the parts of a bar are, each with its colour."""
    boxes = []
    for kind, name in zip(("bar", "other"), names):
        box = element("svg", empty("rect", width=12, height=12, class_=kind), viewBox="0 0 12 12", aria_hidden="true")
        boxes.append(element("span", box, f" {name}"))
    return element("p", *boxes, class_="legend")


def text(x, y, value, anchor="start", **more):
    return element("text", value, x=f"{x:.1f}", y=f"{y:.1f}", text_anchor=anchor, **more)


def rect(x, y, width, height, **more):
    return empty("rect", x=f"{x:.1f}", y=f"{y:.1f}", width=f"{width:.1f}", height=f"{height:.1f}", **more)


def line(x, y, to_x, to_y, kind):
    return empty("line", x1=f"{x:.1f}", y1=f"{y:.1f}", x2=f"{to_x:.1f}", y2=f"{to_y:.1f}", class_=kind)


def columns(caption, description, bars, shown, unit=1, parts=()):
    """Returns bars side by side over an axis from 0, whose steps are whole units; `shown` writes a value, `parts` names a bar's parts."""
    most = max((sum(it.values) for it in bars), default=0)
    each = step(-(-most // unit)) * unit
    top = max(1, -(-most // each)) * each
    tall, wide = HEIGHT - TOP - BOTTOM, (WIDTH - LEFT - RIGHT) / max(1, len(bars))
    drawn = []
    for value in range(0, top + 1, each):
        y = TOP + tall * (1 - value / top)
        drawn += [line(LEFT, y, WIDTH - RIGHT, y, "grid" if value else "axis"), text(LEFT - 8, y + 4, shown(value), "end")]
    for at, bar in enumerate(bars):
        x, base, boxes = LEFT + wide * at, TOP + tall, []
        for kind, value in zip(("bar", "other"), bar.values):
            height = tall * value / top
            base -= height
            boxes.append(rect(x + wide * 0.12, base, wide * 0.76, height, class_=kind) if value else "")
        if any(bar.values):
            drawn.append(element("g", element("title", bar.says), *boxes))
        if bar.label:
            drawn.append(text(x + wide / 2, HEIGHT - 8, bar.label, "middle"))
        drawn.append(Markup("\n"))
    return figure(caption, description, HEIGHT, drawn, legend(parts) if parts else "")


def rows(caption, description, bars, shown):
    """Returns bars one below the other, each with its label and its value."""
    most, drawn = max((it.values[0] for it in bars), default=0) or 1, []
    for at, bar in enumerate(bars):
        y, wide = at * ROW, (WIDTH - LABEL - VALUE) * max(0, bar.values[0]) / most
        label = bar.label if len(bar.label) <= 24 else bar.label[:23] + "\N{HORIZONTAL ELLIPSIS}"
        drawn.append(joined([
            text(LABEL - 10, y + 17, label, "end"),
            element("g", element("title", bar.says), rect(LABEL, y + 5, wide, BAR, class_="bar")),
            text(LABEL + wide + 6, y + 17, shown(bar.values[0]), class_="value"), Markup("\n"),
        ]))
    return figure(caption, description, max(1, len(bars)) * ROW + 4, drawn)
