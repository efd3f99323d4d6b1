"""A graph of states as a picture (SVG): a row for each effective user id, root's above."""

from __future__ import annotations

from dataclasses import dataclass
from html import escape

from why.names import listed

from .graph import Arrow, Graph, Three

ROOT = 0
WIDE, HIGH, APART, ABOVE, BETWEEN = 110, 34, 70, 120, 210
MARGIN = 30
# Each arrow has its calls beside it where there are so few.
MOST_LABELS = 10
STYLE = """text{font:12px sans-serif;fill:#222}
.small{font-size:11px;fill:#444;paint-order:stroke;stroke:#fff;stroke-width:3px}
rect{fill:#f4f4f4;stroke:#777}rect.root{fill:#fbe3e0;stroke:#b3392b}
path{fill:none;stroke-width:1.3}path.up{stroke:#b3392b}path.down{stroke:#2b62b3}path.level{stroke:#888}
.bg{fill:#fff;stroke:none}"""


@dataclass(frozen=True)
class Point:
    """A place in the picture."""

    x: float
    y: float

    def __str__(self) -> str:
        return f"{self.x:.0f} {self.y:.0f}"


class Picture:
    """Where each state stands."""

    def __init__(self, graph: Graph) -> None:
        self.graph = graph
        self.columns = len(graph.ids) ** 2
        self.width = 2 * MARGIN + self.columns * WIDE + (self.columns - 1) * APART
        self.height = 2 * ABOVE + len(graph.ids) * HIGH + (len(graph.ids) - 1) * BETWEEN + 44

    def place(self, state: Three) -> Point:
        """The middle of a state's box."""
        ids = self.graph.ids
        column = ids.index(state.real) * len(ids) + ids.index(state.saved)
        row = ids.index(state.effective)
        return Point(
            MARGIN + WIDE / 2 + column * (WIDE + APART), ABOVE + HIGH / 2 + row * (HIGH + BETWEEN)
        )

    def box(self, state: Three) -> str:
        """A state."""
        middle = self.place(state)
        kind = ' class="root"' if state.effective == ROOT else ""
        return (
            f'<rect{kind} x="{middle.x - WIDE / 2:.0f}" y="{middle.y - HIGH / 2:.0f}" '
            f'width="{WIDE}" height="{HIGH}" rx="6"/>'
            f'<text x="{middle.x:.0f}" y="{middle.y + 4:.0f}" text-anchor="middle">{state}</text>'
        )

    def level(self, arrow: Arrow, one: Point, other: Point) -> str:
        """The way of an arrow within a row: a bow, above the first row and below the others."""
        upwards = self.graph.ids.index(arrow.before.effective) == 0
        side = -1 if upwards else 1
        right = 1 if other.x > one.x else -1
        far = abs(other.x - one.x) / (WIDE + APART)
        bow = 26 + 20 * far + (14 if right > 0 else 0)
        shift = 12 * right
        y = one.y + side * HIGH / 2
        return (
            f"M{Point(one.x + shift, y)} C{Point(one.x + 2 * shift, y + side * bow)} "
            f"{Point(other.x - 2 * shift, y + side * bow)} {Point(other.x - shift, y)}"
        )

    def across(self, one: Point, other: Point) -> str:
        """The way of an arrow from one row to another: those of both directions side by side."""
        down = 1 if other.y > one.y else -1
        shift = 7 * down
        return (
            f"M{Point(one.x + shift, one.y + down * HIGH / 2)} "
            f"L{Point(other.x + shift, other.y - down * HIGH / 2)}"
        )

    def arrow(self, arrow: Arrow, place: int) -> str:
        """An arrow, and its calls."""
        one, other = self.place(arrow.before), self.place(arrow.after)
        if one.y == other.y:
            kind, way = "level", self.level(arrow, one, other)
        else:
            kind = "up" if arrow.after.effective == ROOT else "down"
            way = self.across(one, other)
        title = escape("\n".join(arrow.calls))
        return (
            f'<path class="{kind}" id="a{place}" d="{way}" marker-end="url(#{kind})">'
            f"<title>{title}</title></path>"
        )

    def label(self, arrow: Arrow) -> str:
        """The first call of an arrow, along it."""
        one, other = self.place(arrow.before), self.place(arrow.after)
        more = f" (+{len(arrow.calls) - 1})" if arrow.calls[1:] else ""
        text = escape(arrow.calls[0] + more)
        if one.y == other.y:
            far = abs(other.x - one.x) / (WIDE + APART)
            upwards = self.graph.ids.index(arrow.before.effective) == 0
            rise = HIGH / 2 + 0.75 * (26 + 20 * far) + 8
            at = Point((one.x + other.x) / 2, one.y + (-rise if upwards else rise + 8))
        else:
            # Nearer to the end, where arrows that cross are apart.
            part = 0.72
            at = Point(one.x + part * (other.x - one.x), one.y + part * (other.y - one.y))
        place_of = f'x="{at.x:.0f}" y="{at.y:.0f}"'
        return f'<text class="small" {place_of} text-anchor="middle">{text}</text>'


def marker(kind: str, colour: str) -> str:
    """The head of an arrow."""
    return (
        f'<marker id="{kind}" viewBox="0 0 8 8" refX="8" refY="4" markerWidth="7" markerHeight="7" '
        f'orient="auto"><path d="M0 0 8 4 0 8 z" style="fill:{colour};stroke:none"/></marker>'
    )


def svg(graph: Graph) -> str:
    """The picture, with what it shows below it."""
    picture = Picture(graph)
    arrows = graph.arrows()
    colours = (("up", "#b3392b"), ("down", "#2b62b3"), ("level", "#888"))
    below = picture.height - 34
    told = f"{listed(list(graph.names))} over {listed(list(graph.ids))}: {graph.counts()}"
    key = (
        "A box: real, effective and saved user id. Red arrows lead to effective user id 0, blue "
        "ones to another, grey ones keep it."
    )
    labels = arrows if len(arrows) <= MOST_LABELS else []
    parts = [
        f'<svg xmlns="http://www.w3.org/2000/svg" viewBox="0 0 {picture.width} {picture.height}" '
        f'role="img"><title>{escape(told)}</title><style>{STYLE}</style>',
        "<defs>" + "".join(marker(kind, colour) for kind, colour in colours) + "</defs>",
        f'<rect class="bg" width="{picture.width}" height="{picture.height}"/>',
        *(picture.arrow(arrow, place) for place, arrow in enumerate(arrows)),
        *(picture.box(state) for state in graph.states()),
        *(picture.label(arrow) for arrow in labels),
        f'<text x="{MARGIN}" y="{below}">{escape(told)}</text>',
        f'<text class="small" x="{MARGIN}" y="{below + 18}">{escape(key)}</text>',
        "</svg>",
    ]
    return "\n".join(parts)
