"""Pictures as SVG, without any package: curves in a frame with axis titles, their names beside the frame, never over a curve."""
import pathlib
from dataclasses import dataclass, field

STYLES = [  # colours that also differ for the colour-blind, each with its dashes
    ("#000000", "none"),
    ("#0072b2", "7,3"),
    ("#d55e00", "2,3"),
    ("#009e73", "9,3,2,3"),
    ("#cc79a7", "4,2"),
    ("#7f7f7f", "1,2"),
]
LEFT, TOP, LINE = 64, 16, 18  # pixels before the frame, above it, and from a line of text to the next
CHARACTER = 7.2  # pixels of a character, about


@dataclass
class Axis:
    """An axis: its title, its ends, and the values that are written beside it, each with its text."""

    title: str
    low: float
    high: float
    ticks: list
    texts: list = field(default_factory=list)

    def part(self, value):
        """Where a value lies, from 0 at the low end to 1 at the high one."""
        return (value - self.low) / (self.high - self.low)

    def marks(self):
        """Each value with its text."""
        return zip(self.ticks, self.texts or [f"{tick:g}" for tick in self.ticks])


@dataclass
class Curve:
    """A curve: its name, its points in order (y is None where there is none), and whether each point gets a dot."""

    name: str
    points: list
    dots: bool = False


def text(x, y, words, anchor="start", more=""):
    """Text at a place."""
    safe = str(words).replace("&", "&amp;").replace("<", "&lt;")
    return f'<text x="{x:.1f}" y="{y:.1f}" text-anchor="{anchor}"{more}>{safe}</text>'


def line(x, y, u, v, colour="#000000", width=1.0, dashes="none"):
    """A line from a place to another."""
    return f'<line x1="{x:.1f}" y1="{y:.1f}" x2="{u:.1f}" y2="{v:.1f}" stroke="{colour}" stroke-width="{width:g}" stroke-dasharray="{dashes}"/>'


def box(x, y, width, height, fill, edge="none"):
    """A rectangle."""
    return f'<rect x="{x:.1f}" y="{y:.1f}" width="{width:.1f}" height="{height:.1f}" fill="{fill}" stroke="{edge}"/>'


def save(path, width, height, parts):
    """Writes a picture of these parts on white."""
    head = f'<svg xmlns="http://www.w3.org/2000/svg" width="{width:.0f}" height="{height:.0f}" font-family="sans-serif" font-size="13">'
    body = "\n".join([head, '<rect width="100%" height="100%" fill="white"/>', *parts, "</svg>"])
    pathlib.Path(path).write_text(body + "\n", encoding="utf-8")


def runs_of(points):
    """The points between gaps."""
    runs = [[]]
    for x, y in points:
        if y is None:
            runs.append([])
        else:
            runs[-1].append((x, y))
    return [run for run in runs if run]


def plot(path, x, y, curves, width=480, height=280):
    """Draws curves over the axes x and y. Their names stand on the right of the frame, in their order."""

    def place(point):
        return LEFT + width * x.part(point[0]), TOP + height * (1 - y.part(point[1]))

    parts = []
    for tick, words in x.marks():
        at = LEFT + width * x.part(tick)
        parts += [line(at, TOP, at, TOP + height, "#e4e4e4"), text(at, TOP + height + LINE, words, "middle")]
    for tick, words in y.marks():
        at = TOP + height * (1 - y.part(tick))
        parts += [line(LEFT, at, LEFT + width, at, "#e4e4e4"), text(LEFT - 8, at + 4, words, "end")]
    for number, curve in enumerate(curves):
        colour, dashes = STYLES[number]
        for run in runs_of(curve.points):
            along = " ".join("{:.1f},{:.1f}".format(*place(point)) for point in run)
            parts.append(f'<polyline fill="none" stroke="{colour}" stroke-width="2" stroke-dasharray="{dashes}" points="{along}"/>')
            if curve.dots or len(run) == 1:
                parts += ['<circle cx="{:.1f}" cy="{:.1f}" r="2.5" fill="{}"/>'.format(*place(point), colour) for point in run]
        at = TOP + 12 + LINE * number
        parts += [line(LEFT + width + 14, at - 4, LEFT + width + 50, at - 4, colour, 2, dashes), text(LEFT + width + 58, at, curve.name)]
    parts.append(box(LEFT, TOP, width, height, "none", "#808080"))
    parts.append(text(LEFT + width / 2, TOP + height + 2 * LINE + 4, x.title, "middle"))
    middle = TOP + height / 2
    parts.append(text(16, middle, y.title, "middle", f' transform="rotate(-90 16 {middle:.0f})"'))
    longest = max(len(curve.name) for curve in curves)
    save(path, LEFT + width + 70 + CHARACTER * longest, TOP + height + 2 * LINE + 16, parts)
