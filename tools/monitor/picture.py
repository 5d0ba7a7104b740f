"""The picture of a report: MER and bit error ratio over time, by the standard library alone."""
import math

from cell_tools.svg import LEFT, LINE, STYLES, TOP, Axis, box, line, runs_of, save, text
from monitor.figures import clock

WIDTH, HEIGHT, BETWEEN, RIGHT = 760, 220, 58, 170
MOST_MER, LEAST_BER, LIMIT = 40, 1e-8, 2e-4
STEPS = (1, 2, 5, 10, 15, 30, 60, 120, 300, 600, 900, 1800, 3600, 7200, 10800, 21600, 43200, 86400)  # seconds between two times that are written
GONE, CHANGED = "#e0e0e0", "#7f7f7f"


class Chart:
    """A frame with curves: its upper edge, and its axes."""

    def __init__(self, top, x, y):
        self.top, self.x, self.y, self.parts = top, x, y, []

    def across(self, value):
        return LEFT + WIDTH * min(1, max(0, self.x.part(value)))

    def up(self, value):
        return self.top + HEIGHT * (1 - min(1, max(0, self.y.part(value))))

    def frame(self, gaps, changes):
        """Gaps, lines of both axes, and where the parameters changed."""
        for begin, end in gaps:
            self.parts.append(box(self.across(begin), self.top, max(1, self.across(end) - self.across(begin)), HEIGHT, GONE))
        for tick, words in self.x.marks():
            at = self.across(tick)
            self.parts += [line(at, self.top, at, self.top + HEIGHT, "#e4e4e4"), text(at, self.top + HEIGHT + LINE, words, "middle")]
        for tick, words in self.y.marks():
            at = self.up(tick)
            self.parts += [line(LEFT, at, LEFT + WIDTH, at, "#e4e4e4"), text(LEFT - 8, at + 4, words, "end")]
        for at in changes:
            self.parts.append(line(self.across(at), self.top, self.across(at), self.top + HEIGHT, CHANGED, 1, "4,3"))
        self.parts.append(box(LEFT, self.top, WIDTH, HEIGHT, "none", "#808080"))

    def curve(self, number, name, points):
        colour, dashes = STYLES[number][0], STYLES[number][1] if number else "none"
        for run in runs_of(points):
            along = " ".join(f"{self.across(x):.1f},{self.up(y):.1f}" for x, y in run)
            self.parts.append(f'<polyline fill="none" stroke="{colour}" stroke-width="1.5" stroke-dasharray="{dashes}" points="{along}"/>')
            if len(run) == 1:
                self.parts.append(f'<circle cx="{self.across(run[0][0]):.1f}" cy="{self.up(run[0][1]):.1f}" r="2" fill="{colour}"/>')
        self.name(number, name, colour, dashes)

    def name(self, number, name, colour, dashes):
        at = self.top + 12 + LINE * number
        self.parts += [line(LEFT + WIDTH + 10, at - 4, LEFT + WIDTH + 40, at - 4, colour, 2, dashes), text(LEFT + WIDTH + 46, at, name)]


def draw(path, report):
    """Draws the charts of a report."""
    spans, step = spans_of(report)
    end = max([report.at, *(at + step for at in spans)])
    x = times(end)
    changes = [at for (at, now), (_, before) in zip(report.changes[1:], report.changes) if now != before]
    mer = Chart(TOP, x, Axis("", 0, MOST_MER, list(range(0, MOST_MER + 1, 10))))
    ratios = Chart(TOP + HEIGHT + BETWEEN, x, Axis("", math.log10(LEAST_BER), 0, list(range(-8, 1, 2)), [f"1e{it}" if it else "1" for it in range(-8, 1, 2)]))
    for chart in (mer, ratios):
        chart.frame(report.gaps, changes)
    mer.curve(0, "MER, dB", points_of(spans, step, lambda it: it.mer))
    mer.curve(1, "the least", points_of(spans, step, lambda it: it.least))
    names = [name for name in ("hp", "lp") if any(name in it.streams for it in spans.values())]
    for number, (name, at, words) in enumerate((name, at, words) for name in names for at, words in ((0, "before Viterbi"), (1, "before RS"))):
        ratios.curve(number, f"{name.upper()} {words}", points_of(spans, step, lambda it: logarithm(it.streams[name][at]) if name in it.streams else None))
    ratios.name(2 * len(names), "2e-4", "#d55e00", "6,4")
    ratios.parts.append(line(LEFT, ratios.up(math.log10(LIMIT)), LEFT + WIDTH, ratios.up(math.log10(LIMIT)), "#d55e00", 1, "6,4"))
    below = ratios.top + HEIGHT + 2 * LINE + 4
    words = text(LEFT + WIDTH / 2, below, "time of the signal; grey: without reception; dashed: the parameters change", "middle")
    save(path, LEFT + WIDTH + RIGHT, below + 12, [*mer.parts, *ratios.parts, words])


def times(end):
    """The axis of the time."""
    step = next((it for it in STEPS if end <= 9 * it), math.ceil(end / 9 / 86400) * 86400)
    ticks = list(range(0, math.floor(end) + 1, step))
    return Axis("", 0, max(end, 1e-3), ticks, [clock(it) for it in ticks])


def spans_of(report):
    """The spans of the picture by the second at which they begin, and how long each is: the parts from the JSON, or the minutes of a log."""
    if report.parts:
        return report.parts, report.step
    return {60 * minute: it for minute, it in report.minutes.items()}, 60


def points_of(spans, step, value):
    """The points of a curve, in the middle of their spans, with gaps where there is no span."""
    points, last = [], None
    for at in sorted(spans):
        if last is not None and at > last + 2 * step:
            points.append((at, None))
        points.append((at + step / 2, value(spans[at])))
        last = at
    return points


def logarithm(ratio):
    return None if ratio is None else math.log10(max(ratio, LEAST_BER))
