"""Draws the growth as an SVG: two panels, both axes logarithmic, each line labelled at its end."""

import math

PANEL_WIDTH, HEIGHT, GAP = 300, 300, 190
LEFT, TOP = 60, 56
LABEL_SPACE = 15
COLORS = ("#1f5fa8", "#c2521b", "#2c7a3f", "#8a3fa0", "#b0892a", "#444444", "#0f8a8a", "#c03060", "#6b8e23")
FONT = 'font-family="sans-serif" font-size="12"'


def longest_of(size):
    return max(cpu for cpu, _ in size["longest"].values())


def row(key, unit):
    return lambda size: size["rows"][key] * unit


PANELS = (
    (
        "processor's time, µs",
        (
            ("PUT", row("PUT", 1e6)),
            ("REFRESH", row("REFRESH", 1e6)),
            ("GET", row("GET", 1e6)),
            ("FIND .", row("FIND .", 1e6)),
            ("PUT to CLOSE", row("cycle", 1e6)),
            ("FIND +price", row("FIND +price", 1e6)),
            ("FIND +brand", row("FIND +brand", 1e6)),
            ("FACETS, the first", row("FACETS first", 1e6)),
            ("FACETS again", row("FACETS color", 1e6)),
        ),
    ),
    (
        "ms, or MB",
        (
            ("longest line, ms", lambda size: longest_of(size) * 1e3),
            ("opening, ms", row("opening", 1e3)),
            ("peak memory, MB", row("peak memory", 1)),
        ),
    ),
)


class Axes:
    """Where a number of items and a value lie in a panel."""

    def __init__(self, left, counts, values):
        self.left = left
        self.x_low, self.x_high = math.log10(counts[0]), math.log10(counts[-1])
        self.low = math.floor(math.log10(min(values)))
        self.high = max(math.ceil(math.log10(max(values))), self.low + 1)

    def x(self, count):
        span = self.x_high - self.x_low or 1.0
        return self.left + PANEL_WIDTH * (math.log10(count) - self.x_low) / span

    def y(self, value):
        return TOP + HEIGHT * (self.high - math.log10(value)) / (self.high - self.low)


def text(x, y, words, anchor="start", color="#222222"):
    return f'<text x="{x:.1f}" y="{y:.1f}" text-anchor="{anchor}" fill="{color}" {FONT}>{words}</text>'


def line(x1, y1, x2, y2, color):
    return f'<line x1="{x1:.1f}" y1="{y1:.1f}" x2="{x2:.1f}" y2="{y2:.1f}" stroke="{color}"/>'


def grid(axes, counts, title):
    right, bottom = axes.left + PANEL_WIDTH, TOP + HEIGHT
    parts = [text(axes.left, TOP - 16, title)]
    for power in range(axes.low, axes.high + 1):
        y = axes.y(10.0**power)
        label = f"{10**power:,}" if power >= 0 else f"{10.0**power:.{-power}f}"
        parts += [line(axes.left, y, right, y, "#dddddd"), text(axes.left - 6, y + 4, label, "end")]
    for count in counts:
        x = axes.x(count)
        parts += [line(x, TOP, x, bottom, "#dddddd"), text(x, bottom + 18, f"{count:,}", "middle")]
    parts.append(text(axes.left + PANEL_WIDTH / 2, bottom + 38, "items", "middle"))
    return parts


def spread(places):
    """The places of labels, in the same order, moved apart as far as is due."""
    placed = {}
    last = -math.inf
    for place, index in sorted((place, index) for index, place in enumerate(places)):
        last = max(place, last + LABEL_SPACE)
        placed[index] = last
    return [placed[index] for index in range(len(places))]


def curves(axes, counts, series, sizes):
    parts, ends = [], []
    for (_, value), color in zip(series, COLORS):
        points = [(axes.x(count), axes.y(value(size))) for count, size in zip(counts, sizes)]
        spelled = " ".join(f"{x:.1f},{y:.1f}" for x, y in points)
        parts.append(f'<polyline points="{spelled}" fill="none" stroke="{color}" stroke-width="2"/>')
        parts += [f'<circle cx="{x:.1f}" cy="{y:.1f}" r="3" fill="{color}"/>' for x, y in points]
        ends.append(points[-1][1])
    for (label, _), color, y in zip(series, COLORS, spread(ends)):
        parts.append(text(axes.left + PANEL_WIDTH + 10, y + 4, label, color=color))
    return parts


def draw(results):
    """The plot of what growth.py has measured, as the text of an SVG."""
    counts = sorted(map(int, results["sizes"]))
    sizes = [results["sizes"][str(count)] for count in counts]
    parts = []
    for place, (title, series) in enumerate(PANELS):
        values = [value(size) for _, value in series for size in sizes]
        axes = Axes(LEFT + place * (PANEL_WIDTH + GAP), counts, values)
        parts += grid(axes, counts, title) + curves(axes, counts, series, sizes)
    width, height = LEFT + len(PANELS) * (PANEL_WIDTH + GAP), TOP + HEIGHT + 56
    head = f'<svg xmlns="http://www.w3.org/2000/svg" width="{width}" height="{height}" viewBox="0 0 {width} {height}">'
    return "\n".join([head, '<rect width="100%" height="100%" fill="white"/>', *parts, "</svg>"]) + "\n"
