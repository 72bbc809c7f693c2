#!/usr/bin/env python3
"""Draw the output of table.sh from lines of compare.sh: one panel per footprint, mean ratios against
seconds; lower is better.

bench/plot.py LINES OUT.svg
"""
import math
import pathlib
import subprocess
import sys
from html import escape
from typing import Callable, NamedTuple

PANEL_WIDTH, PANEL_HEIGHT = 370, 250
COLUMN, ROW = PANEL_WIDTH + 50, PANEL_HEIGHT + 60
LEFT, TOP, BOTTOM = 60, 70, 20
LETTER, LINE = 7, 13

# Each series has a colour for light surroundings and one for dark.
COLOURS = [("#0b62a8", "#6cb6ff"), ("#b34700", "#ff9a57"), ("#00775a", "#4fd1a5"), ("#7a3fa0", "#cfa0f0")]


def style():
    def colours(which, paper, ink, grid):
        series = "".join(f" .series{i} {{ color: {pair[which]} }}" for i, pair in enumerate(COLOURS))
        return f"svg {{ color: {ink} }} .paper {{ fill: {paper} }} .grid {{ stroke: {grid} }} text {{ stroke: {paper} }}{series}"

    return f"""<style>
text {{ font: 12px system-ui, sans-serif; fill: currentColor; stroke-width: 3; paint-order: stroke }}
.footprint {{ font-weight: bold }}
.grid {{ stroke-width: 1; fill: none }}
.one {{ stroke: currentColor; opacity: 0.5 }}
.run {{ stroke: currentColor; stroke-width: 1.5; fill: none; opacity: 0.6 }}
.mark {{ fill: currentColor; stroke: currentColor; stroke-width: 2 }}
.mark.open {{ fill: none }}
{colours(0, "#ffffff", "#24292f", "#d8dee4")}
@media (prefers-color-scheme: dark) {{ {colours(1, "#0d1117", "#d0d7de", "#30363d")} }}
</style>"""


class Point(NamedTuple):
    footprint: str
    series: str
    label: str
    ratio: float
    seconds: float


def series_and_label(packed_by):
    if packed_by.startswith("astcenc-"):
        return "astcenc", packed_by.removeprefix("astcenc")
    preset, *options = packed_by.split("+")
    return " ".join(["astc_tool", *options]), preset


def read_points(lines):
    table = subprocess.run([pathlib.Path(__file__).with_name("table.sh"), lines], check=True, stdout=subprocess.PIPE, text=True)
    points = []
    for line in table.stdout.splitlines()[2:]:
        cells = [cell.strip() for cell in line.split("|")]
        if len(cells) > 9 and cells[6]:
            points.append(Point(cells[1], *series_and_label(cells[2]), float(cells[6]), float(cells[9])))
    return points or sys.exit("plot.py: no line has a ratio to astcenc -medium")


class Axis(NamedTuple):
    """Values from low to high become 0 to length; ticks are values."""

    low: float
    high: float
    length: int
    ticks: list
    scale: Callable

    def place(self, value):
        low, high = self.scale(self.low), self.scale(self.high)
        return (self.scale(value) - low) / (high - low) * self.length


def seconds_axis(points):
    seconds = [max(point.seconds, 0.001) for point in points]
    low, high = min(seconds) / 1.5, max(seconds) * 1.5
    ticks = [digit * 10.0**power for power in range(-4, 5) for digit in (1, 2, 5)]
    return Axis(low, high, PANEL_WIDTH, [tick for tick in ticks if low <= tick <= high], math.log10)


def ratio_axis(points):
    least, most = min(point.ratio for point in points), max(point.ratio for point in points)
    step = next(step for step in (0.02, 0.05, 0.1, 0.2, 0.5, 1, 2, 5, 10, 100) if (most - least) / step <= 6)
    first, last = math.floor(least / step - 0.2), math.ceil(most / step + 0.2)
    return Axis(first * step, last * step, PANEL_HEIGHT, [tick * step for tick in range(first, last + 1)], float)


def marker(x, y, index, title):
    """A disc or a square for the first two series, a ring for others."""
    form = f'rect class="mark" x="{x - 3.5:.1f}" y="{y - 3.5:.1f}" width="7" height="7"' if index == 1 else \
        f'circle class="mark{" open" if index > 1 else ""}" cx="{x:.1f}" cy="{y:.1f}" r="4"'
    return f'<g class="series{index}"><{form}><title>{escape(title)}</title></{form.split()[0]}></g>'


def overlap(box, other):
    return max(0, min(box[2], other[2]) - max(box[0], other[0])) * max(0, min(box[3], other[3]) - max(box[1], other[1]))


class Label(NamedTuple):
    anchor: str
    x: float
    box: tuple


def labels_around(x, y, text):
    """The places that a label can have near a point: to its right, to its left, above, below, at its corners."""
    width, left, right = LETTER * len(text), x - 8, x + 8
    for top in (y - LINE / 2, y - LINE, y):
        yield Label("start", right, (right, top, right + width, top + LINE))
        yield Label("end", left, (left - width, top, left, top + LINE))
    for top in (y - LINE - 6, y + 6):
        yield Label("middle", x, (x - width / 2, top, x + width / 2, top + LINE))


def place_label(x, y, text, taken):
    """The label of a point that hides least of the boxes that are taken."""

    def hidden(label):
        left, top, right, bottom = label.box
        outside = max(0, -left) + max(0, right - PANEL_WIDTH) + max(0, -top) + max(0, bottom - PANEL_HEIGHT)
        return outside * LINE + sum(overlap(label.box, other) for other in taken)

    return min(labels_around(x, y, text), key=hidden)


def draw_axes(across, up, footprint):
    yield f'<rect class="grid" width="{PANEL_WIDTH}" height="{PANEL_HEIGHT}"/>'
    for tick in across.ticks:
        x = across.place(tick)
        yield f'<path class="grid" d="M{x:.1f} 0V{PANEL_HEIGHT}"/>'
        yield f'<text x="{x:.1f}" y="{PANEL_HEIGHT + 16}" text-anchor="middle">{tick:g}</text>'
    for tick in up.ticks:
        y = PANEL_HEIGHT - up.place(tick)
        yield f'<path class="grid" d="M0 {y:.1f}H{PANEL_WIDTH}"/>'
        yield f'<text x="-6" y="{y + 4:.1f}" text-anchor="end">{tick:g}</text>'
    if up.low <= 1 <= up.high:
        yield f'<path class="one" d="M0 {PANEL_HEIGHT - up.place(1):.1f}H{PANEL_WIDTH}"/>'
    yield f'<text class="footprint" x="0" y="-8">{escape(footprint)}</text>'


def draw_panel(points, series, across, up):
    """The parts of a panel, from its upper left corner."""
    yield from draw_axes(across, up, points[0].footprint)
    places = {point: (across.place(max(point.seconds, 0.001)), PANEL_HEIGHT - up.place(point.ratio)) for point in points}
    for index, name in enumerate(series):
        run = sorted((point for point in points if point.series == name), key=lambda point: point.seconds)
        if len(run) > 1:
            path = "L".join("{:.1f} {:.1f}".format(*places[point]) for point in run)
            yield f'<path class="run series{index}" d="M{path}"/>'
    taken = [(x - 5, y - 5, x + 5, y + 5) for x, y in places.values()]
    for point, (x, y) in places.items():
        label = place_label(x, y, point.label, taken)
        taken.append(label.box)
        line = f'x="{label.x:.1f}" y="{label.box[3] - 2.5:.1f}" text-anchor="{label.anchor}"'
        yield f'<text class="series{series.index(point.series)}" {line}>{escape(point.label)}</text>'
    for point, (x, y) in places.items():
        yield marker(x, y, series.index(point.series), f"{point.series} {point.label}: {point.ratio:.3f}, {point.seconds:g} s")


def draw_legend(series):
    x = LEFT
    for index, name in enumerate(series):
        yield marker(x + 5, 22, index, name)
        yield f'<text x="{x + 15}" y="26">{escape(name)}</text>'
        x += 40 + LETTER * len(name)


def draw(points):
    footprints = list(dict.fromkeys(point.footprint for point in points))
    series = sorted({point.series for point in points}, key=lambda name: (name != "astc_tool", name != "astcenc", name))
    across, up = seconds_axis(points), ratio_axis(points)
    columns = min(2, len(footprints))
    width = LEFT + columns * COLUMN
    height = TOP + math.ceil(len(footprints) / columns) * ROW + BOTTOM
    yield f'<svg xmlns="http://www.w3.org/2000/svg" viewBox="0 0 {width} {height}" width="{width}" height="{height}" role="img">'
    yield "<title>Errors against seconds, astc_tool and astcenc</title>"
    yield style()
    yield '<rect class="paper" width="100%" height="100%"/>'
    yield from draw_legend(series)
    for place, footprint in enumerate(footprints):
        row, column = divmod(place, columns)
        yield f'<g transform="translate({LEFT + column * COLUMN} {TOP + row * ROW})">'
        yield from draw_panel([point for point in points if point.footprint == footprint], series, across, up)
        yield "</g>"
    yield f'<text x="{width / 2}" y="{height - 14}" text-anchor="middle">seconds of processor a picture</text>'
    yield f'<text transform="translate(16 {height / 2}) rotate(-90)" text-anchor="middle">errors, mean ratio to astcenc -medium</text>'
    yield "</svg>"


if __name__ == "__main__":
    if len(sys.argv) != 3:
        sys.exit(__doc__)
    pathlib.Path(sys.argv[2]).write_text("\n".join(draw(read_points(sys.argv[1]))) + "\n")
