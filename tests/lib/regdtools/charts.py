"""Draws lines over two axes as SVG, without a library.

A picture has a title, the unit of the vertical axis below it, the axes, the lines with a mark at each point, the name of each line at its
right end, and a caption with the source. Its style asks for the reader's colour scheme. The picture has its own background, so it is legible
also on a page of the other scheme. Texts are escaped. What a picture can't show is a ValueError: a point outside the axes, a text that is
too wide, or too many lines.
"""
import collections
import html
import itertools
import math
import textwrap

WIDTH, HEIGHT = 720, 300  # of the picture, and of the part between the axes, in pixels
MARGIN, INSET, GAP = 20, 14, 17  # around everything, between an axis and the first point, between two names
SIZES = {"title": 16, "name": 13, "tick": 12, "caption": 11}
WIDE = 0.6  # the width of a character of a sans-serif font, of its size: seldom more on average
# the colours on a light and on a dark page; those of the lines have numbers
COLOURS = {"background": ("#ffffff", "#0d1117"), "text": ("#1f2328", "#f0f6fc"), "quiet": ("#59636e", "#9198a1"), "grid": ("#d1d9e0", "#3d444d")}
LINES = [("#0550ae", "#58a6ff"), ("#bc4c00", "#f0883e"), ("#59636e", "#9198a1"), ("#1a7f37", "#3fb950"), ("#8250df", "#bc8cff"),
         ("#bf3989", "#f778ba")]

# a line: its name, the number of its colour, its points, and whether it is dashed
Line = collections.namedtuple("Line", "name colour points is_dashed", defaults=[False])
# an axis: its title, and the values with a tick, from its low end to its high end; the ticks have `texts` in place of the values, if given
Axis = collections.namedtuple("Axis", "title ticks is_log texts", defaults=[False, None])


def ticks_from_zero(highest):
    """Returns ticks from 0 to the first one that is not below a positive value: 3 to 6 steps of 1, 2 or 5 times a power of ten."""
    power = 10 ** math.floor(math.log10(highest))
    step = next(step for step in (power / 5, power / 2, power, 2 * power) if highest / step <= 6)
    return [step * number for number in range(math.ceil(highest / step - 1e-9) + 1)]


def ticks_of_log(lowest, highest):
    """Returns the ticks of 1, 2 and 5 times a power of ten around two positive values, from the last one that is not above the lower value."""
    every = [factor * 10.0**power for power in range(-9, 13) for factor in (1, 2, 5)]
    first, last = max(tick for tick in every if tick <= lowest), min(tick for tick in every if tick >= highest)
    return [tick for tick in every if first <= tick <= last]


def number(value):
    """Returns a number with separators, and without a point if it is whole."""
    return f"{value:,.0f}" if value == round(value) else f"{value:g}"


def title_of(axis):
    """Returns the title of an axis as it is shown."""
    return axis.title + " (logarithmic)" * axis.is_log


def share(axis, value):
    """Returns where a value is on an axis, from 0 to 1."""
    low, high = axis.ticks[0], axis.ticks[-1]
    if not low <= value <= high or axis.is_log and low <= 0:
        raise ValueError(f"{axis.title}: {value:g} is not on the axis from {low:g} to {high:g}")
    place = math.log if axis.is_log else float
    return (place(value) - place(low)) / (place(high) - place(low))


def width(text, size):
    """Returns an estimate of the width of a text."""
    return len(text) * SIZES[size] * WIDE


def text_of(x, y, text, size="tick", colour="quiet", anchor="start"):
    """Returns an element with an escaped text."""
    left = x - width(text, size) * {"start": 0, "middle": 0.5, "end": 1}[anchor]
    if not text.isprintable():
        raise ValueError(f"a text with a control character: {text!r}")
    if left < 0 or left + width(text, size) > WIDTH:
        raise ValueError(f"too wide for the picture: {text}")
    return f'<text class="{colour} {size}" x="{x:.1f}" y="{y:.1f}" text-anchor="{anchor}">{html.escape(text)}</text>'


def path_of(points, style):
    """Returns an element that joins points."""
    return f'<path class="{style}" d="M{" L".join(f"{x:.1f} {y:.1f}" for x, y in points)}"/>'


def apart(places, low, high):
    """Returns the places of names, from the top, moved as little as necessary: no two are closer than GAP, and all are between low and high."""
    if (len(places) - 1) * GAP > high - low:
        raise ValueError(f"{len(places)} names don't fit next to the lines")
    downwards = list(itertools.accumulate(places, lambda before, place: max(place, before + GAP)))
    ends = itertools.accumulate(reversed(downwards), lambda after, place: min(place, after - GAP), initial=high + GAP)
    return list(ends)[:0:-1]


def style():
    """Returns the rules for both colour schemes."""
    def rules(scheme):
        one = {name: colours[scheme] for name, colours in COLOURS.items()}
        lines = [colours[scheme] for colours in LINES]
        fills = {name: one[name] for name in ("background", "text", "quiet")} | {f"fill{at}": colour for at, colour in enumerate(lines)}
        strokes = {"axis": one["quiet"], "rule": one["grid"]} | {f"line{at}": colour for at, colour in enumerate(lines)}
        return " ".join([*(f".{name}{{fill:{colour}}}" for name, colour in fills.items()),
                         *(f".{name}{{stroke:{colour}}}" for name, colour in strokes.items())])
    sizes = " ".join(f".{name}{{font-size:{size}px}}" for name, size in SIZES.items())
    return ["<style>", "text{font-family:system-ui,-apple-system,'Segoe UI',Helvetica,Arial,sans-serif} path{fill:none} "
            ".axis,.rule{shape-rendering:crispEdges} .line{stroke-width:2} .dashed{stroke-dasharray:6 4} .title,.name{font-weight:600}",
            sizes, rules(0), f"@media (prefers-color-scheme:dark){{{rules(1)}}}", "</style>"]


def draw(title, x_axis, y_axis, lines, caption):
    """Returns the text of an SVG file."""
    ticks = [[*(axis.texts or map(number, axis.ticks))] for axis in (x_axis, y_axis)]
    left = MARGIN + max(width(text, "tick") for text in ticks[1]) + 8
    right = WIDTH - MARGIN - max(width(line.name, "name") for line in lines) - 24
    top = MARGIN + 56
    bottom = top + HEIGHT
    rows = textwrap.wrap(caption, int((WIDTH - 2 * MARGIN) / SIZES["caption"] / WIDE))
    height = bottom + 64 + 15 * len(rows)

    def across(value):
        return left + INSET + share(x_axis, value) * (right - left - 2 * INSET)

    def up(value):
        return bottom - share(y_axis, value) * HEIGHT

    drawn = [f'<rect class="background" width="{WIDTH}" height="{height}"/>', text_of(MARGIN, MARGIN + 14, title, "title", "text"),
             text_of(MARGIN, MARGIN + 38, title_of(y_axis))]
    for value, text in zip(y_axis.ticks, ticks[1]):
        drawn.append(path_of([(left, up(value)), (right, up(value))], "rule"))
        drawn.append(text_of(left - 8, up(value) + 4, text, anchor="end"))
    drawn.append(path_of([(left, bottom), (right, bottom)], "axis"))
    for value, text in zip(x_axis.ticks, ticks[0]):
        drawn.append(path_of([(across(value), bottom), (across(value), bottom + 5)], "axis"))
        drawn.append(text_of(across(value), bottom + 20, text, anchor="middle"))
    drawn.append(text_of((left + right) / 2, bottom + 40, title_of(x_axis), anchor="middle"))
    placed = sorted((line._replace(points=[(across(x), up(y)) for x, y in line.points]) for line in lines), key=lambda line: line.points[-1][1])
    for line in placed:
        drawn.append(path_of(line.points, f"line{line.colour} line" + " dashed" * line.is_dashed))
        drawn += [f'<circle class="fill{line.colour}" cx="{x:.1f}" cy="{y:.1f}" r="4"/>' for x, y in line.points]
    for line, y in zip(placed, apart([line.points[-1][1] for line in placed], top, bottom)):
        drawn.append(path_of([(line.points[-1][0] + 7, line.points[-1][1]), (right + 8, y)], f"line{line.colour}"))
        drawn.append(text_of(right + 12, y + 4, line.name, "name", f"fill{line.colour}"))
    drawn += [text_of(MARGIN, bottom + 66 + 15 * at, row, "caption") for at, row in enumerate(rows)]
    head = (f'<svg xmlns="http://www.w3.org/2000/svg" width="{WIDTH}" height="{height}" viewBox="0 0 {WIDTH} {height}" role="img" '
            f'aria-labelledby="title">')
    return "\n".join([head, f'<title id="title">{html.escape(title)}</title>', *style(), *drawn, "</svg>", ""])
