"""Draws each call as a bar from its invoke to its reply, with a line through the earliest moments of the rows."""
from .axis import Axis
from .markup import tag

LOW_ROW, HIGH_ROW = 26, 42
HEAD = 26
THICK = 12
KEY_WIDTH, KEY_HEIGHT = 34, 18
OVERVIEW_HEIGHT = 260


def percent(position):
    return f"{position:g}%"


def line(x1, y1, x2, y2, class_):
    return tag("line", x1=percent(x1), y1=f"{y1:g}", x2=percent(x2), y2=f"{y2:g}", class_=class_)


def cross(at, middle, class_):
    return tag("svg", tag("use", href="#cross"), x=percent(at), y=f"{middle:g}", class_=class_)


def svg(*parts, **attributes):
    return tag("svg", *parts, width="100%", **attributes)


def definitions():
    """Returns what all drawings of the page share."""
    hatch = tag(
        "pattern",
        tag("rect", width=6, height=6, class_="hatch-ground"),
        tag("line", x1=0, y1=0, x2=0, y2=6, class_="hatch-line"),
        id="hatch", width=6, height=6, patternUnits="userSpaceOnUse", patternTransform="rotate(45)",
    )
    return svg(tag("defs", hatch, tag("path", d="M-4,-4L4,4M-4,4L4,-4", id="cross")), class_="hidden", height=0, aria_hidden="true")


def key(*parts):
    """Returns a small drawing for the legend."""
    return tag("svg", *parts, width=KEY_WIDTH, height=KEY_HEIGHT, class_="key", aria_hidden="true")


def axis_of(rows):
    """Returns the axis of some rows. If a row has no reply, the axis leaves room for a note after the last event."""
    return Axis([stamp for row in rows for stamp in row.stamps()], has_open=any(row.replied is None for row in rows))


def numbers(axis):
    """Returns the numbers of an axis."""
    ticks = axis.ticks()
    texts = [tag("text", str(number), x=percent(at), y=15, class_=f"tick {side(number, at)}") for number, at in ticks]
    texts += [tag("text", "⋯", x=percent(at), y=22, class_="tick") for at in axis.gaps()]
    return [texts, [line(at, 20, at, HEAD, "grid") for _, at in ticks]]


def side(number, at):
    """Returns the side of its tick for a number, so that a long one isn't cut at an edge."""
    if len(str(number)) < 6:
        return "middle"
    return "before" if at > 80 else "behind" if at < 5 else "middle"


class Drawing:
    """The drawings of the rows of one part of the page, all on one axis."""

    def __init__(self, rows, part, height):
        self.axis, self.part, self.height = axis_of(rows), part, height
        self.middle, self.top, self.bottom = height / 2, height / 2 - THICK / 2, height / 2 + THICK / 2

    def head(self):
        """Returns the axis above the rows, with the grid of all rows."""
        grid = [line(at, 0, at, self.height, "grid") for _, at in self.axis.ticks()]
        grid += [line(at, 0, at, self.height, "gap") for at in self.axis.gaps()]
        defs = tag("defs", tag("g", grid, id=f"grid-{self.part}"))
        return svg(defs, numbers(self.axis), class_="axis", height=HEAD, aria_hidden="true")

    def row(self, row, above):
        """Returns the drawing of a row. `above` is the moment of the row above."""
        parts = [tag("use", href=f"#grid-{self.part}"), self.bar(row), self.events(row), self.path(row, above)]
        return svg(tag("title", spoken(row)), parts, class_=f"drawing {row.kind}", height=self.height, role="img")

    def bar(self, row):
        """Returns the bar from the invoke to the reply. Without a reply its end is open. With the reply first it has a cross."""
        start = self.axis.at(row.invoked)
        if row.replied is None:
            return [
                tag("rect", x=percent(start), y=self.top, width=percent(100 - start), height=THICK, class_="bar open"),
                line(start, self.top - 2, start, self.bottom + 2, "edge"),
                tag("text", "no reply", x="100%", y=self.middle + 3.5, dx=-4, class_="open-end"),
            ]
        end = self.axis.at(row.replied)
        left, right = min(start, end), max(start, end)
        class_ = "bar turned" if row.is_turned() else "bar"
        return [
            tag("rect", x=percent(left), y=self.top, width=percent(right - left), height=THICK, class_=class_),
            line(start, self.top - 2, start, self.bottom + 2, "edge"),
            line(end, self.top, end, self.bottom, "edge"),
            cross(end, self.middle, "cross fault-mark") if row.is_turned() else None,
        ]

    def events(self, row):
        """Returns the marks of the begin, and of the event that determined the outcome, if there is one."""
        if row.report is None or row.report.begun is None:
            return None
        begun, decided = self.axis.at(row.report.begun), self.axis.at(row.report.decided())
        begin = line(begun, self.top + 2, begun, self.bottom - 2, "begin")
        if row.kind == "waiting":
            return begin
        if row.report.is_conflict():
            return [begin, cross(decided, self.middle, "cross")]
        dot = tag("circle", cx=percent(decided), cy=f"{self.middle:g}", r=4, class_="decided")
        return dot if begun == decided else [begin, dot]

    def path(self, row, above):
        """Returns the line through the row: from the moment above to that of this row, and down; and how far it misses the bar."""
        if row.moment is None:
            return None
        now = self.axis.at(row.moment)
        class_ = "path" if row.record else "path passing"
        step = line(self.axis.at(above), 0, now, 0, class_) if above not in (None, row.moment) else None
        parts = [step, line(now, 0, now, self.height, class_)]
        if row.is_missed():
            parts.append(line(self.axis.at(max(row.replied, row.invoked)), self.middle, now, self.middle, "missed"))
            parts.append(cross(now, self.middle, "cross fault-mark"))
        return parts


def spoken(row):
    """Describes the drawing in words."""
    words = [f"call {row.call}: invoked {row.invoked}"]
    if row.report and row.report.begun is not None:
        words.append(f"begun {row.report.begun}")
    if row.report and row.report.committed_at is not None:
        words.append(f"commit {row.report.committed_at}")
    words.append("no reply" if row.replied is None else f"replied {row.replied}")
    return ", ".join(words)


def overview(rows, parts):
    """Returns a thin bar for each call of the run, and for each part a field that links to it."""
    axis, high = axis_of(rows), min(6, OVERVIEW_HEIGHT / len(rows))
    bars = [overview_bar(row, axis, index * high, high) for index, row in enumerate(rows)]
    fields, top = [], 0
    for number, part in enumerate(parts, 1):
        name = {"x": 4, "class_": "field-name"} if number > len(parts) / 2 else {"x": "100%", "dx": -14, "class_": "field-name right"}
        fields.append(overview_field(number, len(part), top * high, len(part) * high, name))
        top += len(part)
    head = svg(numbers(axis), class_="axis", height=HEAD, aria_hidden="true")
    height = f"{len(rows) * high:.1f}"
    drawn = [bars, overview_path(rows, axis, high), fields]
    return [head, svg(drawn, class_="overview", height=height, role="img", aria_label="all calls of the run")]


def overview_bar(row, axis, top, high):
    start = axis.at(row.invoked)
    end = 100 if row.replied is None else axis.at(row.replied)
    bar = small(min(start, end), max(abs(end - start), 0.15), top, max(high * 0.8, 0.8), row.kind)
    return [bar, small(99.2, 0.8, top, max(high, 2), "noted") if row.notes else None]


def small(left, width, top, height, kind):
    x, y, width, height = percent(left), f"{top:.2f}", percent(round(width, 3)), f"{height:.2f}"
    return tag("rect", x=x, y=y, width=width, height=height, class_=f"small {kind}")


def overview_field(number, calls, top, height, name):
    """Returns the field of a part. Its name is in a corner without bars, which run from the upper left to the lower right."""
    title = tag("title", f"part {number}: {calls} calls")
    field = tag("rect", title, x=0, y=f"{top:.2f}", width="100%", height=f"{height:.2f}", class_="field")
    named = tag("text", f"part {number}", y=f"{top + 12:.2f}", **name) if height >= 14 else None
    return tag("a", named, field, href=f"#part-{number}")


def overview_path(rows, axis, high):
    parts, before = [], None
    for index, row in enumerate(rows):
        if row.moment is None:
            continue
        now, y = axis.at(row.moment), index * high
        if before is not None and before != now:
            parts.append(line(before, y, now, y, "path"))
        parts.append(line(now, y, now, y + high, "path"))
        before = now
    return parts
