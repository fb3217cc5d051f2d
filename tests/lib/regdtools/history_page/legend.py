"""Explains the drawings on the page: a small sample and a sentence or two for each thing that occurs."""
from .markup import tag
from .timeline import KEY_HEIGHT, axis_of, key

MIDDLE = KEY_HEIGHT / 2


def items(rows, parts, answers):
    """Yields pairs of a sample and its explanation."""
    yield rows_explained()
    yield line_explained()
    if any(row.is_missed() for row in rows):
        yield missed_explained()
    if any(row.is_turned() for row in rows):
        yield turned_explained()
    if any(row.record and row.replied is None for row in rows):
        yield open_explained()
    if answers:
        yield decided_explained()
    if any(row.kind == "conflict" for row in rows):
        yield conflict_explained()
    if any(axis_of(part).gaps() for part in parts):
        yield "⋯", "Some event numbers are left out here: no call below has an event at them."


def bar(left, right, class_="bar"):
    return tag("rect", x=left, y=MIDDLE - 5, width=right - left, height=10, class_=class_)


def stroke(x1, y1, x2, y2, class_):
    return tag("line", x1=x1, y1=y1, x2=x2, y2=y2, class_=class_)


def cross(x, class_):
    return tag("svg", tag("use", href="#cross"), x=x, y=MIDDLE, class_=class_)


def sample(kind, *parts):
    return key(tag("g", parts, class_=kind))


def rows_explained():
    drawn = sample("committed", bar(4, 30), stroke(4, 2, 4, 16, "edge"))
    return drawn, [
        "A call, from its invoke to its reply. The axis has the numbers of the accepted events. The rows are in the order of the records, ",
        "which claims to be a serial order of the calls. ", tag("b", "Place"), " is the commit number of the state that a call read; with ",
        "an arrow, of the state that it created. Rows of one shade share a state. Open a row for the operations and the replies, in which ",
        "long texts are cut.",
    ]


def line_explained():
    drawn = sample("committed", bar(8, 34), stroke(2, 2, 14, 2, "path"), stroke(14, 2, 14, 18, "path"))
    return drawn, [
        tag("b", "The line"), " never moves to the left. In each row it shows the earliest moment at which the call can have taken effect ",
        "after all calls above it. If the line meets every bar, each call can have taken effect at one moment between its invoke and its ",
        "reply, in this order. Only ", tag("code", "regd audit"), " checks that each reply is right in this order.",
    ]


def missed_explained():
    line = [stroke(12, MIDDLE, 26, MIDDLE, "missed"), stroke(26, 0, 26, 18, "path"), cross(26, "cross fault-mark")]
    return sample("committed", bar(0, 12), line), "The line misses this bar: the call replied before a call above it was invoked."


def turned_explained():
    drawn = sample("committed", bar(6, 28, "bar turned"), stroke(28, 2, 28, 16, "edge"), cross(6, "cross fault-mark"))
    return drawn, "The reply of this call, at the cross, doesn't come after its invoke."


def open_explained():
    drawn = sample("committed", bar(4, 34, "bar open"), stroke(4, 2, 4, 16, "edge"))
    return drawn, "A call without a reply. The order has such a call only if it committed."


def decided_explained():
    dot = tag("circle", cx=23, cy=MIDDLE, r=4, class_="decided")
    return sample("committed", bar(2, 32), stroke(9, MIDDLE - 4, 9, MIDDLE + 4, "begin"), dot), [
        "From the answers of the schedule: the dot is the event that determined the commit number of the call. That is its commit, or ",
        "its begin if it had no commit. The short stroke is the begin of a call with a commit. A row without a line number is not in the ",
        "records.",
    ]


def conflict_explained():
    return sample("conflict", bar(2, 32), cross(22, "cross")), [
        "A conflict; the cross is its commit. Between its begin and its commit another call wrote something that it had read. It is not ",
        "part of the order, and the reference implementation never runs its batch.",
    ]
