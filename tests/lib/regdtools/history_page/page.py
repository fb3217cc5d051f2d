"""Builds the page: the summary of the run, the legend, and the calls in parts, each with an axis of its own."""
import os

from . import legend, timeline, wording
from .markup import Markup, joined, tag
from .rows import counts_of, notes_of, rows_of

MOST_ROWS = 40
MOST_HIGH_ROWS = 12
MOST_NAMED = 12
MOST_OPS = 4
MOST_MARKS = 64
COLUMNS = ("line", "call", "place", "result", "operations → results")
POLICY = "default-src 'none'; style-src 'unsafe-inline'; base-uri 'none'; form-action 'none'"


class Page:
    """The page of a run: its rows and the short names of what they contain."""

    def __init__(self, name, records, answers, verdict):
        self.name, self.records, self.answers, self.verdict = name, records, answers, verdict
        self.rows = rows_of(records, answers)
        notes_of(self.rows, answers)
        self.names = wording.Names(self.rows)
        self.makers = {row.report.commit_place: row for row in self.rows if row.report and row.report.commit == "committed"}
        self.parts = parts_of(self.rows)
        self.is_high = len(self.rows) <= MOST_HIGH_ROWS

    def text(self):
        heading = f"{self.name}: {plural(len(self.records), 'recorded call', 'recorded calls')}"
        head = tag(
            "head",
            tag("meta", charset="utf-8"),
            tag("meta", http_equiv="Content-Security-Policy", content=POLICY),
            tag("meta", name="viewport", content="width=device-width, initial-scale=1"),
            tag("title", heading),
            tag("style", style_sheet()),
        )
        calls = [self.all_parts(), self.legend()] if self.is_high else [self.legend(), self.overview(), self.all_parts()]
        body = tag("body", timeline.definitions(), tag("h1", heading), self.summary(), calls)
        return "<!doctype html>\n" + tag("html", joined([head, body]), lang="en") + "\n"

    def summary(self):
        """Returns the counts of the run, the verdict, and what is noticed in the rows."""
        counts = [
            tag("span", swatch(kind), f"{count} {wording.KINDS[kind]}", class_="count")
            for kind, count in counts_of(self.rows).items()
        ]
        return tag("section", tag("p", counts), tag("p", "; ".join(self.about()) + "."), self.verdict_shown(), self.noticed())

    def about(self):
        """Yields facts about the run as a whole, and what the page can't show."""
        yield plural(sum(row.kind == "committed" for row in self.rows), "state was created", "states were created")
        if self.names.domain:
            yield f"names without a domain belong to {wording.cut(self.names.domain, 120)}"
        if self.answers is None:
            yield "the records have no conflicts; the page shows conflicts only with the answers of the schedule"
        elif self.answers.refused:
            yield refused_lines(self.answers.refused)

    def verdict_shown(self):
        if self.verdict is None:
            return tag("p", "No verdict of ", tag("code", "regd audit"), " was given.", class_="verdict")
        if self.verdict.line is None:
            said = [tag("b", "yes"), ": the reference implementation confirms the records."]
            return tag("p", "The audit says ", said, class_="verdict yes")
        place = tag("a", f"line {self.verdict.line}", href=f"#line-{self.verdict.line}")
        said = [tag("b", "no"), ", at ", place, ": ", cause(self.verdict.why)]
        return tag("p", "The audit says ", said, " It doesn't judge the later lines, which are faded here.", class_="verdict no")

    def noticed(self):
        """Returns the first rows with notes."""
        noted = [row for row in self.rows if row.notes]
        if not noted:
            return None
        items = [tag("li", self.link(row, row_name(row)), ": ", "; ".join(row.notes), ".") for row in noted[:MOST_NAMED]]
        if len(noted) > MOST_NAMED:
            items.append(tag("li", f"and in {plural(len(noted) - MOST_NAMED, 'more call', 'more calls')}"))
        return tag("div", tag("p", "Noticed without running any batch:"), tag("ul", items), class_="seen")

    def legend(self):
        items = [[tag("dt", sample), tag("dd", text)] for sample, text in legend.items(self.rows, self.parts, self.answers)]
        return tag("details", tag("summary", "How to read this page"), tag("dl", items), class_="legend", open="")

    def overview(self):
        if len(self.parts) < 2:
            return None
        return tag("section", tag("h2", "The whole run"), timeline.overview(self.rows, self.parts))

    def all_parts(self):
        if not self.rows:
            return tag("p", "There are no calls.")
        sections, above = [], None
        for number, part in enumerate(self.parts, 1):
            sections.append(self.part(number, part, above))
            above = part[-1].moment
        return joined(sections)

    def part(self, number, part, above):
        """Returns some rows under their axis. `above` is the moment of the row above the first one."""
        drawing = timeline.Drawing(part, number, timeline.HIGH_ROW if self.is_high else timeline.LOW_ROW)
        head = tag("div", [tag("span", it) for it in COLUMNS], drawing.head(), class_="row head")
        rows = []
        for row in part:
            rows.append(self.row(row, drawing.row(row, above)))
            above = row.moment
        title = tag("h2", f"Part {number}", tag("small", part_name(part))) if len(self.parts) > 1 else None
        return tag("section", title, head, tag("ol", joined(rows)), id=f"part-{number}", class_="part high" if self.is_high else "part")

    def row(self, row, drawn):
        """Returns the row of a call, which opens to show all that is known about it."""
        cells = [
            tag("span", row.line() or "–", class_="number"),
            tag("span", row.call, class_="number", title=row.call),
            tag("span", place(row), class_="number"),
            tag("span", swatch(row.kind), self.result(row), class_="result"),
            tag("span", self.what(row), class_="what"),
            drawn,
        ]
        opened = tag("details", tag("summary", cells, class_="row"), self.full(row))
        return tag("li", opened, id=row_id(row), class_=" ".join(self.classes(row)))

    def classes(self, row):
        yield row.kind
        yield "odd" if row.book % 2 else "even"
        if row.notes:
            yield "noted"
        if self.is_fault(row):
            yield "fault"
        elif self.verdict and self.verdict.line and row.record and row.line() > self.verdict.line:
            yield "unread"

    def is_fault(self, row):
        """Returns true if the audit names the line of this row."""
        return self.verdict is not None and row.record is not None and row.line() == self.verdict.line

    def result(self, row):
        if row.kind == "other":
            return wording.cut(wording.compact(row.reply.get("result")), 60)
        if row.kind == "conflict" and len(between := self.between(row)) == 1:
            return ["conflict with ", self.link(between[0], between[0].call)]
        code = wording.code_of(row) if row.kind == "refused" else None
        return " ".join([wording.KINDS[row.kind], wording.cut(code or "", 20)])

    def what(self, row):
        """Returns the operations and their results; for a conflict whose batch isn't known, its read set."""
        if row.batch() is None:
            return tag("em", f"read {self.marks(row, MOST_OPS)}" if row.report.reads else "the batch isn't known")
        ops = [self.op_shown(row, index, op) for index, op in enumerate(row.batch()["ops"][:MOST_OPS])]
        more = len(row.batch()["ops"]) - MOST_OPS
        return [joined(ops, " · "), f" · and {more} more" if more > 0 else None]

    def op_shown(self, row, index, op):
        result = wording.result_of(op, wording.replies_of(row)[index])
        if index == wording.refused_op(row):
            result = tag("strong", wording.refusal(row, self.names))
        name = tag("b", wording.cut(op["op"], 40))
        return tag("span", name, f" {wording.request_of(op, self.names)}", [" → ", result] if result else None)

    def marks(self, row, most):
        return ", ".join(self.names.mark(wording.cut(it, 200)) for it in row.report.reads[:most])

    def between(self, row):
        """Returns the calls that committed between the begin and the commit of a conflict. One of them wrote what it had read."""
        places = range((row.report.base or 0) + 1, row.report.commit_place + 1)
        return [maker for place, maker in self.makers.items() if place in places]

    def lost(self, row):
        """Returns the reason of a conflict."""
        if row.kind != "conflict" or not (between := self.between(row)):
            return None
        writer = "this call" if len(between) == 1 else "one of these calls"
        links = joined([self.link(maker, maker.call) for maker in between[:MOST_NAMED]], ", ")
        more = f" and {len(between) - MOST_NAMED} more" if len(between) > MOST_NAMED else None
        return tag("p", f"Between its begin and its commit {writer} wrote something that it had read: ", links, more, ".")

    def link(self, row, text):
        return tag("a", text, href=f"#{row_id(row)}")

    def full(self, row):
        """Returns all that is known about a row."""
        notes = [tag("p", it, ".", class_="note") for it in row.notes]
        if self.is_fault(row):
            notes.insert(0, tag("p", "The first fault of the audit: ", cause(self.verdict.why), class_="note"))
        if code := wording.code_of(row):
            notes.append(tag("p", f"{wording.cut(code, 40)}: {wording.CODES.get(code, 'no reply can have this code')}."))
        return tag("div", tag("p", self.facts(row)), notes, self.lost(row), exchange(row), class_="full")

    def facts(self, row):
        """Returns the numbers of a call in one sentence."""
        facts = [timeline.spoken(row)]
        if row.report and row.report.base is not None:
            facts.append(f"begun on the state of commit {row.report.base}")
        batch = row.batch() or {}
        facts += [f"{key} {wording.cut(wording.compact(batch[key]), 80)}" for key in ("after", "token") if batch.get(key)]
        if row.report and row.report.reads:
            facts.append(f"read {self.marks(row, MOST_MARKS)}")
        return "; ".join(facts) + "."


def style_sheet():
    """Returns the style sheet, from the file next to this one."""
    with open(os.path.join(os.path.dirname(__file__), "style.css"), encoding="utf-8") as file:
        return Markup(file.read())


def swatch(kind):
    return tag("i", class_=f"swatch {kind}")


def plural(count, one, many):
    return f"{count:,} {one if count == 1 else many}"


def cause(why):
    """Returns a cause of the audit in words."""
    known = wording.CAUSES.get(why, "the line is not a valid record (docs/CODES.md)")
    return [tag("code", wording.cut(why, 40)), f": {known}."]


def refused_lines(refused):
    named = ", ".join(f"{line} ({wording.cut(code, 20)})" for line, code in refused[:MOST_NAMED])
    more = f" and {len(refused) - MOST_NAMED} more" if len(refused) > MOST_NAMED else ""
    return f"refused lines of the schedule: {named}{more}"


def parts_of(rows):
    """Returns the rows in parts of about equal length, none of more than MOST_ROWS."""
    count = -(-len(rows) // MOST_ROWS)
    ends = [len(rows) * number // count for number in range(count + 1)] if count else [0]
    return [rows[start:end] for start, end in zip(ends, ends[1:])]


def part_name(part):
    lines = [row.line() for row in part if row.record]
    return f" lines {lines[0]} to {lines[-1]}" if lines else " calls that are not recorded"


def row_id(row):
    return f"line-{row.line()}" if row.record else f"call-{row.call}"


def row_name(row):
    return f"line {row.line()}" if row.record else f"call {row.call}"


def place(row):
    """Returns the commit number of the state that a call read, or, with an arrow, of the state that it created."""
    number = row.report.commit_place if row.kind == "conflict" else row.reply.get("place")
    text = "–" if number is None else wording.cut(wording.compact(number), 24)
    return f"→ {text}" if row.kind == "committed" else text


def exchange(row):
    """Returns each operation with its result, as the record has them; without results the whole reply."""
    ops, replies = (row.batch() or {}).get("ops", []), wording.replies_of(row)
    lines = []
    for op, reply in zip(ops, replies):
        lines.append(["operation", op])
        if reply is not None:
            lines.append(["result", reply])
    if row.reply and (not ops or replies[0] is None):
        lines.append(["reply", row.reply])
    pairs = [[tag("dt", name), tag("dd", wording.cut(wording.compact(value)))] for name, value in lines]
    return tag("dl", pairs) if pairs else None
