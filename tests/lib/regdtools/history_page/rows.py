"""Arranges the calls in rows, and notes what is visible without running any batch.

Each row is a call. The recorded calls are in the order of the records. A call that only the answers report (a conflict, an unfinished
call, a call that the records leave out) is inserted where its outcome was determined.

The notes of `notes_of` are not an audit: only `regd audit` runs the reference implementation. Of the causes of an audit, `call`, `stamps`
and `order` are visible in a drawing, and of `reply` only a commit number that doesn't follow from the rows above.
"""
import dataclasses

from .reading import Record, Report, is_whole_number

RESULTS = ("committed", "answered", "refused", "repeated")


@dataclasses.dataclass
class Row:
    """A call of the page."""

    call: int
    kind: str  # one of RESULTS, "conflict", "waiting" (no reply yet), "missing" (not in the records), or "other"
    invoked: int
    replied: int | None
    reply: dict
    record: Record | None = None
    report: Report | None = None
    moment: int | None = None  # the earliest moment at which it can have taken effect after the rows above
    book: int = 0  # the number of commits among the records down to this one
    notes: list = dataclasses.field(default_factory=list)

    def line(self):
        return self.record.line if self.record else None

    def batch(self):
        return self.record.batch if self.record else self.report.batch

    def decided(self):
        return self.report.decided() if self.report else None

    def is_turned(self):
        """Returns true if it replied at its invoke or before."""
        return self.replied is not None and self.replied <= self.invoked

    def is_missed(self):
        """Returns true if it replied before a call above it was invoked. Then the line of the moments misses its bar."""
        return self.record is not None and self.replied is not None and max(self.replied, self.invoked) < self.moment

    def stamps(self):
        """Returns the numbers of its drawn events, and its moment."""
        report = (self.report.begun, self.report.decided()) if self.report else ()
        return [it for it in (self.invoked, self.replied, self.moment, *report) if it is not None]


def rows_of(records, answers):
    """Returns the rows of the page, from top to bottom."""
    reports = answers.calls if answers else {}
    listed = [recorded(record, reports.get(record.call)) for record in records]
    walk_down(listed)
    calls = {record.call for record in records}
    others = [unrecorded(call, it, answers.order) for call, it in reports.items() if call not in calls]
    return merged(listed, sorted(others, key=turn))


def recorded(record, report):
    result = record.reply.get("result")
    kind = result if isinstance(result, str) and result in RESULTS else "other"
    return Row(record.call, kind, record.invoked, record.replied, record.reply, record=record, report=report)


def unrecorded(call, report, order):
    """Returns the row of a call that only the answers report."""
    kind = "waiting"
    if report.is_conflict():
        kind = "conflict"
    elif call in (order or ()) or report.reply is not None or report.commit == "committed":
        kind = "missing"
    return Row(call, kind, report.invoked, report.replied, report.reply or {}, report=report)


def turn(row):
    """Returns the number of the event that places an unrecorded call."""
    return row.decided() or row.invoked


def walk_down(listed):
    """Gives each recorded row its earliest moment and its number of commits."""
    moment = book = 0
    for row in listed:
        moment = max(moment, row.invoked)
        book += row.kind == "committed"
        row.moment, row.book = moment, book


def merged(listed, others):
    """Returns the listed rows with the others inserted, each above the first row whose outcome was determined later."""
    rows, latest = [], 0
    for row in listed:
        latest = max(latest, row.moment, row.decided() or 0)
        while others and turn(others[0]) < latest:
            rows.append(below(others.pop(0), rows))
        rows.append(row)
    for row in others:
        rows.append(below(row, rows))
    return rows


def below(row, rows):
    """Gives an unrecorded row the moment and the number of commits of the row above it, since it isn't part of the order."""
    if rows:
        row.moment, row.book = rows[-1].moment, rows[-1].book
    return row


def notes_of(rows, answers):
    """Adds to each row what is visible about it."""
    listed = [row for row in rows if row.record]
    note_calls(listed)
    note_stamps(listed)
    note_order(listed)
    note_places(listed)
    if answers:
        for row in listed:
            note_answers(row)
        note_order_line(listed, answers.order)
    for row in rows:
        if row.kind == "missing":
            row.notes.append("the answers report its reply or its commit, but no record does")


def note_calls(listed):
    lines = {}
    for row in listed:
        if row.call in lines:
            row.notes.append(f"line {lines[row.call]} has the same call number")
        lines.setdefault(row.call, row.line())


def note_stamps(listed):
    for row in listed:
        if row.kind == "other":
            row.notes.append("no record can have the result of its reply")
        if row.replied is None and row.kind != "committed":
            row.notes.append("it did not reply and did not commit")
        elif row.is_turned():
            row.notes.append(f"its reply ({row.replied}) does not come after its invoke ({row.invoked})")


def note_order(listed):
    latest = None
    for row in listed:
        if latest and row.replied is not None and row.replied < latest.invoked:
            above = f"the call of line {latest.line()} above it was invoked ({latest.invoked})"
            row.notes.append(f"it replied ({row.replied}) before {above}")
        if latest is None or row.invoked > latest.invoked:
            latest = row


def note_places(listed):
    """Notes a commit number that doesn't follow from those above: once for consecutive rows with the same deviation."""
    off = 0
    for row in listed:
        place = row.reply.get("place")
        if row.kind not in ("committed", "answered", "refused"):
            continue
        if not is_whole_number(place):
            row.notes.append("the place of its reply is not a whole number")
        elif place - row.book not in (0, off):
            off = place - row.book
            row.notes.append(f"its place is {place}, but {row.book} follows from the records above")


def note_answers(row):
    """Notes where the answers of the schedule differ from the record."""
    report = row.report
    if report is None:
        row.notes.append("the answers have no such call")
        return
    if report.is_conflict():
        row.notes.append("the answers report a conflict")
    if row.invoked != report.invoked:
        row.notes.append(f"it was invoked at {row.invoked}, according to the answers at {report.invoked}")
    if row.replied != report.replied:
        row.notes.append(f"it replied {at(row.replied)}, according to the answers {at(report.replied)}")
    if report.reply is not None and report.reply != row.reply:
        row.notes.append("the answers have another reply")
    if report.batch is not None and unlike_ops(row.batch(), report.batch):
        row.notes.append("the events have another batch")


def at(number):
    return "not at all" if number is None else f"at {number}"


def unlike_ops(recorded_batch, batch):
    """Returns true if the batches differ in the number or the names of their operations. Defaults and drawn ids don't matter."""
    return [op["op"] for op in recorded_batch["ops"]] != [op["op"] for op in batch["ops"]]


def note_order_line(listed, order):
    """Notes the first record that is elsewhere in the order of the answers."""
    calls = [row.call for row in listed]
    if order is None or calls == order:
        return
    for row, call in zip(listed, order):
        if row.call != call:
            row.notes.append(f"the order of the answers has call {call} here")
            return


def counts_of(rows):
    """Returns the number of rows of each kind, in the order of the legend."""
    kinds = (*RESULTS, "conflict", "waiting", "missing", "other")
    counts = {kind: sum(row.kind == kind for row in rows) for kind in kinds}
    return {kind: count for kind, count in counts.items() if count}
