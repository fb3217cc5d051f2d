"""Parses the lines of a file: the records, answers and events of a schedule, and the verdict of an audit.

A malformed line gets a message with fixed words of this module: no byte of the line gets into a message.
"""
import dataclasses
import json

MOST_DEEP = 127
MOST_WHOLE = 2**64 - 1


class Number(str):
    """A number that isn't a valid whole number, as the line has it."""


class Fault(Exception):
    """Why one line is malformed."""


class Malformed(Exception):
    """The malformed lines of a file: what the file is, and the number and the fault of each."""

    def __init__(self, name, faults):
        super().__init__(name)
        self.name, self.faults = name, faults


@dataclasses.dataclass
class Record:
    """One line of the records."""

    line: int
    batch: dict
    call: int
    invoked: int
    replied: int | None
    reply: dict


@dataclasses.dataclass
class Report:
    """What the answers of a schedule report about a call. Only accepted events have numbers, from 1."""

    line: int  # the line of its invoke in the events, and of the answer in the answers
    invoked: int
    batch: dict | None = None
    begun: int | None = None
    base: int | None = None
    reads: list = dataclasses.field(default_factory=list)
    commit: str | None = None
    committed_at: int | None = None
    commit_place: int | None = None
    replied: int | None = None
    reply: dict | None = None

    def decided(self):
        """Returns the number of the event that determined the commit number: its commit, or its begin if it had no commit."""
        return self.begun if self.commit is None else self.committed_at

    def is_conflict(self):
        return self.commit == "conflict"


@dataclasses.dataclass
class Answers:
    """The answers of a schedule: what they report about each call, the order, and the refused lines."""

    calls: dict = dataclasses.field(default_factory=dict)
    accepted: int = 0
    refused: list = dataclasses.field(default_factory=list)
    order: list | None = None


@dataclasses.dataclass
class Verdict:
    """The verdict of an audit: yes if `line` is None, otherwise the first line with a fault, and its cause."""

    line: int | None
    why: str | None


def lines_of(data):
    """Returns the lines of a file, and whether the last one ends with a line feed."""
    lines = data.split(b"\n")
    is_whole = lines[-1] == b""
    return (lines[:-1] if is_whole else lines), is_whole


def written_number(text):
    """Returns a valid whole number, or any other number as the line has it."""
    if text.startswith("-") or len(text) > 20 or int(text) > MOST_WHOLE:
        return Number(text)
    return int(text)


def no_constant(_text):
    raise ValueError


def is_deeper(value, most):
    """Returns true if lists and objects are nested deeper than `most` levels."""
    level = [value]
    for _ in range(most + 1):
        level = [it for holder in level if isinstance(holder, (dict, list)) for it in inside(holder)]
        if not level:
            return False
    return True


def inside(holder):
    return holder.values() if isinstance(holder, dict) else holder


def value_of(line):
    """Returns the object of a line."""
    try:
        text = line.decode("utf-8")
    except UnicodeDecodeError:
        raise Fault("not UTF-8") from None
    try:
        value = json.loads(text, parse_int=written_number, parse_float=Number, parse_constant=no_constant)
    except ValueError:
        raise Fault("not JSON") from None
    except RecursionError:
        raise Fault("too deep") from None
    if is_deeper(value, MOST_DEEP):
        raise Fault("too deep")
    if not isinstance(value, dict):
        raise Fault("not an object")
    return value


def read_lines(name, data, read_one):
    """Returns what `read_one` makes of each line, from its number and its object. Raises Malformed with every malformed line."""
    lines, is_whole = lines_of(data)
    values, faults = [], []
    for number, line in enumerate(lines, 1):
        try:
            if number == len(lines) and not is_whole:
                raise Fault("no line feed at its end, so it may be incomplete")
            values.append(read_one(number, value_of(line)))
        except Fault as fault:
            faults.append((number, str(fault)))
    if faults:
        raise Malformed(name, faults)
    return values


def is_whole_number(value):
    return type(value) is int


def needed(keys, key):
    if key not in keys:
        raise Fault(f"`{key}` is missing")
    return keys[key]


def whole(keys, key):
    value = needed(keys, key)
    if not is_whole_number(value):
        raise Fault(f"`{key}` is not a whole number")
    return value


def an_object(keys, key):
    value = needed(keys, key)
    if not isinstance(value, dict):
        raise Fault(f"`{key}` is not an object")
    return value


def a_text(keys, key):
    value = needed(keys, key)
    if type(value) is not str:
        raise Fault(f"`{key}` is not a text")
    return value


def a_batch(keys):
    """Returns the batch of a record or an event. Its operations need a name; the page shows all else unchanged."""
    batch = an_object(keys, "batch")
    ops = needed(batch, "ops")
    if not isinstance(ops, list) or not all(isinstance(op, dict) and type(op.get("op")) is str for op in ops):
        raise Fault("`ops` is not a list of operations")
    return batch


def record_of(line, keys):
    batch, call, invoked = a_batch(keys), whole(keys, "call"), whole(keys, "invoked")
    replied = None if needed(keys, "replied") is None else whole(keys, "replied")
    return Record(line, batch, call, invoked, replied, an_object(keys, "reply"))


def read_records(data):
    """Returns the records, in the order of their lines."""
    return read_lines("records", data, record_of)


def read_answers(data):
    """Returns what the answers of a schedule report."""
    answers = Answers()
    read_lines("answers", data, lambda line, keys: take_answer(answers, line, keys))
    return answers


def take_answer(answers, line, keys):
    if answers.order is not None:
        raise Fault("after the order, which ends the answers")
    if "order" in keys:
        answers.order = an_order(keys)
    elif "line" in keys:
        answers.refused.append((whole(keys, "line"), a_text(keys, "code")))
    else:
        answers.accepted += 1
        take_event(answers, line, keys)


def an_order(keys):
    order = keys["order"]
    if not isinstance(order, list) or not all(is_whole_number(call) for call in order):
        raise Fault("`order` is not a list of calls")
    return order


def take_event(answers, line, keys):
    """Adds the answer to an accepted event to the report on its call. Its keys determine its kind."""
    number, call = answers.accepted, whole(keys, "call")
    if keys.get("state") == "new":
        if call in answers.calls:
            raise Fault("the call was invoked before")
        answers.calls[call] = Report(line, number)
        return
    report = answers.calls.get(call)
    if report is None:
        raise Fault("the call was not invoked")
    if "read" in keys:
        report.reads.append(a_text(keys, "read"))
    elif "commit" in keys:
        report.commit, report.committed_at, report.commit_place = a_text(keys, "commit"), number, whole(keys, "place")
    elif "state" in keys:
        report.begun, report.base = number, whole(keys, "place")
    elif "result" in keys:
        report.replied, report.reply = number, keys
    else:
        raise Fault("not an answer to an event")


def read_events(data, answers):
    """Gives each call of the answers the batch of its invoke. An event and its answer have the same line number."""
    lines, _ = lines_of(data)
    faults = []
    for call, report in answers.calls.items():
        try:
            if report.line > len(lines):
                raise Fault("this line is missing, but it has an answer")
            report.batch = invoked_batch(value_of(lines[report.line - 1]), call)
        except Fault as fault:
            faults.append((report.line, str(fault)))
    if faults:
        raise Malformed("events", faults)


def invoked_batch(keys, call):
    if keys.get("event") != "invoke" or keys.get("call") != call:
        raise Fault("not the invoke that the answers report")
    return a_batch(keys)


def read_verdict(data, records):
    """Returns the verdict of an audit of the given number of records."""
    verdicts = read_lines("verdict", data, lambda _line, keys: verdict_of(keys, records))
    if len(verdicts) != 1:
        raise Malformed("verdict", [(len(verdicts) or 1, "more than one verdict" if verdicts else "no verdict")])
    return verdicts[0]


def verdict_of(keys, records):
    if keys.get("audit") == "yes":
        if whole(keys, "calls") != records:
            raise Fault("it is about another number of records")
        return Verdict(None, None)
    if keys.get("audit") != "no":
        raise Fault("not a verdict")
    if not 1 <= whole(keys, "line") <= records:
        raise Fault("it names a line that the records do not have")
    return Verdict(keys["line"], a_text(keys, "why"))
