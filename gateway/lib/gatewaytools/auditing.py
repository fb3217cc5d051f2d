"""Compares acknowledged changes with a replay of the log through `regd plain`."""
import collections
import datetime
import json
import re

from gatewaytools import logs, plain, rules

Fault = collections.namedtuple("Fault", "kind line reply")
# a line of the log with its reply; `number` is that of its entry, and `at` its own number there
Replayed = collections.namedtuple("Replayed", "number line reply at caller entry", defaults=(0, "", plain.NO_ENTRY))


def replay(program, domain, entries, snapshot=None, queries=()):
    """Returns what the log's lines are answered by the reference, the commit number before them, and the replies to queries at the end."""
    with plain.Plain(program, domain) as reference:
        numbered = [(entry, line, sent) for entry in entries for line, sent in zip(entry.lines, entry.sent)]
        base = 0
        if snapshot:
            for reply in reference.run(snapshot.lines):
                if not reply.endswith(b'"committed"}'):
                    raise RuntimeError(f"a line of the snapshot was not committed: {reply.decode()}")
            base = snapshot.place
        replies = plain.Reference(reference, snapshot).run([line for _, line, _ in numbered], [entry for entry, _, _ in numbered],
                                                                [sent[0] for _, _, sent in numbered])
        replayed = [Replayed(entry.number, line, reply, *sent, entry) for (entry, line, sent), reply in zip(numbered, replies)]
        return replayed, base, [plain.tail(reply) for reply in reference.run(list(queries))]


def is_line_of(sent, logged):
    """Returns true if a logged line is the line that was sent, with nothing but ids added to its creates."""
    if sent == logged:
        return True
    first, second = rules.batch_of(sent), rules.batch_of(logged)
    if first is None or second is None or not rules.creates_without_id(first):
        return False
    for op, made in zip(first["ops"], second["ops"]):
        if rules.name_of(op) == "create" and op.get("id") is None:
            op["id"] = made.get("id")
    return first == second


def is_batch_of(sent, logged):
    """Returns true if two lines have the same operations, as regd compares them."""
    return rules.batch_of(sent) is not None and rules.batch_of(logged) is not None and rules.operations(sent) == rules.operations(logged)


def faults(acknowledged, replayed, base=0):
    """Yields a fault for each acknowledged change that was lost, done twice or answered differently.

    `acknowledged` are pairs of a line and its reply. Changes up to the commit number `base` are not compared, since a snapshot took their
    place.
    """
    by_place, refused, by_token = {}, collections.defaultdict(set), collections.Counter()
    for one in replayed:
        if one.reply.endswith(b'"committed"}'):
            by_place[plain.place_of(one.reply)] = one
            by_token[rules.token_of(one.line)] += 1
        else:
            refused[one.line].add(one.reply)
    del by_token[None]
    told = set()
    for line, reply in acknowledged:
        rest, place = plain.tail(reply), plain.place_of(reply)
        if rest.startswith(b'{"code":"G'):  # a gateway refused it, so it has no effect
            continue
        is_repeated = rest.endswith(b'"repeated"}')
        if is_repeated:
            rest = rest.removesuffix(b'repeated"}') + b'committed"}'
        if not rest.endswith(b'"committed"}'):
            if base == 0 and rest not in refused[line] and not any(is_line_of(line, logged) and rest in replies for logged, replies in refused.items()):
                yield Fault("different", line, reply)
            continue
        if place <= base:
            continue
        one = by_place.get(place)
        if one is None:
            yield Fault("lost", line, reply)
        elif not (is_batch_of(line, one.line) if is_repeated else is_line_of(line, one.line)) or rest != one.reply:
            yield Fault("different", line, reply)
        elif not is_repeated and place in told:
            yield Fault("doubled", line, reply)
        if not is_repeated:
            told.add(place)
        token = rules.token_of(line)
        if token is not None and by_token[token] > 1:
            yield Fault("doubled", line, reply)


def gaps(entries, snapshot, head):
    """Yields a fault for each place where the log isn't one chain from the snapshot, or from its beginning, to its end."""
    number, name = (snapshot.entry, snapshot.name) if snapshot else (0, logs.ORIGIN)
    for entry in entries:
        if entry.number != number + 1 or entry.before != name:
            yield Fault("gap", b"entry %d after %d" % (entry.number, number), b"")
        number, name = entry.number, entry.name
    if (number, name) != head:
        yield Fault("gap", b"the log ends with entry %d" % number, b"")


def time_text(milliseconds):
    """Returns the time of an entry as records have it."""
    return f"{datetime.datetime.utcfromtimestamp(milliseconds // 1000).isoformat()}.{milliseconds % 1000:03}Z"


def outcome_of(reply):
    """Returns what a record says of a reply without the numbers of calls and lines: the outcome, the code and the commit number."""
    code = re.match(rb'\{?"code":"(\w+)"', reply)
    if code:
        return "refused", code[1].decode(), plain.place_of(reply) or 0
    result = re.search(rb'"result":"(\w+)"\}$', reply)
    return result[1].decode(), "", plain.place_of(reply) or 0


def record_faults(changes, replayed, base, skips=()):
    """Yields a fault for each change of a gateway's record that the log doesn't have, or has otherwise.

    `changes` are objects of the record. Those that got no answer are not compared, and neither are those up to the entry `base`, of a snapshot.
    """
    by_line = {(one.number, one.at): one for one in replayed}
    for change in changes:
        at = change["entry"], change["line"]
        if change["outcome"] == "unknown" or at[0] <= base:
            continue
        text = json.dumps(change).encode()
        one = by_line.get(at)
        if at in skips or one is None:
            if at not in skips or change.get("code") != "G7":
                yield Fault("not in the log", text, b"")
            continue
        said = change["outcome"], change.get("code", ""), change.get("place", 0)
        if said != outcome_of(one.reply) or (change["caller"], change["time"]) != (one.caller, time_text(one.entry.time)):
            yield Fault("recorded otherwise", text, one.reply)


def recorded(file):
    """Yields the changes of a record: lines of JSON with the keys `line` and `reply`."""
    with open(file, "rb") as opened:
        for text in opened:
            event = json.loads(text)
            if "line" in event:
                yield event["line"].encode("utf-8", "surrogateescape"), event["reply"].encode("utf-8", "surrogateescape")


def wrong_reads(program, domain, replayed, base, snapshot, events):
    """Returns how many queries have another answer than the reference gives at the commit number in the answer.

    `replayed` is the log with its replies, and an event is that of a record with the times of all lines.
    """
    answers = collections.defaultdict(lambda: collections.defaultdict(collections.Counter))
    for event in events:
        if event.get("read") and event["place"] >= base:
            answers[event["place"]][event["query"].encode()][plain.tail(event["answer"].encode())] += 1
    lines, entries, numbers, asked = [], [], [], []

    def ask(place, entry):
        for query in answers.get(place, ()):
            asked.append((len(lines), place, query))
            lines.append(query)
            entries.append(entry)
            numbers.append(0)

    ask(base, plain.NO_ENTRY)
    for one in replayed:
        lines.append(one.line)
        entries.append(one.entry)
        numbers.append(one.at)
        if one.reply.endswith(b'"committed"}'):
            ask(plain.place_of(one.reply), one.entry)
    with plain.Plain(program, domain) as reference:
        list(reference.run(snapshot.lines if snapshot else []))
        replies = list(plain.Reference(reference, snapshot).run(lines, entries, numbers))
    right = sum(answers[place][query][replies[at]] for at, place, query in asked)
    return sum(sum(counts.values()) for queries in answers.values() for counts in queries.values()) - right


def stale_reads(events):
    """Returns how many queries have an answer that no linearizable register of the commit number could give.

    An event is a dictionary with `from` and `to`, the times when the line was sent and answered, and `place`. A query has `read`. Its place must
    not be below that of any event that was answered before the query was sent, and `repeated` answers don't count.
    """
    points = []
    for event in events:
        if event.get("reply", "").endswith('"repeated"}') or not event["place"]:
            continue
        points.append((event["to"], 0, event))
        if event.get("read"):
            points.append((event["from"], 1, event))
    points.sort(key=lambda point: point[:2])
    newest, floor, stale = 0, {}, 0
    for _, is_begin, event in points:
        if is_begin:
            floor[id(event)] = newest
            continue
        if event.get("read") and event["place"] < floor.pop(id(event), 0):
            stale += 1
        newest = max(newest, event["place"])
    return stale
