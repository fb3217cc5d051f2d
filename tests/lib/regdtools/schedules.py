"""Draws random schedules, plays them with `regd schedule`, and checks each answer as it arrives.

A schedule is a list of events: `invoke`, `begin`, `step`, `commit` and `reply`, each of one call. The random source decides
everything that is drawn, so one seed always gives one schedule.
"""

import collections
import functools
import itertools
import json
import subprocess

from regdtools import operations
from regdtools.program import program
from regdtools.wrong import Wrong

IN_FLIGHT = 6
MOST_BUNDLES = 1024
IDS = [f"00000000-0000-0000-0000-{n:012d}" for n in range(10)]
AGENTS = [operations.agent(n) for n in range(5)]
IDENTITIES = [operations.workload(n) for n in range(10)]
PARENTS = AGENTS + IDENTITIES[:5]
DOMAINS = [operations.partner(n) for n in range(10)]
TOKENS = [f"10000000-0000-0000-0000-{n:012d}" for n in range(3)]
SELECTORS = ["u:1", "u:2", "g:1"]
# how often each operation is drawn
WEIGHTS = operations.weighted({"create": 4, "update": 2, "delete": 1, "prune": 1, "set_bundle": 3, "drop_bundle": 1, "set_agent": 2,
                               "drop_agent": 1, "show": 1, "show_agent": 1, "show_bundle": 1, "children": 1, "page": 2},
                              operations.OPERATIONS)
NAMES = [name for name, weight in WEIGHTS.items() for _ in range(weight)]
# how often an optional key is there; one that isn't listed never is
CHANCES = {"domains": 0.4, "expiry": 0.3, "revision": 0.3, "at": 0.4}
EVENTS = ["invoke", "begin", "step", "commit", "reply"]
# the event that the state of a call permits; None is the state before the invoke
NEXT_EVENT = {None: "invoke", "new": "begin", "running": "step", "ready": "commit", "settled": "reply", "decided": "reply"}


@functools.cache
def executable():
    """Returns the program. A run starts it thousands of times, so this looks for it once."""
    return program()


def text(value):
    """Returns the compact JSON text of a value."""
    return json.dumps(value, separators=(",", ":"))


# ---- drawing batches


def pick(draw, values):
    """Returns an item of a list, mostly one of the first two, so that calls conflict often."""
    return draw.choice(values[:2] if draw.random() < 0.7 else values)


def selectors(draw):
    return draw.sample(SELECTORS, draw.randint(1, 2)) if draw.random() < 0.3 else SELECTORS[:1]


def values(draw, commits, id, agent=None, domain=None):
    """Returns for each key a function that draws its value, or returns this one. `commits` is the number of batches committed so far."""
    return {
        "id": lambda: id,
        "agent": lambda: agent,
        "domain": lambda: domain,
        "parent": lambda: pick(draw, PARENTS),
        "identity": lambda: pick(draw, IDENTITIES),
        "selectors": lambda: selectors(draw),
        "domains": lambda: sorted({pick(draw, DOMAINS), pick(draw, DOMAINS)}),
        "expiry": lambda: draw.randint(1, 20),
        "revision": lambda: draw.randint(0, 1),
        "before": lambda: draw.randint(1, 20),
        "text": lambda: draw.choice(["{}", "[]"]),
        "mode": lambda: draw.choice(["restrict", "delete", "dissociate"]),
        "size": lambda: draw.randint(1, 3),
        "at": lambda: draw.randint(0, commits + 1),
    }


def is_there(draw, key):
    """Draws whether an optional key is there. A bundle is always dropped with a mode."""
    return key == "mode" or key in CHANCES and draw.random() < CHANCES[key]


def operation(draw, commits):
    """Returns an operation of any kind."""
    drawn = values(draw, commits, pick(draw, IDS), pick(draw, AGENTS), pick(draw, DOMAINS))
    return operations.drawn(draw.choice(NAMES), drawn, lambda key: is_there(draw, key))


def entry_with_bundle(draw):
    """Returns two operations: one sets a bundle, the other creates an entry that names it."""
    domain = pick(draw, DOMAINS)
    bundle = {"op": "set_bundle", "domain": domain, "text": "{}"}
    create = operations.drawn("create", values(draw, 0, pick(draw, IDS)), lambda key: is_there(draw, key))
    return [bundle, {**create, "domains": [domain]}]


def is_query(operation):
    return operations.OPERATIONS[operation["op"]].is_query


def batch(draw, commits, earlier):
    """Returns a batch of one to three operations, or repeats one of the `earlier` batches that has a token."""
    with_tokens = [it for it in earlier if "token" in it]
    if with_tokens and draw.random() < 0.3:
        return draw.choice(with_tokens)
    keys = {"ops": [operation(draw, commits) for _ in range(draw.choice([1, 1, 1, 2, 3]))]}
    if draw.random() < 0.15:
        keys["ops"] = entry_with_bundle(draw)
    if draw.random() < 0.1:
        keys["after"] = draw.randint(0, commits + 1)
    if draw.random() < 0.3 and any(not is_query(it) for it in keys["ops"]):
        keys["token"] = draw.choice(TOKENS)
    return keys


# ---- playing


class Schedule:
    """A run of `regd schedule`, event by event.

    `states` has the state of each call, `batches` its batch, `begun` the commit number that it began at, `decided` the answer to
    its commit, and `replies` its reply. `invoked` and `replied` are the numbers of those events among the accepted ones. `commits` is
    the number of committed batches, `counts` how often each result and each code occurred.
    """

    def __init__(self):
        words = [executable(), "schedule", "--domain", "ex.org"]
        self.process = subprocess.Popen(words, stdin=subprocess.PIPE, stdout=subprocess.PIPE, text=True)
        self.begin()

    def begin(self):
        """Sets what is known before the first event."""
        self.accepted = 0
        self.batches, self.states, self.begun, self.decided, self.replies = {}, {}, {}, {}, {}
        self.invoked, self.replied = {}, {}
        self.commits = 0
        self.counts = collections.Counter()

    def play(self, event):
        """Submits an event, checks its answer and returns it. Raises Wrong if the answer is not the expected one."""
        self.process.stdin.write(text(event) + "\n")
        self.process.stdin.flush()
        return self.take(event, self.process.stdout.readline())

    def take(self, event, line):
        """Checks the answer to an event and returns it. Raises Wrong if the answer is not the expected one."""
        if not line:
            raise Wrong(f"{event} has no answer")
        answer = json.loads(line)
        kind, call = event["event"], event["call"]
        if "line" in answer:
            self.counts[answer["code"]] += 1
            return answer
        self.accepted += 1
        if answer["call"] != call:
            raise Wrong(f"the answer to {event} names another call: {answer}")
        if kind == "invoke":
            self.invoked[call], self.batches[call] = self.accepted, event["batch"]
        if kind == "begin":
            self.begun[call] = answer["place"]
        if kind == "commit":
            self._committed(call, answer)
        if kind == "reply":
            self.replied[call], self.replies[call] = self.accepted, answer
            self.counts[answer["result"]] += 1
            self.counts[answer.get("code")] += 1
        self.states[call] = answer.get("state") or {"commit": "decided", "reply": "over"}[kind]
        return answer

    def _committed(self, call, answer):
        self.decided[call] = answer
        if answer["commit"] == "committed":
            self.commits += 1
            if answer["place"] != self.commits:
                raise Wrong(f"expected commit number {self.commits}: {answer}")
        elif answer["commit"] == "conflict" and self.begun[call] == self.commits:
            raise Wrong(f"a conflict, but no call committed since this one began: {answer}")

    def end(self):
        """Ends the input and returns the serial order that the program prints."""
        rest, _ = self.process.communicate()
        if self.process.returncode:
            raise Wrong(f"the program ended with status {self.process.returncode}")
        return json.loads(rest)["order"]


class Recorded(Schedule):
    """A schedule that stores its events."""

    def __init__(self):
        super().__init__()
        self.events = []

    def play(self, event):
        self.events.append(event)
        return super().play(event)


def out_of_turn(draw, run):
    """Returns an event that its call may not permit."""
    return {"event": draw.choice(EVENTS), "call": draw.choice([*range(1, 9), 99])}


def in_turn(draw, run, in_flight=IN_FLIGHT):
    """Returns an event that its call permits. At most `in_flight` calls are unfinished at a time."""
    unfinished = (it for it in itertools.count(1) if run.states.get(it) != "over")
    call = draw.choice([*itertools.islice(unfinished, in_flight)])
    return {"event": NEXT_EVENT[run.states.get(call)], "call": call}


def draw_events(draw, run, most, in_flight=IN_FLIGHT):
    """Draws and plays up to `most` events, and at least half as many. Some are out of turn."""
    for _ in range(draw.randint(most // 2, most)):
        event = out_of_turn(draw, run) if draw.random() < 0.07 else in_turn(draw, run, in_flight)
        if event["event"] == "invoke":
            event["batch"] = batch(draw, run.commits, [*run.batches.values()])
        run.play(event)


def fill(run):
    """Plays 16 calls that set 64 bundles each, as many as a book may have."""
    for n in range(MOST_BUNDLES // 64):
        call = 100 + n
        # b1.org alone is a domain that the drawn batches name: they set further ones, which a full book refuses
        names = [f"b{64 * n + i}.org" if n or i == 1 else f"c{i}.org" for i in range(64)]
        ops = [{"op": "set_bundle", "domain": it, "text": "{}"} for it in names]
        run.play({"event": "invoke", "call": call, "batch": {"ops": ops}})
        run.play({"event": "begin", "call": call})
        while run.states[call] == "running":
            run.play({"event": "step", "call": call})
        run.play({"event": "commit", "call": call})
        run.play({"event": "reply", "call": call})
    if run.commits != MOST_BUNDLES // 64:
        raise Wrong("the book isn't full")


# ---- checking a played schedule


def check_replies(run, order):
    """Runs the batches through the reference implementation in this order and compares the replies."""
    lines = "".join(text(run.batches[call]) + "\n" for call in order)
    plain = subprocess.run([executable(), "plain", "--domain", "ex.org"], input=lines, capture_output=True, text=True, check=True)
    answers = [json.loads(line) for line in plain.stdout.splitlines()]
    if len(answers) != len(order):
        raise Wrong(f"regd plain answers {len(answers)} of {len(order)} lines")
    for call, answer in zip(order, answers):
        answer["call"] = call
        if call in run.replies:
            if answer != run.replies[call]:
                raise Wrong(f"regd plain answers {answer}, regd schedule {run.replies[call]}")
        elif (answer["result"], answer["place"]) != ("committed", run.decided[call]["place"]):
            raise Wrong(f"regd plain answers {answer}, the commit was {run.decided[call]}")


def check_order(run, order):
    """Checks that the order has the right calls and respects the order in real time."""
    replied = {call for call, reply in run.replies.items() if reply["result"] != "conflict"}
    committed = {call for call, answer in run.decided.items() if answer["commit"] == "committed"}
    if sorted(order) != sorted(replied | committed):
        raise Wrong(f"the order {order} should have the calls {sorted(replied | committed)}")
    for index, later in enumerate(order):
        for earlier in order[:index]:
            if later in run.replied and run.replied[later] < run.invoked[earlier]:
                raise Wrong(f"call {later} replied before call {earlier} was invoked, but the order has it later")
