"""Draws request lines for servers: queries, changes, and changes with a token that several clients send.

The lines use a fixed pool of ids, agents and domains, so the size of the book stays the same.
"""

import json
import random
import uuid

from regdtools import operations

IDS = [f"00000000-0000-4000-8000-{n:012d}" for n in range(200)]
AGENTS = [operations.agent(n) for n in range(20)]
IDENTITIES = [operations.workload(n) for n in range(60)]
PARENTS = AGENTS + IDENTITIES[:20]
DOMAINS = [operations.partner(n) for n in range(8)]
# an update that names the revision of its entry
REVISED = "update with revision"
# how often each operation is drawn
QUERIES = operations.weighted({"show": 50, "authorised": 20, "children": 10, "show_agent": 8, "show_bundle": 6, "trust": 4, "page": 2},
                              operations.QUERIES)
CHANGES = operations.weighted({"update": 30, REVISED: 4, "create": 25, "delete": 6, "set_agent": 15, "set_bundle": 15, "drop_bundle": 2,
                               "prune": 2, "drop_agent": 1}, operations.CHANGES)
# how often an optional key is there; one that isn't listed never is
CHANCES = {"domains": 0.2, "expiry": 0.1, "hint": 0.3}


def line_of(*ops, **keys):
    return json.dumps({"ops": ops, **keys}, separators=(",", ":")).encode() + b"\n"


def values(draw):
    """Returns for each key a function that draws its value."""
    return {
        "id": lambda: draw.choice(IDS),
        "agent": lambda: draw.choice(AGENTS),
        "parent": lambda: draw.choice(PARENTS),
        "identity": lambda: draw.choice(IDENTITIES),
        "domain": lambda: draw.choice(DOMAINS),
        "selectors": lambda: [f"u:{draw.randint(1, 20)}"],
        "domains": lambda: [draw.choice(DOMAINS)],
        "expiry": lambda: draw.randint(1, 1000),
        "hint": lambda: f"hint {draw.randint(1, 99)}",
        "revision": lambda: draw.randint(0, 3),
        "text": lambda: "{}" * draw.randint(1, 9),
        "mode": lambda: draw.choice(["restrict", "dissociate"]),
        "before": lambda: draw.randint(1, 1000),
        "size": lambda: draw.randint(1, 5),
        "from": lambda: draw.choice(IDS),
    }


def operation(draw, weights):
    """Returns an operation, drawn by these weights. A page always begins with an id, and a bundle is always dropped with a mode."""
    name = draw.choices([*weights], [*weights.values()])[0]
    fixed = {"from", "mode"} | ({"revision"} if name == REVISED else set())
    drawn = values(draw) | ({"selectors": lambda: [f"x:{draw.randint(1, 9)}"]} if name == "set_agent" else {})
    return operations.drawn(name.removesuffix(" with revision"), drawn, lambda key: key in fixed or is_there(draw, key))


def is_there(draw, key):
    """Draws whether an optional key is there."""
    return key in CHANCES and draw.random() < CHANCES[key]


def created(draw, id):
    """Returns the create of an entry with this id."""
    return operations.drawn("create", values(draw) | {"id": lambda: id}, lambda key: is_there(draw, key))


def query(draw):
    return operation(draw, QUERIES)


def changes(draw):
    """Returns the operations of a batch of changes, sometimes with a query at the end."""
    ops = [operation(draw, CHANGES) for _ in range(draw.choice([1, 1, 1, 2, 4]))]
    return ops + [query(draw)] if draw.random() < 0.2 else ops


def tries(draw):
    return {"tries": draw.choice([2, 16])} if draw.random() < 0.5 else {}


class Pool:
    """The lines that all clients choose from."""

    def __init__(self, seed, tokens):
        draw = random.Random(f"{seed} lines")
        self.queries = [line_of(*(query(draw) for _ in range(draw.choice([1, 1, 1, 2])))) for _ in range(2000)]
        self.changes = [line_of(*changes(draw), **tries(draw)) for _ in range(4000)]
        self.tokens = [line_of(*changes(draw), token=str(uuid.UUID(int=draw.getrandbits(128)))) for _ in range(tokens)]
        self.first = [line_of(*({"op": "set_bundle", "domain": it, "text": "{}"} for it in DOMAINS))]
        self.first += [line_of(*({"op": "set_agent", "agent": it, "selectors": ["x:1"]} for it in AGENTS))]
        self.first += [line_of(created(draw, it)) for it in IDS]

    def line(self, draw, newest, is_early, queries=0.9):
        """Returns a line. `newest` is the largest commit number that any client has seen, `queries` the share of read-only batches."""
        if draw.random() < queries:
            chance = draw.random()
            if chance < 0.02:
                return line_of({"op": "page", "size": 3, "at": max(0, newest - draw.randint(-1, 70))})
            line = draw.choice(self.queries)
            return b'{"after":%d,' % (newest + draw.randint(-2, 1)) + line[1:] if chance < 0.1 and newest > 2 else line
        if draw.random() < (0.4 if is_early else 0.02):
            line = draw.choice(self.tokens)
            # sometimes another batch with the same token
            return line.replace(b'"ops":[', b'"ops":[{"op":"prune","before":0},') if draw.random() < 0.1 else line
        return draw.choice(self.changes)
