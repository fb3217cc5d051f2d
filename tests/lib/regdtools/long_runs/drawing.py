"""Draws request lines for long runs, with the operations, keys and values of regdtools.operations.

Each piece draws its own habits first: how often each operation occurs, how many ids and tokens there are, how many values are wrong. So the
pieces differ more from one another than the lines of one piece do.
"""
import collections

from regdtools import operations
from regdtools.malformed import generating
from regdtools.malformed.parsing import compact
from regdtools.spelling import Spelling

WRONG = [value for value in generating.WRONG if not isinstance(value, generating.Raw)]
TTLS = [0, 60, 2**64 - 1]
MOST_ENTRIES, MOST_AGENTS, MOST_BUNDLES, MOST_TOKENS = 16_384, 4_096, 1_024, 65_536
# bytes of the texts of wrong and unusual values that are drawn often; longer ones are drawn rarely
USUAL_BYTES = 3_000


def numbered_id(number):
    return f"00000000-0000-4000-8000-{number:012x}"


def token(number):
    return f"10000000-0000-4000-8000-{number:012x}"


def is_usual(value):
    return len(compact(value)) <= USUAL_BYTES


class Habits:
    """What is common to the lines of a piece. `size` is small, medium or large: the number of different ids, agents and domains."""

    def __init__(self, draw, size):
        ids, agents, identities, domains = {"small": (8, 3, 4, 3), "medium": (300, 20, 40, 12), "large": (40_000, 4_200, 600, 1_040)}[size]
        self.weights = {name: draw.choice([0, 1, 1, 2, 5]) for name in operations.OPERATIONS}
        self.weights["create"] += 1
        self.names = [name for name, weight in self.weights.items() for _ in range(weight)]
        self.wrong = draw.choice([0, 0, 0.01, 0.1])
        self.unusual = draw.choice([0, 0.002, 0.02])
        self.optional = draw.choice([0.1, 0.3, 0.6])
        self.with_token = draw.choice([0, 0.05, 0.3])
        self.again = draw.choice([0, 0.05, 0.2])
        self.past = draw.choice([0, 0.02, 0.2])
        self.with_after = draw.choice([0, 0.05, 0.3])
        self.without_id = draw.choice([0, 0.2, 0.9])
        self.most_ops = draw.choice([1, 3, 8])
        self.spelled = draw.choice([0.1, 0.5, 1])
        self.damage = draw.choice([0, 0, 2, 20])
        self.tokens = draw.choice([30, 1_000, 100_000])
        self.ids = ids
        agents = [operations.agent(number) for number in range(agents)]
        workloads = [operations.workload(number) for number in range(identities)]
        domains = [operations.partner(number) for number in range(domains)]
        small = draw.choice([5, 50, 2**40])
        self.pool = {
            "agent": agents,
            "parent": [*agents, operations.SERVER, *workloads[: len(workloads) // 2]],
            "identity": [*workloads, *agents[:2]],
            "domain": domains,
            "x509_svid_ttl": TTLS,
            "jwt_svid_ttl": TTLS,
            "hint": ["", "h", 'é"\\', "x" * 100],
            "text": ["", "{}", "line\n\u2028\t", "x" * 300],
            "mode": ["restrict", "delete", "dissociate"],
            "match": ["exact", "any", "superset", "subset"],
            "size": [1, 2, 3, 500],
            "expiry": [0, 1, small // 2, small],
            "before": [0, 1, small // 2, small + 1],
            "revision": [0, 0, 1, 2],
        }
        self.selectors = ["u:1", "u:2", "x:1", "unix:uid:1000"][: draw.choice([1, 2, 4])]


class Lines:
    """The lines of a piece. `newest` is the newest commit number that is known; `found` has ids that the program generated."""

    def __init__(self, draw, size):
        self.draw, self.habits = draw, Habits(draw, size)
        self.spelling = Spelling(draw)
        self.sent = collections.deque(maxlen=200)
        self.newest, self.found = 0, collections.deque(maxlen=50)

    def chance(self, part):
        return self.draw.random() < part

    def line(self):
        """Returns a line with its line feed."""
        if self.chance(0.0001):
            return self.spelling.long_line() + b"\n"
        batch = self.batch()
        if self.chance(self.habits.spelled):
            text = self.spelling.spell(batch)
        else:
            text = compact(batch).encode("utf-8", "surrogatepass")
        if self.draw.random() * 100 < self.habits.damage:
            text = self.spelling.damaged(text)
        return text + b"\n"

    def batch(self):
        draw, habits = self.draw, self.habits
        if self.sent and self.chance(habits.again):
            batch = dict(draw.choice(self.sent))
        elif self.chance(habits.past):
            batch = {"ops": [{**self.operation("page"), "at": self.past()}]}
        else:
            count = draw.randint(1, habits.most_ops) if not self.chance(0.01) else draw.choice([0, 20, 63, 64, 65])
            batch = {"ops": [self.operation(draw.choice(habits.names)) for _ in range(count)]}
            is_query = all(op.get("op") in operations.QUERIES for op in batch["ops"])
            if self.chance(habits.with_token * (0.05 if is_query else 1)):
                batch["token"] = token(draw.randrange(habits.tokens))
                self.sent.append(batch)
        if self.chance(habits.with_after):
            batch = {**batch, "after": max(0, self.newest + draw.randint(-3, 3))}
        if self.chance(0.02):
            batch = {**batch, "tries": draw.choice([1, 16])}
        return self.spoiled(batch, operations.REQUEST) if self.chance(habits.wrong) else batch

    def past(self):
        """Returns a commit number near those that a page can read."""
        return max(0, self.newest - self.draw.randint(-2, 70))

    def operation(self, name):
        """Returns an operation, with all its required keys and some of the others."""
        op = {"op": name}
        for key in operations.OPERATIONS[name].keys:
            if key.drawn:
                is_absent = self.chance(self.habits.without_id)
            else:
                is_absent = key.optional and not self.chance(0.03 if key.name == "at" else self.habits.optional)
            if not is_absent and op.get(operations.NEEDS.get(key.name, "op")) is not None:
                op[key.name] = self.value(key)
        return self.spoiled(op, operations.OP + operations.OPERATIONS[name].keys) if self.chance(self.habits.wrong) else op

    def value(self, key):
        """Returns a valid value of a key."""
        draw, habits = self.draw, self.habits
        if habits.unusual and key.kind.others and self.chance(habits.unusual):
            usual = [value for value in key.kind.others if is_usual(value)]
            return draw.choice(usual if usual and not self.chance(0.02) else key.kind.others)
        if key.name in ("id", "from"):
            if self.found and self.chance(0.3):
                return draw.choice(self.found)
            return numbered_id(draw.randrange(habits.ids))
        if key.name == "at":
            return self.past()
        if key.name == "selectors":
            return draw.sample(habits.selectors, draw.randint(1, min(2, len(habits.selectors))))
        if key.name == "domains":
            return [draw.choice(habits.pool["domain"]) for _ in range(draw.randint(0, 2))]
        if key.name not in habits.pool:
            return key.kind.valid
        return draw.choice(habits.pool[key.name])

    def spoiled(self, members, keys):
        """Returns an object with one fault: a wrong value, a missing key or an unknown one."""
        draw = self.draw
        key = draw.choice(keys)
        fault = draw.choice(["wrong", "bad", "bad", "missing", "unknown"])
        if fault == "missing":
            return {name: value for name, value in members.items() if name != key.name}
        if fault == "unknown":
            return {**members, draw.choice([*generating.UNKNOWN, *operations.KINDS]): draw.choice(WRONG)}
        bad = [value for value in generating.all_bad(key.kind) if is_usual(value) or self.chance(0.02)]
        return {**members, key.name: draw.choice(bad if bad and fault == "bad" else WRONG)}

    # lines that fill the book

    def batches_of(self, ops):
        return (compact({"ops": ops[begin : begin + 64]}).encode() + b"\n" for begin in range(0, len(ops), 64))

    def full_book(self):
        """Yields lines that make as many entries, agents and bundles as a book may have."""
        pool = self.habits.pool
        yield from self.batches_of([{"op": "set_bundle", "domain": it, "text": "{}"} for it in pool["domain"][:MOST_BUNDLES]])
        yield from self.batches_of([{"op": "set_agent", "agent": it, "selectors": ["u:1"]} for it in pool["agent"][:MOST_AGENTS]])
        parents, identities = pool["parent"], pool["identity"]
        entries = [{"op": "create", "id": numbered_id(number), "parent": parents[number % len(parents)],
                    "identity": identities[number % 599 % len(identities)], "selectors": [f"u:{number}"]} for number in range(MOST_ENTRIES)]
        yield from self.batches_of(entries)

    def all_tokens(self):
        """Yields lines that store as many tokens as a book may have."""
        for number in range(MOST_TOKENS):
            yield b'{"ops":[{"op":"prune","before":0}],"token":"%s"}\n' % token(200_000 + number).encode()
