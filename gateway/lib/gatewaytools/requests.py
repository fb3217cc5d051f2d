"""Random request lines: valid ones in unusual spellings, lines with tokens that come again, and damaged ones."""
import functools
import json

from regdtools import operations
from regdtools.spelling import WRONG, Spelling
from gatewaytools import rules

AGENTS = [operations.agent(n) for n in range(4)]
PARENTS = [*AGENTS, operations.SERVER, f"{operations.HOME}/node/a", operations.workload(1)]
IDENTITIES = [operations.workload(n) for n in range(5)] + [f"{operations.HOME}/node/a"]
DOMAINS = ["b.org", "c.org", "d.org"]
SELECTORS = ["u:1", "u:2", "x:1", "unix:uid:1000"]
IDS = [f"00000000-0000-4000-8000-00000000000{n:x}" for n in range(12)]
# how often each operation is drawn
WEIGHTS = operations.weighted({"create": 2, "update": 1, "delete": 1, "set_agent": 2, "drop_agent": 1, "set_bundle": 1, "drop_bundle": 1,
                               "prune": 1}, operations.OPERATIONS)
NAMES = [name for name, weight in WEIGHTS.items() for _ in range(weight)]
# how often an optional key is there; one that isn't listed never is
CHANCES = {"hint": 0.2, "domains": 0.2, "expiry": 0.2, "x509_svid_ttl": 0.2, "jwt_svid_ttl": 0.2, "revision": 0.3, "mode": 0.6}
CHANCES_OF_PAGE = {"from": 0.15, "parent": 0.15, "identity": 0.15, "domain": 0.15, "at": 0.15, "selectors": 0.15}


class Lines(Spelling):
    """Random lines, each from the random numbers of `random`."""

    def __init__(self, random, damage):
        super().__init__(random)
        self.damage = damage
        self.sent = []  # lines with a token

    def line(self):
        """Returns a line. One in five with a token is an earlier one in another spelling."""
        random = self.random
        if self.sent and random.random() < 0.08:
            batch = json.loads(random.choice(self.sent))
            if random.random() < 0.2:
                batch["after"] = random.randrange(10)
            elif random.random() < 0.02:
                batch["after"] = 1 << 40
        else:
            batch = self.batch()
            if "token" in batch:
                self.sent.append(json.dumps(batch))
        text = self.spell(batch)
        return self.damaged(text) if random.random() * 100 < self.damage else text

    def batch(self):
        random = self.random
        count = random.choice([1, 1, 1, 1, 2, 3, 6])
        if random.random() < 0.02:
            count = random.choice([0, 8, 20, 64, 65])
        batch = {"ops": [self.op() for _ in range(count)]}
        if random.random() < 0.01:  # about as many listings as a query may have
            some = [op for op in (self.op() for _ in range(400)) if json.dumps(op.get("op")).encode() in rules.LISTINGS]
            batch["ops"] = some[:random.choice([rules.MOST_LISTINGS, rules.MOST_LISTINGS + 1])]
        if random.random() < 0.15:
            batch["after"] = random.choice([0, 1, random.randrange(10), None])
        if random.random() < 0.001:
            batch["after"] = random.choice([1 << 40, (1 << 64) - 1, 1 << 64])  # a gateway lets such a query wait
        if random.random() < 0.2:
            batch["token"] = random.choice(self.tokens)
        if random.random() < 0.05:
            batch["tries"] = random.choice([1, 16, 0, 17])
        if random.random() < 0.01:
            batch[random.choice(["zz", "Ops", 'a"b'])] = 1
        return batch

    def values(self, name):
        """Returns for each key of an operation a function that draws its value."""
        random = self.random
        count = {"set_agent": lambda: random.randrange(3), "page": lambda: 1}.get(name, lambda: random.choice([1, 1, 2]))
        values = {"id": IDS, "agent": AGENTS, "size": [1, 2, 500], "from": IDS, "parent": PARENTS, "identity": IDENTITIES,
                  "domain": DOMAINS, "at": range(400), "selectors": [],
                  "hint": ["", "h", "\u00e9\"\\"], "domains": [[], ["b.org"], ["c.org", "b.org"]],
                  "expiry": [0, 5, 1 << 40], "x509_svid_ttl": [0, 60], "jwt_svid_ttl": [0, 60], "revision": range(3),
                  "text": ["", "{}", "create", "line\n\u2028\t", "x" * 300], "mode": ["restrict", "delete", "dissociate", None],
                  "match": ["exact", "any", "superset", "subset", None], "before": [0, 6, 1 << 41]}
        functions = {key: functools.partial(random.choice, some) for key, some in values.items()}
        return functions | {"selectors": lambda: random.sample(SELECTORS, count())}

    def op(self):
        random = self.random
        name = random.choice(NAMES)
        chances = CHANCES_OF_PAGE if name == "page" else CHANCES
        op = operations.drawn(name, self.values(name), lambda key: key in chances and random.random() < chances[key])
        if name == "page" and "selectors" in op:
            op["match"] = self.values(name)["match"]()
        if random.random() < 0.03:
            op[random.choice([*op, "zz"])] = random.choice(WRONG)
        if name == "create" and not isinstance(op.get("id"), str):
            op["id"] = IDS[0]  # regd plain would draw another id than the gateway
        return op
