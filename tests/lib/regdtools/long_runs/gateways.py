"""Random faults of a site of three gateways under load, of the kinds that gateway/test tries one by one."""
import collections
import concurrent.futures
import json
import pathlib
import subprocess
import tempfile
import time

from regdtools.long_runs import shrinking
from regdtools.program import program
from regdtools.wrong import Wrong
from gatewaytools import auditing, cluster, faults, tools

# faults with the seconds that each takes under load
LENGTHS = {"killed_regds": 7, "killed_gateways": 8, "killed_leader": 10, "killed_follower": 5, "lost_majority": 9, "stopped_members": 14,
           "stopped_regd": 5, "hung_regd": 18, "stopped_gateway": 5, "killed_all": 12, "snapshots": 16, "cut_off_gateway": 9, "cut_off_leader": 9,
           "lost_one_way": 15, "far_members": 9}
# faults of replicas and gateways, and faults of etcd, of which one of each may occur at the same time
OF_REPLICAS = ["killed_regds", "stopped_regd", "stopped_gateway"]
OF_ETCD = ["killed_leader", "killed_follower", "stopped_members"]
# After this many acknowledged changes a site ends, since each of them is sent again. During one more fault the callers send fewer than
# 20,000 changes: each waits 10 milliseconds before each line, and half of the lines are changes.
MOST_CHANGES = 40_000
CALLERS, PAUSE = [1, 10, 20], "10ms"
READY_SECONDS = 60


def drawn_fault(draw, has_network):
    """Returns one or two faults, the number of callers, and whether they use the port for linearizable reads."""
    of_network = list(faults.OF_NETWORK) if has_network else []
    some = [*of_network, *(name for name in LENGTHS if name not in faults.OF_NETWORK)]
    # a gateway that is cut off can't make another replica, and so answers nothing without the one that it has
    beside = OF_ETCD + [name for name in of_network if name != "cut_off_gateway"]
    names = [draw.choice(OF_REPLICAS), draw.choice(beside)] if draw.random() < 0.3 else [draw.choice(some)]
    return {"faults": names, "callers": draw.choice(CALLERS), "fresh": draw.random() < 0.3}


def seconds_of(fault):
    return max(LENGTHS[name] for name in fault["faults"])


class Run:
    """A site under load, and what was found."""

    def __init__(self, programs, folder, counts, has_network):
        self.site = faults.Site(programs, folder, has_network=has_network)
        self.programs, self.counts = programs, counts
        self.played, self.changes, self.reads = [], 0, []

    def populate(self):
        address = f"127.0.0.1:{self.site.gateways[0].port}"
        subprocess.run([self.programs.load, "-addresses", address, "-populate", "-seconds", "0"], check=True, capture_output=True)

    def play(self, fault):
        """Plays one or two faults under load, and waits until all gateways are ready again."""
        number, fresh = len(self.played), fault["fresh"]
        self.played.append(fault)
        words = ["-changes", "50", "-think", PAUSE, *(["-history"] if fresh else [])]
        load = self.site.load(seconds_of(fault), *words, fresh=fresh, callers=fault["callers"], record=f"record{number}")
        time.sleep(1)
        with concurrent.futures.ThreadPoolExecutor() as pool:
            for done in [pool.submit(faults.FAULTS[name], self.site) for name in fault["faults"]]:
                done.result()
        out, _ = load.communicate(timeout=300)
        ready = lambda: all(gateway.status()["ready"] for gateway in self.site.gateways)
        cluster.wait_for(ready, READY_SECONDS, "a gateway that is ready again")
        self.take(json.loads(out), fresh, self.site.folder / f"record{number}")
        self.counts.update(fault["faults"])

    def take(self, seen, fresh, record):
        """Checks what the callers saw, and adds their record to that of the site."""
        events = record.read_text().splitlines()
        if seen["back"] or seen["refused"]:
            raise Wrong(f"{seen['back']} commit numbers went back on a connection, {seen['refused']} changes were refused")
        if fresh:
            values = [json.loads(line) for line in events]
            self.counts["linearizable reads"] += sum(bool(value.get("read")) for value in values)
            if stale := auditing.stale_reads(values):
                raise Wrong(f"{stale} stale reads")
            self.reads += [value for value in values if value.get("read")]
        with open(self.site.folder / "record", "a") as whole:
            whole.writelines(line + "\n" for line in events)
        self.changes += sum('"line":' in line for line in events)
        self.counts.update({f"answers {key}": seen[key] for key in ("lost", "resent", "repeated")})

    def check(self):
        """Compares the acknowledged changes and the linearizable reads with a replay of the log, sends the changes again, and compares
        again."""
        found, acknowledged = faults.checked(self.site)
        if self.reads and (wrong := faults.wrong_reads(self.site, self.reads)):
            found.append(f"{wrong} reads with another answer than the reference has at their commit")
        found += faults.sent_again(self.site, acknowledged)
        found += [f"after the repeats: {fault}" for fault in faults.checked(self.site)[0]]
        if found:
            raise Wrong("; ".join(found))
        self.counts["acknowledged changes"] += len(acknowledged)


class LongGateway:
    """Pieces of some minutes. Each has a site of its own, and one random fault after another."""

    name, unit, piece = "gateway", "seconds", 120
    expected, enough = [*LENGTHS, "linearizable reads"], 3_600

    def prepare(self):
        """Builds the programs of the gateway into a folder that ends with the run."""
        tools.need("go", "etcd")
        self.folder = tempfile.TemporaryDirectory(prefix="long-runs-gateway-")
        self.programs = tools.build(pathlib.Path(self.folder.name) / "programs", program())

    def run(self, draw, amount, counts):
        begin = time.monotonic()
        # the network costs processor time, and without it more changes are made
        has_network = draw.random() < 0.5

        def following(run):
            is_over = time.monotonic() - begin > amount or run.changes > MOST_CHANGES
            return None if is_over else drawn_fault(draw, has_network)

        self.play(following, counts, has_network)
        counts[self.unit] += round(time.monotonic() - begin)

    def play(self, following, counts, has_network):
        """Plays the faults that `following` returns, up to None, and checks the site."""
        with tempfile.TemporaryDirectory(dir=self.folder.name) as folder:
            run = Run(self.programs, folder, counts, has_network)
            with run.site:
                try:
                    run.populate()
                    while fault := following(run):
                        run.play(fault)
                    run.check()
                except Wrong as wrong:
                    raise Wrong(wrong.reason, run.played) from None
                except (AssertionError, OSError, RuntimeError, KeyError, subprocess.SubprocessError) as error:
                    raise Wrong(f"{type(error).__name__}: {error}", run.played) from None

    def fails(self, items):
        """Plays these faults. Returns what is wrong, or None."""
        rest = list(items)
        try:
            has_network = any(name in faults.OF_NETWORK for fault in items for name in fault["faults"])
            self.play(lambda run: rest.pop(0) if rest else None, collections.Counter(), has_network)
        except Wrong as wrong:
            return wrong.reason
        return None

    @staticmethod
    def simpler(fault):
        yield from ({**fault, "faults": [name]} for name in fault["faults"] if len(fault["faults"]) > 1)
        yield from [{**fault, "fresh": False}, {**fault, "callers": 1}]

    @staticmethod
    def group(fault):
        return None

    @staticmethod
    def weight(fault):
        return len(fault["faults"]), fault["fresh"], fault["callers"]

    @staticmethod
    def bytes_of(fault):
        return shrinking.compact(fault).encode() + b"\n"

    @staticmethod
    def item_of(line):
        return json.loads(line)
