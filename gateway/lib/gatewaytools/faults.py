"""Faults under load. Every acknowledged change is compared with a replay of the log, and afterwards sent again through other gateways."""
import concurrent.futures
import json
import os
import pathlib
import signal
import subprocess
import time

from gatewaytools import auditing, cluster, plain

MEMBERS = 3
GATEWAYS = 3
# each change of a run is sent again at its end, which on a busy machine may come after the usual five minutes
RETENTION = ["-token-time", "1h"]


class Site:
    """Three etcd members, three gateways, and callers that send for some time. With a network, members and gateways reach the members through
    it."""

    def __init__(self, programs, folder, etcd_words=(), regds=None, has_network=False):
        self.programs, self.folder = programs, pathlib.Path(folder)
        self.etcd = cluster.Etcd(self.folder / "etcd", MEMBERS, etcd_words, has_network)
        self.gateways = []
        for number in range(GATEWAYS):
            regd = (regds or {}).get(number, programs.regd)
            log = self.folder / f"gateway{number}.log"
            log.unlink(missing_ok=True)
            self.gateways.append(cluster.Gateway(programs.gateway, regd, self.etcd, self.folder, number, RETENTION))
        self.notes, self.loads = [], []

    def __enter__(self):
        return self

    def __exit__(self, *_):
        for load in self.loads:
            load.kill()
        for gateway in self.gateways:
            gateway.kill()
        self.etcd.__exit__()

    def load(self, seconds, *words, fresh=False, callers=40, record="record"):
        addresses = ",".join(f"127.0.0.1:{gateway.fresh if fresh else gateway.port}" for gateway in self.gateways)
        words = [self.programs.load, "-addresses", addresses, "-connections", str(callers), "-seconds", str(seconds), "-tokens",
                 "-record", str(self.folder / record), *words]
        self.loads.append(subprocess.Popen(words, stdout=subprocess.PIPE))
        return self.loads[-1]

    def snapshot(self, keep):
        words = [self.programs.gateway, "-domain", cluster.DOMAIN, "-etcd", ",".join(self.etcd.urls), "-regd", self.programs.regd,
                 "-snapshot", "-keep", str(keep), *RETENTION]
        done = subprocess.run(words, capture_output=True, text=True, timeout=120)
        if done.returncode:
            raise RuntimeError(done.stderr)
        return "snapshot made" in done.stderr


# ---- the faults


def nothing(site):
    time.sleep(2)


def killed_regds(site):
    for number in (0, 1, 0, 2):
        site.gateways[number].kill_regd()
        time.sleep(1.2)


def killed_gateways(site):
    for number in (1, 2, 0, 1):
        site.gateways[number].kill()
        time.sleep(0.7)
        site.gateways[number].start()
        time.sleep(0.5)


def killed_leader(site):
    for _ in range(2):
        leader = site.etcd.leader()
        site.etcd.kill(leader)
        time.sleep(2.5)
        site.etcd.start(leader)
        site.etcd.wait(leader)


def killed_follower(site):
    follower = (site.etcd.leader() + 1) % MEMBERS
    site.etcd.kill(follower)
    time.sleep(1.5)
    site.etcd.start(follower)
    site.etcd.wait(follower)


def lost_majority(site):
    leader = site.etcd.leader()
    both = [leader, (leader + 1) % MEMBERS]
    for number in both:
        site.etcd.kill(number)
    time.sleep(4)
    for gateway in site.gateways:
        [answer] = gateway.call(cluster.page(), seconds=2)  # queries go on
        assert answer.endswith(b'"answered"}'), answer
    for number in both:
        site.etcd.start(number)
    for number in both:
        site.etcd.wait(number)


def stopped_members(site):
    for offset in (1, 0):
        number = (site.etcd.leader() + offset) % MEMBERS
        site.etcd.signal(number, signal.SIGSTOP)
        time.sleep(5)
        site.etcd.signal(number, signal.SIGCONT)
        time.sleep(1)


def stopped_regd(site):
    regd = site.gateways[0].status()["regd"]
    os.kill(regd, signal.SIGSTOP)
    time.sleep(3)
    os.kill(regd, signal.SIGCONT)


def hung_regd(site):
    """A regd that answers nothing more, and doesn't end. Its gateway makes another replica."""
    gateway = site.gateways[0]
    regd = gateway.status()["regd"]
    os.kill(regd, signal.SIGSTOP)
    cluster.wait_for(lambda: gateway.status().get("regd", regd) != regd, 25, "another regd")


def stopped_gateway(site):
    process = site.gateways[1].process
    os.kill(process.pid, signal.SIGSTOP)
    time.sleep(3)
    os.kill(process.pid, signal.SIGCONT)


def killed_all(site):
    for _ in range(2):
        for number in range(MEMBERS):
            site.etcd.members[number].kill()
        for gateway in site.gateways:
            gateway.process.kill()
        for number in range(MEMBERS):
            site.etcd.kill(number)
        for gateway in site.gateways:
            gateway.kill()
        time.sleep(0.5)
        for number in range(MEMBERS):
            site.etcd.start(number)
        for gateway in site.gateways:
            gateway.start(waits=False)
        for number in range(MEMBERS):
            site.etcd.wait(number)
        cluster.wait_for(lambda: all(gateway.status()["ready"] for gateway in site.gateways), 60, "gateways after all were killed")


def snapshots(site):
    """Snapshots, a log that is cut, and an etcd whose history is compacted, while gateways are killed."""
    made = []

    def snap():
        for _ in range(5):
            made.append(site.snapshot(50))
            site.etcd.store().compact()
            time.sleep(1.5)

    with concurrent.futures.ThreadPoolExecutor(1) as pool:
        made_all = pool.submit(snap)
        killed_gateways(site)
        made_all.result()
    killed_regds(site)
    site.notes.append(f"{sum(made)} snapshots")


# ---- the faults of the network

ALL_MEMBERS = [f"m{number}" for number in range(MEMBERS)]
ALL_GATEWAYS = [f"g{number}" for number in range(GATEWAYS)]


def leader_and_others(site):
    """Returns the names of the member that leads and of the others."""
    leader = f"m{site.etcd.leader()}"
    return [leader], [name for name in ALL_MEMBERS if name != leader]


def cut_off_gateway(site):
    """A gateway that reaches no member, while the others do. It answers queries of the usual port."""
    with site.etcd.network.cut((["g0"], ALL_MEMBERS), (ALL_MEMBERS, ["g0"])):
        time.sleep(6)
        [answer] = site.gateways[0].call(cluster.page(), seconds=2)
        assert answer.endswith(b'"answered"}'), answer
        assert site.gateways[0].get("/ready/changes")[0] == 503, "a gateway that is cut off is ready for changes"


def cut_off_leader(site):
    """A leader that reaches no other member, and that gateways reach: they must not take what it has for the end of the log."""
    leader, others = leader_and_others(site)
    with site.etcd.network.cut((leader, others), (others, leader)):
        time.sleep(6)


def lost_one_way(site):
    """What is sent in one direction is lost: the answers to a gateway, its requests, and what the leader sends to the others."""
    with site.etcd.network.cut((ALL_MEMBERS, ["g1"])):
        time.sleep(4)
    with site.etcd.network.cut((["g2"], ALL_MEMBERS)):
        time.sleep(4)
    leader, others = leader_and_others(site)
    with site.etcd.network.cut((leader, others)):
        time.sleep(4)


def far_members(site):
    """Members that are far from each other, and further from the gateways."""
    site.etcd.network.set(ALL_MEMBERS, ALL_MEMBERS, delay=0.05)
    for gateway, delay in zip(ALL_GATEWAYS, (0.05, 0.15, 0.3)):
        site.etcd.network.set([gateway], ALL_MEMBERS, delay=delay)
        site.etcd.network.set(ALL_MEMBERS, [gateway], delay=delay)
    time.sleep(6)
    site.etcd.network.heal()


OF_NETWORK = {fault.__name__: fault for fault in (cut_off_gateway, cut_off_leader, lost_one_way, far_members)}


def everything(site):
    for fault in (killed_regds, killed_gateways, killed_leader, killed_follower, stopped_regd):
        fault(site)


FAULTS = {fault.__name__: fault for fault in (nothing, killed_regds, killed_gateways, killed_leader, killed_follower, lost_majority,
                                              stopped_members, stopped_regd, hung_regd, stopped_gateway, killed_all, snapshots, everything)}
FAULTS |= OF_NETWORK


# ---- what is checked


def checked(site, record="record"):
    """Returns the faults that the run shows: in acknowledged changes, in the books, in the checksums."""
    found = []
    statuses = cluster.settle(site.gateways)
    if len({status["sum"] for status in statuses}) != 1 or len({status["tokens"] for status in statuses}) != 1:
        found.append(f"the replicas differ: {statuses}")
    books = [gateway.book() for gateway in site.gateways]
    store = site.etcd.store()
    snapshot = store.snapshot()
    entries = [entry for entry in store.entries() if not snapshot or entry.number > snapshot.entry]
    replayed, base, pages = auditing.replay(site.programs.regd, cluster.DOMAIN, entries, snapshot, books[0][0])
    if any(answers != pages for _, answers in books):
        found.append("a book is not that of the reference")
    acknowledged = list(auditing.recorded(site.folder / record))
    counts = {}
    for fault in auditing.faults(acknowledged, replayed, base):
        counts[fault.kind] = counts.get(fault.kind, 0) + 1
        if counts[fault.kind] == 1:
            found.append(f"{fault.kind}: {fault.line[:300]} {fault.reply[:300]}")
    found += [f"{count} changes {kind}" for kind, count in counts.items()]
    site.notes.append(f"{len(acknowledged)} changes acknowledged, {sum((plain.place_of(reply) or 0) <= base for _, reply in acknowledged)} of them in a snapshot")
    return found, acknowledged


def wrong_reads(site, events):
    """Returns how many recorded queries have another answer than the reference at their commit."""
    store = site.etcd.store()
    snapshot = store.snapshot()
    entries = [entry for entry in store.entries() if not snapshot or entry.number > snapshot.entry]
    replayed, base, _ = auditing.replay(site.programs.regd, cluster.DOMAIN, entries, snapshot)
    return auditing.wrong_reads(site.programs.regd, cluster.DOMAIN, replayed, base, snapshot, events)


def sent_again(site, acknowledged):
    """Sends every acknowledged change again, and returns the faults: each has to be repeated with its first replies."""
    words = [site.programs.load, "-addresses", ",".join(f"127.0.0.1:{gateway.port}" for gateway in reversed(site.gateways)),
             "-connections", "60", "-resend", str(site.folder / "record"), "-record", str(site.folder / "again")]
    subprocess.run(words, check=True, stdout=subprocess.DEVNULL, timeout=600)
    first = {line: plain.tail(reply).replace(b'"repeated"}', b'"committed"}') for line, reply in acknowledged}
    wrong = count = 0
    for line, reply in auditing.recorded(site.folder / "again"):
        count += 1
        rest = plain.tail(reply)
        wrong += not rest.endswith(b'"repeated"}') or rest.replace(b'"repeated"}', b'"committed"}') != first[line]
    site.notes.append(f"{count} sent again")
    return [f"{wrong} of {count} changes sent again were not repeated"] if wrong or count < len(first) else []


def run(programs, folder, name, callers=40, fresh=False):
    """Runs one fault under load. Returns the number of acknowledged changes, the answers of load, notes and faults."""
    fault = FAULTS[name]
    with Site(programs, folder, has_network=name in OF_NETWORK) as site:
        done = subprocess.run([programs.load, "-addresses", f"127.0.0.1:{site.gateways[0].port}", "-populate", "-seconds", "0"], capture_output=True)
        if done.returncode:
            raise RuntimeError(done.stderr)
        load = site.load(LENGTHS.get(name, 12), "-changes", "50", "-think", "5ms", *(["-history"] if fresh else []), fresh=fresh, callers=callers)
        time.sleep(1)
        fault(site)
        out, _ = load.communicate(timeout=300)
        seen = json.loads(out)
        found, acknowledged = checked(site)
        if seen["back"]:
            found.append(f"{seen['back']} places went back on a connection")
        if seen["refused"]:
            found.append(f"{seen['refused']} changes were refused")
        if fresh:
            with open(site.folder / "record") as file:
                events = [json.loads(line) for line in file]
            stale, wrong = auditing.stale_reads(events), wrong_reads(site, events)
            site.notes.append(f"{sum(bool(event.get('read')) for event in events)} reads")
            if stale:
                found.append(f"{stale} stale reads")
            if wrong:
                found.append(f"{wrong} reads with another answer than the reference has at their commit")
        found += sent_again(site, acknowledged)
        found += [f"after the repeats: {fault}" for fault in checked(site)[0]]
        return len(acknowledged), seen, site.notes, found


LENGTHS = {"nothing": 4, "everything": 26, "snapshots": 16, "stopped_members": 15, "hung_regd": 18, "killed_all": 14, "killed_leader": 12,
           "lost_one_way": 17}
