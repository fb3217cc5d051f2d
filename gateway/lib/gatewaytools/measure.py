"""Measures rates and the time of a restart, and compares them within one run."""
import json
import os
import pathlib
import subprocess
import time

from gatewaytools import cluster

COLUMNS = ["what", "clients", "members", "per_s", "p50_ms", "p99_ms", "ratio", "load"]
SECONDS = 2.5
ROUNDS = 3


def load(programs, address, clients, *words, seconds=SECONDS):
    done = subprocess.run([programs.load, "-addresses", address, "-connections", str(clients), "-seconds", str(seconds), *words],
                          capture_output=True, text=True, check=True)
    return json.loads(done.stdout)


def middle(values):
    return sorted(values)[len(values) // 2]


def rows_of(what, kind, measured, base):
    """Returns a row for each column of measured rounds; `ratio` is to the one named base, round by round."""
    for (clients, members), rounds in measured.items():
        rates = [one[f"{kind}_per_s"] for one in rounds]
        ratios = [one[f"{kind}_per_s"] / other[f"{kind}_per_s"] for one, other in zip(rounds, base(clients, members))] if base(clients, members) else []
        yield [what, clients, members, round(middle(rates)), round(middle([one[f"{kind}_p50_ms"] for one in rounds]), 2),
               round(middle([one[f"{kind}_p99_ms"] for one in rounds]), 2), round(middle(ratios), 2) if ratios else "", round(os.getloadavg()[0], 1)]


def against(programs, other, folder):
    """Measures the gateway and another build of it in turn, each with a member of its own. Ratios are to the other one."""
    folder, rows = pathlib.Path(folder), []
    with cluster.Etcd(folder / "etcd", 1) as etcd, cluster.Etcd(folder / "etcd-of-other", 1) as etcd_of_other, \
            cluster.Gateway(programs.gateway, programs.regd, etcd, folder / "g", 0) as gateway, \
            cluster.Gateway(other, programs.regd, etcd_of_other, folder / "other", 1) as gateway_of_other:
        addresses = [f"127.0.0.1:{one.port}" for one in (gateway, gateway_of_other)]
        for address in addresses:
            load(programs, address, 1, "-populate", seconds=0.2)
        for kind, words, all_clients in (("changes", ["-changes", "100"], (1, 10, 100, 1000)), ("reads", [], (1, 20, 2000))):
            for clients in all_clients:
                ours, theirs = zip(*([load(programs, address, clients, *words) for address in addresses] for _ in range(ROUNDS)))
                rows += rows_of(f"{kind}; ratio to the other build", kind, {(clients, 1): ours}, lambda *_: theirs)
                rows += rows_of(f"{kind} of the other build", kind, {(clients, 1): theirs}, lambda *_: None)
    return rows


def run(programs, folder):
    folder, rows = pathlib.Path(folder), []
    regd = subprocess.Popen([programs.regd, "serve", "--domain", cluster.DOMAIN, "--listen", "127.0.0.1:0", "--workers", "32", "--connections", "2000"],
                            stdout=subprocess.PIPE)
    direct = json.loads(regd.stdout.readline())["listening"]
    try:
        with cluster.Etcd(folder / "one", 1) as one, cluster.Etcd(folder / "three", 3) as three:
            with cluster.Gateway(programs.gateway, programs.regd, one, folder / "g1", 1) as first, \
                    cluster.Gateway(programs.gateway, programs.regd, three, folder / "g3", 3) as second:
                sites = {1: f"127.0.0.1:{first.port}", 3: f"127.0.0.1:{second.port}"}
                for address in [direct, *sites.values()]:
                    load(programs, address, 1, "-populate", seconds=0.2)
                changes = {(clients, members): [] for clients in (1, 10, 100, 1000) for members in sites}
                for clients in (1, 10, 100, 1000):
                    for _ in range(ROUNDS):
                        for members, address in sites.items():
                            changes[clients, members].append(load(programs, address, clients, "-changes", "100"))
                rows += rows_of("changes; ratio to one member", "changes", changes, lambda clients, members: changes[clients, 1])
                direct_reads = {(clients, ""): [] for clients in (1, 20)}
                reads = {(clients, 1): [] for clients in (1, 20, 2000)}
                for clients in (1, 20, 2000):
                    for _ in range(ROUNDS):
                        if clients <= 20:
                            direct_reads[clients, ""].append(load(programs, direct, clients))
                        reads[clients, 1].append(load(programs, sites[1], clients))
                rows += rows_of("queries of regd itself", "reads", direct_reads, lambda *_: None)
                rows += rows_of("queries; ratio to regd itself, at most 20 clients", "reads", reads, lambda clients, _: direct_reads[min(clients, 20), ""])
    finally:
        regd.kill()
        regd.communicate()
    return rows + restart(programs, folder / "restart")


def restart(programs, folder, changes=100_000):
    """Measures how long a gateway takes from its start until it answers queries, at a number of changes, compared with regd alone."""
    lines = [b'{"ops":[{"op":"%s","id":"00000000-0000-4000-8000-%012x","parent":"spiffe://ex.org/spire/agent/n%d","identity":"spiffe://ex.org/w%d",'
             b'"selectors":["u:1"],"hint":"%d"}]}' % (b"create" if n < 10_000 else b"update", n % 10_000, n % 10_000 // 20, n % 10_000, n)
             for n in range(changes)]
    rows = []
    with cluster.Etcd(folder / "etcd", 1) as etcd, cluster.Gateway(programs.gateway, programs.regd, etcd, folder, 0) as gateway:
        for begin in range(0, changes, 20_000):
            from gatewaytools import differential

            answers = differential.answers_of(gateway.port, b"".join(line + b"\n" for line in lines[begin : begin + 20_000]))
            assert all(answer.endswith(b'"committed"}') for answer in answers)
        alone = subprocess.Popen([programs.regd, "serve", "--domain", cluster.DOMAIN, "--listen", "127.0.0.1:0", "--workers", "1", "--connections", "1"],
                                 stdout=subprocess.PIPE)
        address = json.loads(alone.stdout.readline())["listening"]
        begin = time.monotonic()
        differential.answers_of(int(address.rsplit(":", 1)[1]), b"".join(line + b"\n" for line in lines))
        base = time.monotonic() - begin
        alone.communicate()
        rows.append([f"restart: regd alone takes {base:.1f} s for the lines", "", 1, round(changes / base), "", "", "", round(os.getloadavg()[0], 1)])
        times = []
        for what in ("the whole log", "a snapshot"):
            if what == "a snapshot":
                subprocess.run([programs.gateway, "-domain", cluster.DOMAIN, "-etcd", etcd.urls[0], "-regd", programs.regd, "-snapshot", "-keep", "100"],
                               check=True, capture_output=True)
            gateway.kill()
            begin = time.monotonic()
            gateway.start()
            times.append(time.monotonic() - begin)
            rows.append([f"restart from {what}: {times[-1]:.1f} s; ratio of the times to regd alone", "", 1, round(changes / times[-1]), "", "",
                         round(times[-1] / base, 2), round(os.getloadavg()[0], 1)])
    return rows
