"""Tests of regdctl's plans with real servers: clients that apply files at the same time, plans that are killed and repeated, a full book."""
import collections
import concurrent.futures
import contextlib
import json
import os
import pathlib
import pty
import re
import select
import socket
import subprocess
import threading
import time

from regdtools.wrong import Wrong, expect
from gatewaytools import cluster

ROUNDS = 25
# the operations of the plans that are killed, and after how many of their lines
KILLED = {1: [0, 1], 63: [0, 1], 64: [0, 1, 2], 200: [0, 1, 2, 3, 4], 16_383: [1, 130, 260]}
HEAD = "regdctl: 1\ndomain: ex.org\n"


def entries_of(count, hint, parent="/p"):
    """Returns the rows of entries of a state."""
    return "entries:\n" + "".join(f"  - {{identity: /i/{i}, parent: {parent}, selectors: ['unix:uid:{i}'], hint: {hint}}}\n" for i in range(count))


def state_of(name, rows, agent=None):
    """Returns the text of a desired state."""
    agents = f"agents: [{{id: /spire/agent/shared, selectors: ['{agent}']}}]\n" if agent else ""
    return f"{HEAD}set: {name}\n{agents}{rows}"


def write(folder, name, text):
    path = pathlib.Path(folder) / name
    path.parent.mkdir(parents=True, exist_ok=True)
    path.write_text(text)
    return str(path)


def exported(client, name):
    """Returns the entries of a set, without their ids."""
    entries = json.loads(client.get("export", "-set", name, "-output", "json")).get("entries", [])
    return sorted(json.dumps(entry, sort_keys=True) for entry in entries)


def other_clients(client, stop, commits):
    """Changes an agent that plans change, too, and an entry of no set, until it is stopped. Notes the commits."""
    number = 0
    while not stop.is_set():
        number += 1
        selector = f"other:{number}"
        answer = json.loads(client.get("agent", "set", "/spire/agent/shared", "-selector", selector, "-output", "json"))
        commits[answer["place"]] = selector
        client.run("entry", "create", "-parentID", "/hand", "-spiffeID", f"/hand/{number}", "-selector", "x:1", "-output", "json")


def unreported(applied, commits):
    """Returns the changes of others that a plan has replaced without saying so."""
    found = []
    for one in applied:
        for batch in one["batches"]:
            between = [place for place in commits if one["planned"] < place < batch["place"]]
            said = [change["had"] for change in one["overwritten"] or []]
            if between and not batch.get("repeated") and commits[max(between)] not in said:
                found.append((max(between), one))
    return found


def races(programs, folder, Server):
    """Two clients apply two files of one set at the same time, while two others apply two files of another set and a fifth changes an agent of
    both. The sets are always those of one of their files."""
    outcomes, applied, made, commits = collections.Counter(), [], set(), {}
    files = {(name, hint): write(folder, f"{name}-{hint}.yaml", state_of(name, entries_of(5, hint, f"/{name}"), f"{name}:{hint}"))
             for name in ("red", "blue") for hint in ("a", "b")}
    with Server(programs, "-timeout", "120s", workers=8) as server:
        client, stop = server.client, threading.Event()

        def apply(key):
            file = files[key]
            status, out, errors = client.run("apply", "-yes", file, "-output", "json")
            if status == 0:
                made.add(key[0])
                applied.append(json.loads(out))
                return "repeated" if any(batch.get("repeated") for batch in applied[-1]["batches"]) else "applied" if applied[-1]["batches"] else "nothing to do"
            if status != 3:
                raise Wrong(f"apply {file}: status {status}: {out}{errors}")
            return ([*re.findall(r"refused: (\w+)", errors), "planned anew"])[0]

        with concurrent.futures.ThreadPoolExecutor(5) as pool:
            other = pool.submit(other_clients, client, stop, commits)
            try:
                for _ in range(ROUNDS):
                    outcomes.update(pool.map(apply, files))
                    for name in ("red", "blue"):
                        found = exported(client, name)
                        hints = {json.loads(entry)["hint"] for entry in found}
                        expect([len(found), len(hints)], [5, 1] if name in made else [0, 0], f"the entries of {name} and their hints")
            finally:
                stop.set()
            other.result()
        silent = unreported(applied, commits)
        if silent:
            raise Wrong(f"changes of others that were replaced silently: {silent[:3]}")
    said = sum(len(one["overwritten"] or []) for one in applied)
    return f"{ROUNDS} rounds: {', '.join(f'{count} {name}' for name, count in sorted(outcomes.items()))}; {len(commits)} changes by others, {said} replaced and reported"


class Cutter:
    """A proxy that lets some request lines through which have a token, and then calls a function."""

    def __init__(self, address, lines, then):
        host, port = address.rsplit(":", 1)
        self.target, self.lines, self.then = (host, int(port)), lines, then
        self.listener = socket.create_server(("127.0.0.1", 0))
        self.address = f"127.0.0.1:{self.listener.getsockname()[1]}"
        threading.Thread(target=self.accept, daemon=True).start()

    def accept(self):
        with contextlib.suppress(OSError):
            while True:
                threading.Thread(target=self.serve, args=(self.listener.accept()[0],), daemon=True).start()

    def serve(self, near):
        with contextlib.suppress(OSError), near, socket.create_connection(self.target) as far:
            reader, answers = near.makefile("rb"), far.makefile("rb")
            for line in reader:
                if b'"token"' in line:
                    if self.lines == 0:
                        self.then()
                        return
                    self.lines -= 1
                far.sendall(line)
                near.sendall(answers.readline())

    def __enter__(self):
        return self

    def __exit__(self, *_):
        self.listener.close()


def killed(program, server, plan, lines):
    """Applies a plan, and kills the command when it wants to send another line after some. Returns whether it was killed."""
    process = None
    started = threading.Event()

    def kill():
        started.wait(10)
        process.kill()

    with Cutter(server.address, lines, kill) as proxy:
        words = [program, "-address", proxy.address, "-domain", cluster.DOMAIN, "-timeout", "10m", "apply", plan]
        process = subprocess.Popen(words, stdout=subprocess.DEVNULL, stderr=subprocess.DEVNULL)
        started.set()
        return process.wait(900) != 0


def resume(programs, folder, Server):
    """Plans that are killed after each batch, and repeated: by the stored plan, or by planning again. The book is that of a run without cuts."""
    counts = collections.Counter()
    for count, cuts in KILLED.items():
        file = write(folder, f"{count}.yaml", state_of("s", entries_of(count, "h")))
        for lines in cuts:
            for is_planned_again in (False, True) if count < 1000 else (False,):
                with Server(programs, "-timeout", "10m") as server:
                    client = server.client
                    plan = str(pathlib.Path(folder) / "plan")
                    expect(client.run("plan", "-out", plan, file)[0], 4, "the plan")
                    counts["killed"] += killed(programs.regdctl, server, plan, lines)
                    if is_planned_again:
                        client.get("apply", "-yes", file)
                    else:
                        out = client.get("apply", plan)
                        counts["batches made before"] += out.count("made before")
                    expect(client.run("plan", file)[0], 0, f"a plan of {count} entries after {lines} lines")
                    expect(len(exported(client, "s")), count, "entries")
                    counts["runs"] += 1
    with_gateways = resume_by_gateways(programs, folder)
    return f"{', '.join(f'{number} {name}' for name, number in sorted(counts.items()))}; {with_gateways}"


def resume_by_gateways(programs, folder):
    """Applies a plan of several batches while the gateways are killed and started one after another."""
    from gatewaytools import faults
    from gatewaytools.clients import Client

    file = write(folder, "gateways.yaml", state_of("s", entries_of(600, "h")))
    with faults.Site(programs, pathlib.Path(folder) / "site") as site:
        addresses, fresh = (",".join(f"127.0.0.1:{getattr(gateway, port)}" for gateway in site.gateways) for port in ("port", "fresh"))
        client = Client(programs.regdctl, addresses, "-fresh", fresh, "-timeout", "120s")
        plan = str(pathlib.Path(folder) / "plan-of-gateways")
        expect(client.run("plan", "-out", plan, file)[0], 4, "the plan")
        process = subprocess.Popen([*client.words, "apply", plan], stdout=subprocess.PIPE, stderr=subprocess.STDOUT, text=True)
        for gateway in site.gateways:
            gateway.kill()
            select.select([process.stdout], [], [], 1)
            gateway.start()
            time.sleep(0.2)
        out, _ = process.communicate(timeout=180)
        expect(process.returncode, 0, f"apply while gateways are killed: {out}")
        expect(client.run("apply", plan)[0], 0, "the same again")
        expect(client.run("plan", file)[0], 0, "the plan afterwards")
        cluster.settle(site.gateways)
    return f"10 batches while three gateways are killed, {out.count('made before')} of them sent twice"


def asked(programs, folder, Server):
    """apply asks on a terminal, and goes on with yes alone."""
    file = write(folder, "asked.yaml", state_of("s", entries_of(3, "h")))
    with Server(programs) as server:
        for answer, status, count in ((b"n\n", 4, 0), (b"\n", 4, 0), (b"y\n", 0, 3)):
            ours, theirs = pty.openpty()
            with subprocess.Popen([*server.client.words, "apply", file], stdin=theirs, stdout=subprocess.PIPE, stderr=subprocess.PIPE, text=True) as process:
                os.close(theirs)
                os.write(ours, answer)
                out, errors = process.communicate(timeout=60)
                os.close(ours)
            expect([process.returncode, "apply 3 changes? [y/N]" in errors], [status, True], f"the answer {answer}: {out}{errors}")
            expect(len(exported(server.client, "s")), count, "entries")
    return "apply asks there, and does nothing without yes"


def plans_of_full_book(folder, client, measured, limit):
    """Measures plans of a full book: one that finds nothing to do, and one that changes every entry. Returns rows and faults."""
    # the entries were made by hand: the first plan adopts all of them
    whole = write(folder, "whole.yaml", client.get("export", "-as", "whole"))
    rows, found = [], []
    for what, status, *words in (("a plan that adopts all entries", 4, "plan", "-adopt", whole), ("export", 0, "export"),
                                ("backup", 0, "backup", "-partial")):
        got, seconds, processor, megabytes, out = measured(client, limit, *words)
        rows.append(f"{what} {seconds:.2f} s, {processor:.2f} s of a processor")
        if got != status:
            found.append(f"{what}: status {got}: {out[-500:]}")
        if seconds > limit:
            found.append(f"{what} took {seconds:.2f} s, and the limit is {limit} s")
    return rows, found, megabytes


def pipeline(programs, folder, Server):
    """A pipeline: it applies a file, finds drift by the status, applies again after a cut connection, and has an audit of who did so."""
    file = write(folder, "book.yaml", state_of("prod", entries_of(100, "www")))
    with Server(programs) as server:
        client = server.client
        client.get("apply", "-yes", "-by", "pipeline", file)
        expect(client.run("plan", file)[0], 0, "a plan without drift")
        entry = json.loads(client.get("entry", "show", "-spiffeID", "/i/7", "-output", "json"))["entries"][0]
        client.get("entry", "set", "-entryID", entry["id"], "-hint", "by hand")
        client.get("entry", "delete", "-entryID", json.loads(client.get("entry", "show", "-spiffeID", "/i/8", "-output", "json"))["entries"][0]["id"])
        status, out, _ = client.run("plan", "-output", "json", file)
        expect([status, [row["change"] for row in json.loads(out)["rows"]]], [4, ["~", "+"]], "the drift")
        cuts = [2]

        def cut():
            cuts[0] -= 1

        with Cutter(server.address, 0, cut) as proxy:  # each line with a token ends its connection, until the command gives up
            words = [programs.regdctl, "-address", proxy.address, "-domain", cluster.DOMAIN, "-timeout", "3s", "apply", "-yes", file]
            done = subprocess.run(words, capture_output=True, text=True)
            expect([done.returncode, "regdctl call -retry" in done.stderr], [5, True], f"a change whose answer is lost: {done.stderr}")
        expect(cuts[0] < 2, True, "cuts")
        client.get("apply", "-yes", "-by", "pipeline", file)
        expect(client.run("plan", file)[0], 0, "a plan after the drift was removed")
        marker = json.loads(client.get("entry", "show", "-spiffeID", "/regdctl/set", "-output", "json"))["entries"][0]
        expect(json.loads(marker["hint"])["by"], "pipeline", "who has applied")
        backup = write(folder, "backup.jsonl", client.get("backup", "-partial"))
        with Server(programs) as empty:
            empty.client.get("restore", backup)
            for one, other in ((backup, f"@{empty.address}"), (f"@{server.address}", f"@{empty.address}")):
                expect(client.run("diff", one, other)[0], 0, f"diff {one} {other}")
            empty.client.get("restore", backup)
            expect(empty.client.run("plan", file)[0], 0, "a plan of the restored book")
    return "drift found by status 4, a lost answer by status 5, the same again, and no drift afterwards, also in a restored book"
