"""Tests of regdctl and its packages with real servers: a book that is compared with the server's answers, cut connections, certificates,
limits, an operator's work, and a full book; and with shells and terminals."""
import concurrent.futures
import contextlib
import json
import os
import pathlib
import pty
import re
import resource
import shlex
import socket
import statistics
import subprocess
import sys
import threading
import time
import uuid

from regdtools.wrong import Wrong, expect
from gatewaytools import cluster, planning, tools
from gatewaytools.scenarios import AGENT, certificates

BOOKS = 10_000  # random books that are compared with the server's answers
STATES = 10_000  # random pairs of states
# the most seconds and megabytes for a full book, of a proved program
SECONDS, QUICK_SECONDS, MEGABYTES = 3, 0.5, 200
# how much longer than nc a single change may take
MILLISECONDS = 10


def run_tests(package, pattern, seconds, **env):
    """Runs unit tests that call a server, and returns what they report."""
    words = ["test", "-count=1", "-v", "-timeout", f"{seconds}s", "-run", pattern, f"./{package}"]
    done = tools.go(*words, env=env, capture_output=True, text=True)
    if done.returncode or "--- SKIP" in done.stdout or "--- PASS" not in done.stdout:
        raise Wrong((done.stdout + done.stderr)[-3000:])
    return "; ".join(re.findall(r"_test\.go:\d+: (.*)", done.stdout)) or "passed"


class Client:
    """The program regdctl with its settings."""

    def __init__(self, program, address, *words):
        self.words = [program, "-address", address, "-domain", cluster.DOMAIN, *words]

    def run(self, *words, env=None, text=None):
        """Runs a command, and returns its status, its output and its errors."""
        done = subprocess.run([*self.words, *words], input=text, capture_output=True, text=True, env={**os.environ, **(env or {})}, timeout=300)
        return done.returncode, done.stdout, done.stderr

    def get(self, *words, text=None):
        """Runs a command that has to succeed, and returns its output."""
        status, out, errors = self.run(*words, text=text)
        if status:
            raise Wrong(f"{' '.join(words)}: status {status}: {out}{errors}")
        return out


def chains(programs, folder):
    """What explain, who-can and tree find in random books is what the server answers, and each missing link is one."""
    count = os.environ.get("REGDCTL_BOOKS", str(BOOKS))
    return f"{count} books twice: " + run_tests("book", "ByServer$", 7200, REGD=programs.regd, REGDCTL_BOOKS=count)


def cuts(programs, folder):
    """Changes whose connections are cut after each few bytes are made exactly once, by regd and by three gateways."""
    alone = run_tests("client", "^(TestCuts|TestLinesAreAccepted)$", 600, REGD=programs.regd, REGDCTL_SERVERS="")
    from gatewaytools import faults

    with faults.Site(programs, folder) as site:
        addresses = ",".join(f"127.0.0.1:{gateway.port}" for gateway in site.gateways)
        together = run_tests("client", "^(TestCuts|TestLinesAreAccepted)$", 600, REGD="", REGDCTL_SERVERS=addresses)
        cluster.settle(site.gateways)
    return f"regd: {alone}. Gateways: {together}"


def with_files(keys, name, authority="ca"):
    """Returns the options for a certificate."""
    return ["-certificate", f"{keys}/{name}.pem", "-key", f"{keys}/{name}.key", "-authorities", f"{keys}/{authority}.pem"]


def expired(keys, make):
    """Makes a certificate that has expired already."""
    make("expired", "URI:spiffe://ex.org/operator")
    words = ["openssl", "x509", "-req", "-in", "expired.csr", "-CA", "ca.pem", "-CAkey", "ca.key", "-CAcreateserial", "-out", "expired.pem",
             "-days", "-1", "-extfile", "extensions"]
    subprocess.run(words, cwd=keys, check=True, capture_output=True)


def client_certificates(programs, folder):
    """Callers with certificates: an operator, an agent, an expired one, one of another authority; a server with another name; a
    certificate that is renewed while a command runs."""
    keys = pathlib.Path(folder) / "keys"
    make = certificates(keys)
    make("gateway", "IP:127.0.0.1")
    make("operator", "URI:spiffe://ex.org/operator")
    make("agent", f"URI:{AGENT}")
    expired(keys, make)
    certificates(keys, "other")("forged", "URI:spiffe://ex.org/operator")
    words = ["-certificate", f"{keys}/gateway.pem", "-key", f"{keys}/gateway.key", "-authorities", f"{keys}/ca.pem", "-operators", "spiffe://ex.org/operator"]
    with cluster.Etcd(pathlib.Path(folder) / "etcd", 1) as etcd, cluster.Gateway(programs.gateway, programs.regd, etcd, folder, 0, words) as gateway:
        address = f"127.0.0.1:{gateway.port}"

        def call(name, *words, at=address, authority="ca"):
            return Client(programs.regdctl, at, *with_files(keys, name, authority)).run(*words)

        expect(call("operator", "agent", "set", AGENT, "-selector", "x:1")[0], 0, "an operator")
        expect(call("agent", "agent", "entries", AGENT)[0], 0, "an agent about itself")
        for what, status, part, result in (
            ("an agent's change", 3, "refused: G1", call("agent", "agent", "evict", AGENT)),
            ("an expired certificate", 1, "has expired at", call("expired", "status")),
            ("a certificate of another authority", 1, "the server refuses the certificate", call("forged", "status")),
            ("a server of another authority", 1, "unknown authority", call("operator", "status", authority="other")),
            ("a server of another name", 1, "localhost", call("operator", "status", at=f"localhost:{gateway.port}")),
            ("no TLS", 1, "", Client(programs.regdctl, address, "-timeout", "2s").run("status")),
        ):
            if result[0] != status or part not in result[2]:
                raise Wrong(f"{what}: {result}")
        renewed = renew(programs, keys, make, address, gateway)
    return f"an operator, an agent, and five that are refused; {renewed}"


def renew(programs, keys, make, address, gateway):
    """Replaces the certificate of a running command, whose connections end: the next one shows the new certificate."""
    program = Client(programs.regdctl, address, *with_files(keys, "renewed"), "-timeout", "60s")
    make("renewed", "URI:spiffe://ex.org/operator")
    line = json.dumps({"ops": [{"op": "show_agent", "agent": AGENT}]})
    process = subprocess.Popen([*program.words, "call", "-retry"], stdin=subprocess.PIPE, stdout=subprocess.PIPE, text=True)
    answers = []
    for serial in range(3):
        process.stdin.write(line + "\n")
        process.stdin.flush()
        answers.append(process.stdout.readline())
        make("renewed", "URI:spiffe://ex.org/operator")
        if serial == 1:  # from here on, only the new certificate is valid for a new connection
            gateway.kill()
            gateway.start()
    process.stdin.close()
    process.stdout.close()
    expect(process.wait(60), 0, "a command whose certificate is renewed")
    expect(all('"answered"' in answer for answer in answers), True, "its answers")
    return "3 certificates of one command"


def limits(programs, folder):
    """Gateways with small limits, and two that are cut off from etcd: what passes is sent again, there or to the next address; the rest is
    named."""
    folder = pathlib.Path(folder)
    keys = folder / "keys"
    make = certificates(keys)
    make("gateway", "IP:127.0.0.1")
    make("operator", "URI:spiffe://ex.org/operator")
    secure = ["-certificate", f"{keys}/gateway.pem", "-key", f"{keys}/gateway.key", "-authorities", f"{keys}/ca.pem", "-operators", "spiffe://ex.org/operator"]
    with contextlib.ExitStack() as stack:
        etcd = stack.enter_context(cluster.Etcd(folder / "etcd", 1, has_network=True))

        def gateway(number, *words):
            found = stack.enter_context(cluster.Gateway(programs.gateway, programs.regd, etcd, folder, number, words))
            return f"127.0.0.1:{found.port}"

        def client(address, *words):
            return Client(programs.regdctl, address, *words)

        def refused(what, code, client, *words):
            status, out, errors = client.run(*words)
            if status != 3 or f"refused: {code}" not in errors or "cure:" not in errors:
                raise Wrong(f"{what}: status {status}: {out}{errors}")

        small = gateway(0, "-limit-changes", "1", "-limit-line-bytes", "2000", "-limit-reply-bytes", "100000", "-limit-listings", "2")
        one = gateway(1, *secure, "-limit-caller-connections", "1")
        late, silent = gateway(2, "-limit-silent", "0", "-limit-after", "200ms"), gateway(3, "-limit-silent", "1s")
        # G5: many changes at a time, where one may wait
        lines = [json.dumps({"ops": [{"op": "set_agent", "agent": f"spiffe://ex.org/spire/agent/{i}", "selectors": ["x:1"]}], "token": str(uuid.uuid4())})
                 for i in range(120)]
        with concurrent.futures.ThreadPoolExecutor(12) as pool:
            parts = [pool.submit(client(small).get, "call", "-retry", text="\n".join(lines[begin : begin + 10]) + "\n") for begin in range(0, 120, 10)]
            answers = [json.loads(line) for part in parts for line in part.result().splitlines()]
        expect([len(answers), {answer["result"] for answer in answers} <= {"committed", "repeated"}], [120, True], "changes where one may wait")
        # a plan, and one of which a batch is too long
        client(small).get("apply", "-yes", planning.write(folder, "short.yaml", planning.state_of("s", planning.entries_of(3, "h"))))
        long = planning.write(folder, "long.yaml", planning.state_of("s", planning.entries_of(30, "h")))
        refused("a batch that is too long", "G6", client(small), "apply", "-yes", long)
        # G5 that stays, and G6
        for begin in range(0, 400, 4):
            rows = [{"parent": "/n", "identity": f"/e/{i}", "selectors": [f"u:{i}"], "hint": "x" * 250} for i in range(begin, begin + 4)]
            client(small).get("entry", "create", "-data", "-", text=json.dumps(rows))
        refused("a reply that finds no room", "G5", client(small, "-timeout", "2s"), "entry", "show")
        refused("a line that is too long", "G6", client(small), "entry", "create", "-parentID", "/n", "-spiffeID", "/long", "-hint", "x" * 1020,
                *(word for i in range(16) for word in ("-selector", f"unix:user:{i}{'y' * 80}")))
        # G4
        operator = client(one, *with_files(keys, "operator"))
        with subprocess.Popen([*operator.words, "call"], stdin=subprocess.PIPE, stdout=subprocess.PIPE, text=True) as first:
            first.stdin.write('{"ops":[{"op":"page","size":1}]}\n')
            first.stdin.flush()
            expect('"answered"' in first.stdout.readline(), True, "the first connection of a caller")
            refused("the second connection of a caller", "G4", operator, "status")
            first.stdin.close()
            expect(first.wait(30), 0, "the first connection at its end")
        operator.get("status")
        # W1 and G8: gateways that are behind
        for address in (late, silent):
            client(address).get("status")
        with etcd.network.cut((["g2", "g3"], ["m0"]), (["m0"], ["g2", "g3"])):
            place = re.search(r"at commit (\d+)", client(small).get("agent", "set", "/spire/agent/last", "-selector", "x:1"))[1]
            time.sleep(2)
            refused("a gateway that is behind", "W1", client(late, "-timeout", "2s"), "wait", "-after", place)
            refused("a gateway without etcd", "G8", client(silent, "-timeout", "2s"), "status")
            for address in (late, silent):
                expect(client(f"{address},{small}").get("wait", "-after", place), f"at commit {place}\n", "the next address")
        return f"{len(answers)} changes where one may wait; G4, G5, G6, G8 and W1 are named; two gateways that are behind are left"


COMPLETIONS = {("ent",): ["entry"], ("entry", "cr"): ["create"], ("entry", "create", "-parent"): ["-parentID"],
               ("-domain", "ex.org", "bundle", "delete", "-mode", "d"): ["delete", "dissociate"]}
# each prints the completions of a line of words in a line
BASH = r"""
try() { COMP_LINE="regdctl $*" COMP_POINT=${#COMP_LINE} COMPREPLY=(); _regdctl; echo "${COMPREPLY[*]}"; }
"""
ZSH = r"""
compdef() { :; }
compadd() { shift; print -r -- "$@"; }
try() { words=(regdctl "$@"); CURRENT=${#words}; _regdctl; }
"""
FISH = r"""
function try; complete -C "regdctl $argv" | string join ' '; end
"""


def shell(programs, folder):
    """bash, zsh and fish complete commands, flags and values by the scripts that regdctl prints."""
    env = {**os.environ, "PATH": f"{pathlib.Path(programs.regdctl).parent}:{os.environ['PATH']}"}
    for name, words, before, own in (("bash", ["bash", "--norc"], "", BASH), ("zsh", ["zsh", "-f"], "compdef() { :; }\n", ZSH),
                                     ("fish", ["fish", "--no-config"], "", FISH)):
        script = subprocess.run([programs.regdctl, "completion", name], check=True, capture_output=True, text=True).stdout
        tries = "".join(f"try {' '.join(line)}\n" for line in COMPLETIONS)
        done = subprocess.run([*words, "-c", before + script + own + tries], env=env, capture_output=True, text=True, timeout=60)
        expect([line.split() for line in done.stdout.splitlines()], list(COMPLETIONS.values()), f"{name}: {done.stderr}")
    return f"{len(COMPLETIONS)} completions in bash, zsh and fish"


def slow_server(listener, seconds):
    """Answers each line of creates after some time."""
    connection, _ = listener.accept()
    with connection, connection.makefile("rwb") as stream:
        for number, line in enumerate(stream):
            time.sleep(seconds)
            replies = [{"entry": {**op, "expiry": 0, "revision": 0}} for op in json.loads(line)["ops"]]
            stream.write(json.dumps({"call": number, "place": number + 1, "replies": replies, "result": "committed"}).encode() + b"\n")
            stream.flush()


def terminal(programs, folder):
    """A command that takes long prints its progress on a terminal, and removes it at the end; into a pipe it prints none."""
    rows = json.dumps([{"parent": "/n", "identity": f"/e/{i}", "selectors": [f"u:{i}"]} for i in range(30 * 64)])
    printed = []
    for is_terminal in (True, False):
        with socket.create_server(("127.0.0.1", 0)) as listener:
            threading.Thread(target=slow_server, args=(listener, 0.07), daemon=True).start()
            ours, theirs = pty.openpty() if is_terminal else os.pipe()
            words = Client(programs.regdctl, f"127.0.0.1:{listener.getsockname()[1]}").words
            with subprocess.Popen([*words, "entry", "create", "-several", "-data", "-"], stdin=subprocess.PIPE, stdout=subprocess.DEVNULL, stderr=theirs,
                                  text=True) as process:
                process.stdin.write(rows)
                process.stdin.close()
                os.close(theirs)
                text = b""
                with contextlib.suppress(OSError):  # a terminal ends so
                    while part := os.read(ours, 1 << 16):
                        text += part
                os.close(ours)
                expect(process.wait(60), 0, "a command that takes long")
            printed.append(text.decode())
    lines = printed[0].split("\r\x1b[K")
    if not all(re.fullmatch(r"\d+ of 1920 operations, batch \d+ of 30, \d+s left", line) for line in lines[1:-1]) or len(lines) < 4 or lines[-1]:
        raise Wrong(f"progress: {printed[0]!r}")
    expect(printed[1], "", "what is printed into a pipe")
    return f"{len(lines) - 2} times on a terminal, and never into a pipe; {planning.asked(programs, folder, Server)}"


class Server:
    """A running regd serve, and a client of it."""

    def __init__(self, programs, *words, workers=4):
        options = ["--domain", cluster.DOMAIN, "--listen", "127.0.0.1:0", "--workers", str(workers), "--connections", "65535"]
        self.process = subprocess.Popen([programs.regd, "serve", *options], stdout=subprocess.PIPE)
        self.address = json.loads(self.process.stdout.readline())["listening"]
        self.client = Client(programs.regdctl, self.address, *words)

    def __enter__(self):
        return self

    def __exit__(self, *_):
        self.process.kill()
        self.process.wait()
        self.process.stdout.close()


def operator(programs, folder):
    """The work of an operator of SPIRE: three nodes, an alias, 20 workloads, two bundles, a move of 33 entries in one change, a mistake that
    explain finds, with the cure that it prints."""
    with Server(programs) as server:
        client = server.client
        for node in "abc":
            client.get("agent", "set", "-spiffeID", f"/spire/agent/{node}", "-selector", f"host:{node}", "-selector", f"rack:{'12'[node == 'c']}")
        client.get("entry", "create", "-node", "-spiffeID", "/node/rack-1", "-selector", "rack:1")
        for partner in ("b.org", "c.org"):
            client.get("bundle", "set", "-id", f"spiffe://{partner}", "-path", "-", text='{"keys":[]}')

        def path(text):
            return {"trust_domain": cluster.DOMAIN, "path": text}

        # in the form that `spire-server entry show -output json` prints
        rows = [{"spiffe_id": path(f"/svc/{i}"), "parent_id": path("/node/rack-1"), "selectors": [{"type": "unix", "value": f"uid:{1000 + i}"}],
                 "federates_with": ["spiffe://b.org"] if i < 3 else [], "expires_at": "0", "x509_svid_ttl": 3600, "hint": "", "admin": False}
                for i in range(20)]
        client.get("entry", "create", "-data", "-", text=json.dumps({"entries": rows}))
        expect("may serve 21 entries" in client.get("explain", "/spire/agent/a"), True, "what agent a may serve")
        expect(client.get("agent", "entries", "/spire/agent/c"), "ENTRY ID  SPIFFE ID  PARENT ID  SELECTORS  REV  EXPIRES  FEDERATES WITH  HINT\n"
               "0 entries at commit 7\n", "what agent c may serve")
        # a move of 33 entries, all or none
        more = [{"identity": f"/batch/{i}", "parent": "/node/rack-1", "selectors": [f"unix:uid:{2000 + i}"]} for i in range(13)]
        client.get("entry", "create", "-data", "-", text=json.dumps(more))
        client.get("entry", "create", "-node", "-spiffeID", "/node/rack-2", "-selector", "rack:2")
        ids = [entry["id"] for entry in json.loads(client.get("entry", "show", "-parentID", "/node/rack-1", "-output", "json"))["entries"]]
        moved = client.get("entry", "set", "-file", "-", "-parentID", "/node/rack-2", text=json.dumps(ids))
        expect([len(ids), moved.count("/node/rack-2"), moved.splitlines()[-1]], [33, 33, "updated at commit 10"], "the move")
        expect(["34 entries at commit 10" in client.get("agent", "entries", f"/spire/agent/{node}") for node in "ac"], [False, True], "who serves them now")
        # a mistake, and its cure
        client.get("entry", "create", "-parentID", "/node/rack-22", "-spiffeID", "/api", "-selector", "unix:uid:3000")
        status, out, _ = client.run("explain", "/spire/agent/c", "/api")
        [cure] = re.findall(r"cure: regdctl (.*)", out)
        expect([status, "did you mean /node/rack-2?" in out], [4, True], f"explain: {out}")
        expect(client.run("check")[0], 4, "check")
        client.get(*shlex.split(cure))
        expect(client.get("explain", "/spire/agent/c", "/api").startswith("YES"), True, "explain after the cure")
        client.get("check")
        # an agent that lacks a selector
        status, out, _ = client.run("explain", "/spire/agent/a", "/api")
        [cure] = re.findall(r"cure: regdctl (.*)", out)
        client.get(*shlex.split(cure))
        expect(client.get("who-can", "/api", "-names", "-", text='{"ops":[{"op":"set_agent","agent":"spiffe://ex.org/spire/agent/a"}]}').splitlines()[:2],
               ["each agent with rack:2  (alias /node/rack-2)", "    /spire/agent/a"], "who-can")
    return "3 nodes, 20 workloads, 33 entries moved in one change, two cures of explain typed"


def speed(programs, folder):
    """How much longer a change by regdctl takes than one by nc, at best and in the middle of 40."""
    with Server(programs) as server:
        host, port = server.address.rsplit(":", 1)
        times = {"nc": [], "regdctl": []}
        for number in range(40):
            line = json.dumps({"ops": [{"op": "set_agent", "agent": f"spiffe://ex.org/spire/agent/{number}", "selectors": ["x:1"]}]}) + "\n"
            for name, words, text in (("nc", ["nc", "-N", host, port], line),
                                      ("regdctl", [*server.client.words, "agent", "set", f"/spire/agent/{number}", "-selector", "x:1"], "")):
                begin = time.monotonic()
                subprocess.run(words, input=text, check=True, capture_output=True, text=True)
                times[name].append(1000 * (time.monotonic() - begin))
    best, middle = (one["regdctl"] - one["nc"] for one in ({name: pick(of) for name, of in times.items()} for pick in (min, statistics.median)))
    if best > MILLISECONDS:
        raise Wrong(f"a change by regdctl takes {best:.1f} ms longer than one by nc, and the limit is {MILLISECONDS} ms")
    return f"a change by regdctl takes {best:.1f} ms longer than one by nc at best, and {middle:.1f} ms in the middle of 40"


def fill(client, entries, agents, bundles):
    """Fills a book: aliases with three entries below each, agents that hold one each, bundles that entries name."""
    for begin in range(0, bundles, 63):
        ops = [{"op": "set_bundle", "domain": f"b{i}.org", "text": '{"keys":[]}'} for i in range(begin, min(begin + 63, bundles))]
        client.get("call", json.dumps({"ops": ops}))
    lines = []
    for begin in range(0, agents, 63):
        ops = [{"op": "set_agent", "agent": f"spiffe://ex.org/spire/agent/{i}", "selectors": [f"host:{i}", f"rack:{i % (entries // 4)}"]}
               for i in range(begin, min(begin + 63, agents))]
        lines.append(json.dumps({"ops": ops}))
    rows = []
    for i in range(entries):
        is_alias = i % 4 == 0
        rows.append({"op": "create", "parent": "spiffe://ex.org/" + ("spire/server" if is_alias else f"e/{i - 1}"),
                     "identity": f"spiffe://ex.org/e/{i}", "selectors": [f"rack:{i // 4}" if is_alias else f"unix:uid:{i}"],
                     "domains": [f"b{i}.org"] if i < bundles else []})
    lines += [json.dumps({"ops": rows[begin : begin + 63]}) for begin in range(0, entries, 63)]
    client.get("call", text="\n".join(lines) + "\n")


def processor_seconds():
    usage = resource.getrusage(resource.RUSAGE_CHILDREN)
    return usage.ru_utime + usage.ru_stime


def measured(client, limit, *words):
    """Runs a command at least three times, and up to ten times until one is quick enough. Returns its status, the least seconds and processor
    seconds, the most megabytes of a command so far, and what it printed. On a machine with more work than processors, only the processor
    seconds show how quick a command is: then the others are the same."""
    times, processor = [], []
    while len(times) < 3 or min(times) > limit and len(times) < 10:
        begin, before = time.monotonic(), processor_seconds()
        status, out, errors = client.run(*words)
        processor.append(processor_seconds() - before)
        times.append(processor[-1] if os.getloadavg()[0] > os.cpu_count() else time.monotonic() - begin)
    megabytes = resource.getrusage(resource.RUSAGE_CHILDREN).ru_maxrss / 1024
    return status, min(times), min(processor), megabytes, out + errors


def large(programs, folder):
    """A full book: check, tree, plan and export within 3 s, explain within half a second, and 200 MB."""
    entries, agents, bundles = 16_384, 4_096, 1_024
    with Server(programs, "-timeout", "10m") as server:
        client = server.client
        fill(client, entries, agents, bundles)
        names = pathlib.Path(folder) / "names"
        names.parent.mkdir(parents=True, exist_ok=True)
        names.write_text("".join(json.dumps({"ops": [{"op": "set_agent", "agent": f"spiffe://ex.org/spire/agent/{i}"}]}) + "\n" for i in range(agents)))
        rows, found = [], []
        for limit, *command in ((SECONDS, "check", "-names", str(names)), (SECONDS, "tree", "-names", str(names)),
                                (QUICK_SECONDS, "explain", "/spire/agent/7", "/e/31")):
            status, seconds, processor, megabytes, out = measured(client, limit, *command)
            rows.append(f"{command[0]} {seconds:.2f} s, {processor:.2f} s of a processor")
            if status != 0:
                found.append(f"{command[0]}: status {status}: {out[-500:]}")
            if seconds > limit:
                found.append(f"{command[0]} took {seconds:.2f} s, and the limit is {limit} s")
        of_plans, faults, megabytes = planning.plans_of_full_book(folder, client, measured, SECONDS)
        rows, found = rows + of_plans, found + faults
        if megabytes > MEGABYTES:
            found.append(f"{megabytes:.0f} MB, and the limit is {MEGABYTES} MB")
    if found:
        raise Wrong("; ".join(found))
    return f"{entries} entries, {agents} agents, {bundles} bundles: {', '.join(rows)}, {megabytes:.0f} MB"


def model(programs, folder):
    """The server in memory of the unit tests gives the answers of regd to random lines."""
    return run_tests("internal/booktest", "^TestModelByServer$", 1800, REGD=programs.regd)


def states(programs, folder):
    """Plans between random states: no batch is refused, and the plan after it is empty."""
    return run_tests("desired", "^TestPlansOfRandomStates$", 3600, REGDCTL_STATES=os.environ.get("REGDCTL_STATES", str(STATES)))


def files(programs, folder):
    """What the reader of files accepts in YAML, Python's module reads as the same."""
    if subprocess.run([sys.executable, "-c", "import yaml"], capture_output=True).returncode:
        return "not compared: Python has no module yaml here"
    return run_tests("document", "^TestReadAsPython$", 1800, REGDCTL_PYTHON=sys.executable)


def races(programs, folder):
    """Clients that apply files at the same time."""
    return planning.races(programs, folder, Server)


def resume(programs, folder):
    """Plans that are killed and repeated."""
    return planning.resume(programs, folder, Server)


def pipeline(programs, folder):
    """Drift, found and removed by a pipeline."""
    return planning.pipeline(programs, folder, Server)


CLIENTS = {"chains": chains, "model": model, "states": states, "files": files, "races": races, "resume": resume, "pipeline": pipeline, "cuts": cuts, "certificates": client_certificates, "limits": limits, "shell": shell, "terminal": terminal,
           "operator": operator, "speed": speed, "large": large}
