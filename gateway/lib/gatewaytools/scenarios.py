"""Scenarios that need a site of their own: a replica short of memory, a full etcd, a wrong replica, certificates."""
import concurrent.futures
import contextlib
import json
import pathlib
import shutil
import socket
import ssl
import subprocess
import sys
import threading
import time

from regdtools.wrong import Wrong, expect
from gatewaytools import cluster, differential, faults, plain

AGENT = "spiffe://ex.org/spire/agent/n1"
OTHER = "spiffe://ex.org/spire/agent/n2"


def script(path, text):
    """Writes an executable script."""
    path.parent.mkdir(parents=True, exist_ok=True)
    new = path.with_suffix(".new")
    new.write_text(text)
    new.chmod(0o755)
    new.rename(path)


# ---- a replica short of memory


def memory(programs, folder):
    """One of three replicas has too little memory: it ends whenever its regd answers L6, and with enough memory it is equal to the others."""
    folder = pathlib.Path(folder)
    short, enough = folder / "short", folder / "enough"
    script(short, f"#!/bin/sh\n[ -e {enough} ] || ulimit -d 61440\nexec {programs.regd} \"$@\"\n")
    with faults.Site(programs, folder, regds={2: str(short)}) as site:
        text = "x" * 60000
        for number in range(400):
            line = json.dumps({"ops": [{"op": "set_bundle", "domain": f"b{number}.org", "text": text}]}).encode()
            [answer] = site.gateways[0].call(line)
            if not answer.endswith(b'"committed"}'):
                raise Wrong(f"a change was not committed: {answer[:200]}")
            if b"left the log" in site.gateways[2].log.read_bytes():
                break
        left = site.gateways[2].log.read_text().count("left the log")
        if not left:
            raise Wrong("regd never ran out of memory")
        enough.touch()
        statuses = cluster.settle(site.gateways, 120)
        expect(len({status["sum"] for status in statuses}), 1, "checksums")
        return f"out of memory {left} times after {number + 1} changes, then equal"


# ---- a full etcd


def full_etcd(programs, folder):
    """etcd has no space left: changes wait and queries are answered. With more space all waiting changes go on."""
    with faults.Site(programs, folder, ["--quota-backend-bytes", str(8 << 20)]) as site:
        gateway = site.gateways[0]
        subprocess.run([programs.load, "-addresses", f"127.0.0.1:{gateway.port}", "-populate", "-seconds", "0"], check=True, stdout=subprocess.DEVNULL)
        load = site.load(45, "-changes", "100", "-hint", "1000", callers=200)

        def is_full():
            return site.etcd.store().call("/v3/maintenance/alarm", {"action": "GET"}).get("alarms")

        cluster.wait_for(is_full, 40, "an etcd without space")
        time.sleep(1)
        before = gateway.status()["place"]
        answers = gateway.call(*[cluster.page()] * 20, seconds=10)
        expect(all(b'"answered"' in answer for answer in answers), True, "queries meanwhile")
        time.sleep(1)
        expect(gateway.status()["place"], before, "the commit number meanwhile")
        site.etcd.words = ["--quota-backend-bytes", str(512 << 20)]
        for number in range(faults.MEMBERS):
            site.etcd.kill(number)
            site.etcd.start(number)
            site.etcd.wait(number)
        for alarm in is_full() or []:
            site.etcd.store().call("/v3/maintenance/alarm", {"action": "DEACTIVATE", **alarm})
        load.communicate(timeout=300)
        found, acknowledged = faults.checked(site)
        expect(found, [], "faults")
        if gateway.status()["place"] <= before:
            raise Wrong("no change was made after etcd had space")
        return f"{len(acknowledged)} changes acknowledged, {before} before etcd was full"


# ---- a wrong replica

LIAR = '''#!{python}
"""Starts regd, and alters the replies on its first connection."""
import json, socket, subprocess, sys, threading

real = subprocess.Popen(["{regd}", *sys.argv[1:]], stdout=subprocess.PIPE)
host, port = json.loads(real.stdout.readline())["listening"].rsplit(":", 1)
listener = socket.create_server(("127.0.0.1", 0))
print(json.dumps({{"listening": "127.0.0.1:%d" % listener.getsockname()[1]}}), flush=True)

def copy(source, target, lies):
    with source.makefile("rb") as lines:
        for line in lines:
            target.sendall(line.replace(b'"revision":', b'"revision":1') if lies else line)
    target.shutdown(socket.SHUT_WR)

threads = []
for number in range(int(sys.argv[-1])):
    outer, _ = listener.accept()
    inner = socket.create_connection((host, int(port)))
    threads += [threading.Thread(target=copy, args=args) for args in ((outer, inner, False), (inner, outer, number == 0))]
    for thread in threads[-2:]:
        thread.start()
for thread in threads:
    thread.join()
real.kill()
'''


def wrong_replica(programs, folder):
    """One of three replicas answers wrongly from some time on: its gateway stops with status 4, and the others go on."""
    folder = pathlib.Path(folder)
    regd, liar, lie = folder / "regd", folder / "liar", folder / "lie"
    script(liar, LIAR.format(python=sys.executable, regd=programs.regd))
    script(regd, f'#!/bin/sh\n[ -e {lie} ] && exec {liar} "$@"\nexec {programs.regd} "$@"\n')
    with faults.Site(programs, folder, regds={2: str(regd)}) as site:
        addresses = f"127.0.0.1:{site.gateways[0].port}"
        words = [programs.load, "-addresses", addresses, "-changes", "100"]
        subprocess.run([*words, "-populate", "-seconds", "0"], check=True, stdout=subprocess.DEVNULL)
        lie.touch()
        site.gateways[2].kill_regd()
        load = subprocess.Popen([*words, "-connections", "2", "-seconds", "60"], stdout=subprocess.PIPE)
        try:
            status = site.gateways[2].process.wait(60)
        finally:
            load.kill()
            load.communicate()
        expect(status, 4, "the exit status of the wrong gateway")
        time.sleep(6)
        expect([gateway.process.poll() for gateway in site.gateways[:2]], [None, None], "the exit statuses of the others")
        before = site.gateways[0].status()
        site.gateways[0].call(b'{"ops":[{"op":"prune","before":0}]}')
        expect(site.gateways[1].call(cluster.page(), fresh=True)[0].split(b",")[1], b'"place":%d' % (before["place"] + 1), "a change afterwards")
        return f"stopped at entry {before['entry']}, the others go on"


# ---- replies that belong to other lines

SHIFTER = '''#!{python}
"""Starts regd. Of the replies to queries it drops, doubles or swaps one in 300, as the file {lie} says, and writes a line about each into {told}."""
import json, random, socket, subprocess, sys, threading

real = subprocess.Popen(["{regd}", *sys.argv[1:]], stdout=subprocess.PIPE)
host, port = json.loads(real.stdout.readline())["listening"].rsplit(":", 1)
listener = socket.create_server(("127.0.0.1", 0))
print(json.dumps({{"listening": "127.0.0.1:%d" % listener.getsockname()[1]}}), flush=True)

def lied(line):
    with open("{lie}") as file:
        kind = file.read()
    if not kind or random.randrange(300):
        return [line]
    with open("{told}", "a") as file:
        print(kind, file=file)
    return {{"drop": [], "double": [line, line], "swap": None}}[kind]

def copy(source, target, lies):
    kept = []
    with source.makefile("rb") as lines:
        for line in lines:
            sent = lied(line) if lies else [line]
            if sent is None:
                kept.append(line)
                continue
            target.sendall(b"".join(sent + kept))
            kept = []
    target.shutdown(socket.SHUT_WR)

threads = []
for number in range(int(sys.argv[-1])):
    outer, _ = listener.accept()
    inner = socket.create_connection((host, int(port)))
    threads += [threading.Thread(target=copy, args=args) for args in ((outer, inner, False), (inner, outer, number > 0))]
    for thread in threads[-2:]:
        thread.start()
for thread in threads:
    thread.join()
real.kill()
'''


def shifted_replies(programs, folder):
    """A regd that drops, doubles and swaps replies to queries: no caller gets the reply to another line, and each lie ends the replica."""
    folder = pathlib.Path(folder)
    regd, lie, told, count = folder / "regd", folder / "lie", folder / "told", 200
    script(regd, SHIFTER.format(python=sys.executable, regd=programs.regd, lie=lie, told=told))
    for file in (lie, told):
        file.write_text("")
    with cluster.Etcd(folder / "etcd", 1) as etcd, cluster.Gateway(programs.gateway, str(regd), etcd, folder, 0) as gateway:
        bundles = [{"op": "set_bundle", "domain": f"b{number}.org", "text": f"text {number}"} for number in range(count)]
        for begin in range(0, count, 50):
            gateway.call(json.dumps({"ops": bundles[begin:begin + 50]}).encode())
        stop, wrong = threading.Event(), []

        def asks(first):
            answered = 0
            while not stop.is_set():
                numbers = [(first + step) % count for step in range(20)]
                lines = [json.dumps({"ops": [{"op": "show_bundle", "domain": f"b{number}.org"}]}).encode() for number in numbers]
                for number, answer in zip(numbers, gateway.call(*lines)):
                    if b'"text":"text %d"' % number in answer:
                        answered += 1
                    elif b'"code":"G5"' not in answer and answer:
                        wrong.append(answer)
            return answered

        with concurrent.futures.ThreadPoolExecutor(8) as pool:
            callers = [pool.submit(asks, 20 * number) for number in range(8)]
            try:
                for kind in ("drop", "double", "swap") * 3:
                    before, ended = told.stat().st_size, gateway.metric("replicas_ended_total")
                    lie.write_text(kind)
                    cluster.wait_for(lambda: told.stat().st_size > before, 60, "a lie")
                    lie.write_text("")
                    cluster.wait_for(lambda: gateway.metric("replicas_ended_total") > ended, 60, "the end of the replica")
            finally:
                stop.set()
            right = sum(caller.result() for caller in callers)
        expect(wrong[:3], [], "replies to other lines")
        lies = told.read_text().split()
        ended = gateway.metric("replicas_ended_total")
        if not right or not ended:
            raise Wrong(f"{right} answers, {ended} replicas ended")
        return f"{len(lies)} lies, {ended:.0f} replicas ended, {right} right answers and no wrong one"


# ---- certificates


def _openssl(folder, *words):
    subprocess.run(["openssl", *words], cwd=folder, check=True, capture_output=True)


def certificates(folder, authority="ca"):
    """Makes an authority in a folder. Returns a function that makes a certificate with a subject alternative name."""
    folder = pathlib.Path(folder)
    folder.mkdir(parents=True, exist_ok=True)
    key = ["-newkey", "ec", "-pkeyopt", "ec_paramgen_curve:P-256", "-nodes"]
    _openssl(folder, "req", "-x509", *key, "-keyout", f"{authority}.key", "-out", f"{authority}.pem", "-subj", f"/CN={authority}", "-days", "2")

    def make(name, alternative):
        (folder / "extensions").write_text(f"{f'subjectAltName={alternative}' if alternative else ''}\nextendedKeyUsage=clientAuth,serverAuth\n")
        _openssl(folder, "req", "-new", *key, "-keyout", f"{name}.key", "-out", f"{name}.csr", "-subj", f"/CN={name}")
        _openssl(folder, "x509", "-req", "-in", f"{name}.csr", "-CA", f"{authority}.pem", "-CAkey", f"{authority}.key", "-CAcreateserial",
                 "-out", f"{name}.pem", "-days", "2", "-extfile", "extensions")

    return make


def talk(folder, port, who, *lines, version=None):
    """Sends lines with a certificate. Returns the answers, or one text if there is no connection."""
    context = ssl.create_default_context(cafile=f"{folder}/ca.pem")
    if version:
        context.maximum_version = version
    if who:
        context.load_cert_chain(f"{folder}/{who}.pem", f"{folder}/{who}.key")
    try:
        with socket.create_connection(("127.0.0.1", port), 10) as opened, context.wrap_socket(opened, server_hostname="gateway.ex.org") as connection:
            connection.sendall(b"".join(line.encode() + b"\n" for line in lines))
            with connection.makefile("rb") as stream:
                answers = [stream.readline().decode().rstrip("\n") for _ in lines]
    except OSError:
        return "no connection"
    return answers if all(answers) else "no connection"


def identity(programs, folder):
    """Callers with certificates: an operator, an agent, a caller without a name, one of another authority, one without a certificate."""
    keys = pathlib.Path(folder) / "keys"
    make = certificates(keys)
    make("gateway", "DNS:gateway.ex.org")
    for name, alternative in (("operator", "URI:spiffe://ex.org/operator"), ("agent", f"URI:{AGENT}"), ("nobody", "DNS:nobody.ex.org"),
                              ("two", f"URI:{AGENT},URI:{OTHER}")):
        make(name, alternative)
    certificates(keys, "other")("forged", "URI:spiffe://ex.org/operator")
    words = ["-certificate", f"{keys}/gateway.pem", "-key", f"{keys}/gateway.key", "-authorities", f"{keys}/ca.pem",
             "-operators", "spiffe://ex.org/operator,spiffe://ex.org/ci"]

    def query(op, agent):
        return json.dumps({"ops": [{"op": op, "agent": agent}]})

    change = json.dumps({"ops": [{"op": "set_agent", "agent": AGENT, "selectors": ["x:1"]}]})
    with cluster.Etcd(pathlib.Path(folder) / "etcd", 1) as etcd, cluster.Gateway(programs.gateway, programs.regd, etcd, folder, 0, words) as gateway:
        def codes(who, *lines, **more):
            answers = talk(keys, gateway.port, who, *lines, **more)
            return answers if isinstance(answers, str) else [json.loads(answer).get("code") or json.loads(answer)["result"] for answer in answers]

        own = query("authorised", AGENT)
        expect(codes("operator", change, own, query("show_agent", AGENT)), ["committed", "answered", "answered"], "an operator")
        expect(codes("agent", own, query("trust", AGENT), query("authorised", OTHER), query("show_agent", AGENT), query("drop_agent", AGENT), change,
                     own[:-1] + ',"after":9}', "7"), ["answered", "answered", "G1", "G1", "G1", "G1", "W1", "G1"], "an agent")
        expect(codes("nobody", own), ["G1"], "a certificate without a SPIFFE ID")
        expect(codes("two", own), ["G1"], "a certificate with two SPIFFE IDs")
        expect(codes("forged", own), "no connection", "a certificate of another authority")
        expect(codes(None, own), "no connection", "no certificate")
        expect(codes("agent", own, version=ssl.TLSVersion.TLSv1_2), "no connection", "TLS 1.2")
        with socket.create_connection(("127.0.0.1", gateway.port), 20) as connection:
            connection.sendall(own.encode() + b"\n")
            with connection.makefile("rb") as stream:
                expect(b"answered" in stream.read(), False, "plain text")
        shutil.copy(keys / "two.pem", keys / "agent.pem")
        shutil.copy(keys / "two.key", keys / "agent.key")
        expect(codes("agent", own), ["G1"], "the other certificate under the agent's name")
    secure = pathlib.Path(folder) / "etcd-keys"
    secure.mkdir(exist_ok=True)
    make("etcd", "IP:127.0.0.1")
    for name, target in (("ca.pem", "ca.pem"), ("etcd.pem", "cert.pem"), ("etcd.key", "key.pem")):
        shutil.copy(keys / name, secure / target)
    with SecureEtcd(pathlib.Path(folder) / "secure-etcd", secure) as etcd:
        with cluster.Gateway(programs.gateway, programs.regd, etcd, folder, 1, ["-etcd-files", str(secure)]) as gateway:
            expect(gateway.call(change.encode())[0].endswith(b'"committed"}'), True, "a change over an etcd with certificates")
        refused = subprocess.run([programs.gateway, "-domain", "ex.org", "-regd", programs.regd, "-etcd", etcd.urls[0], "-listen", "0.0.0.0:0"],
                                 capture_output=True)
        expect(refused.returncode, 2, "the status without TLS on all addresses")
    return "10 kinds of callers, and an etcd with certificates"


class SecureEtcd(cluster.Etcd):
    """One member that takes clients with certificates alone."""

    def __init__(self, folder, keys):
        self.files = ["--cert-file", f"{keys}/cert.pem", "--key-file", f"{keys}/key.pem", "--client-cert-auth", "--trusted-ca-file", f"{keys}/ca.pem"]
        super().__init__(folder, 1, self.files)

    @property
    def urls(self):
        return [f"https://127.0.0.1:{port}" for port in self.clients]

    def wait(self, number):
        def listens():
            with socket.socket() as opened:
                return opened.connect_ex(("127.0.0.1", self.clients[number])) == 0
        cluster.wait_for(listens, 30, "etcd")


# ---- retained tokens


def tokens(programs, folder):
    """Changes with tokens are sent again after over 65,536 others, which the gateway makes at its highest rate: each gets its first replies, also from
    a gateway that starts again, from the log and from a snapshot. When a token's time is over, by the times of the log, it is forgotten."""
    count = 80_000
    lines = [b'{"ops":[{"op":"prune","before":0}],"token":"00000000-0000-4000-8000-%012x"}' % number for number in range(count)]
    folder = pathlib.Path(folder)
    with cluster.Etcd(folder / "etcd", 1) as etcd, cluster.Gateway(programs.gateway, programs.regd, etcd, folder / "usual", 0) as gateway:
        begin = time.monotonic()
        first = differential.answers_of(gateway.port, b"".join(line + b"\n" for line in lines))
        rate = count / (time.monotonic() - begin)
        expect(all(answer.endswith(b'"committed"}') for answer in first), True, "all changes")

        def repeats(some):
            """Sends some changes again, each of which has to be repeated."""
            again = differential.answers_of(gateway.port, b"".join(lines[number] + b"\n" for number in some))
            want = [plain.tail(first[number]).replace(b'"committed"}', b'"repeated"}') for number in some]
            expect([plain.tail(answer) for answer in again] == want, True, "all repeats")

        repeats(range(count))
        gateway.kill()
        gateway.start()
        repeats(range(0, count, 7))
        words = [programs.gateway, "-domain", cluster.DOMAIN, "-etcd", etcd.urls[0], "-regd", programs.regd, "-snapshot", "-keep", "1"]
        subprocess.run(words, check=True, capture_output=True)
        gateway.kill()
        gateway.start()
        repeats(range(3, count, 7))
        expect(gateway.status()["tokens"], count, "tokens")
        short = ["-prefix", "short/", "-limit-answer", "2s", "-token-time", "2s"]
        with cluster.Gateway(programs.gateway, programs.regd, etcd, folder / "short", 1, short) as other:
            for _ in range(2):
                for result in (b'"committed"}', b'"repeated"}'):
                    expect(other.call(lines[0])[0].endswith(result), True, f"a change {result.decode()}")
                time.sleep(2.5)
    return f"{count} changes at {rate:.0f} a second, all repeated; forgotten after their time"


# ---- many callers


def many_callers(programs, folder):
    """Callers that are silent, callers that never read, and the longest lines together: other callers are served."""
    folder, query = pathlib.Path(folder), cluster.page()
    with cluster.Etcd(folder / "etcd", 1) as etcd, cluster.Gateway(programs.gateway, programs.regd, etcd, folder, 0) as gateway:
        def served():
            begin = time.monotonic()
            expect(b'"answered"' in gateway.call(query, seconds=5)[0], True, "another caller")
            return time.monotonic() - begin

        def bundles(number):
            ops = [{"op": "set_bundle", "domain": f"b{number}x{part}.org", "text": "y" * 65536} for part in range(15)]
            return json.dumps({"ops": ops}).encode()

        with concurrent.futures.ThreadPoolExecutor(8) as pool:
            answers = list(pool.map(lambda number: gateway.call(bundles(number))[0], range(8)))
        expect([answer.endswith(b'"committed"}') for answer in answers], [True] * 8, "lines of a megabyte")
        with contextlib.ExitStack() as stack:
            for _ in range(20):
                connection = stack.enter_context(socket.create_connection(("127.0.0.1", gateway.port)))
                connection.setblocking(False)
                with contextlib.suppress(BlockingIOError):
                    for _ in range(200):
                        connection.send(b'{"ops":[{"op":"show_bundle","domain":"b0x0.org"}]}\n' * 500)
            waits = [served() for _ in range(5)]
            for _ in range(900):
                stack.enter_context(socket.create_connection(("127.0.0.1", gateway.port)))
            waits += [served() for _ in range(5)]
            expect(gateway.status()["sessions"] >= 920, True, "open connections")
        cluster.wait_for(lambda: gateway.status()["sessions"] == 0, 10, "closed connections")
        return f"920 idle connections, longest wait of another caller {max(waits):.2f} s"


SCENARIOS = {"memory": memory, "full-etcd": full_etcd, "wrong-replica": wrong_replica, "shifted-replies": shifted_replies, "identity": identity, "many-callers": many_callers, "tokens": tokens}
