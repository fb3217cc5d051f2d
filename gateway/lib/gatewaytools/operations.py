"""What operators need: a crowd of callers, an orderly end, renewed certificates, upgrades, a skipped line, a restored backup, the files of deploy/."""
import contextlib
import json
import os
import pathlib
import re
import shutil
import signal
import socket
import ssl
import subprocess
import sys
import threading
import time

from regdtools import guides
from regdtools.wrong import Wrong, expect
from gatewaytools import balancer, cluster, faults, scenarios, tools
from gatewaytools.scenarios import script

DEPLOY = tools.TOP / "deploy"
# how many callers of each kind make a crowd of 2,000
KINDS = {"silent": 500, "slow": 300, "flood": 300, "never": 300, "half": 200, "malformed": 300}
USUAL = 100
# how much larger the 99th percentile may be, and a floor, below which it is noise
RATIO, FLOOR_MS = 3, 5
ROUNDS, MEMORY_MB = 3, 1024


def load(programs, address, *words, seconds=6, callers=USUAL):
    """Starts callers."""
    words = [programs.load, "-addresses", address, "-connections", str(callers), "-seconds", str(seconds), *words]
    return subprocess.Popen(words, stdout=subprocess.PIPE)


def seen(process):
    """Waits for callers, and returns what they saw."""
    try:
        out, _ = process.communicate(timeout=300)
    except subprocess.TimeoutExpired:
        process.kill()
        raise Wrong("callers had no answers")
    if process.returncode:
        raise Wrong(f"callers ended with status {process.returncode}")
    return json.loads(out)


# ---- many callers


def crowd(programs, folder):
    """2,000 callers, of which most misbehave: the others are served about as quickly as alone, and the gateway takes little memory.

    Other work on the machine can only make a round slower, so one of three rounds has to be quick enough.
    """
    with cluster.Etcd(pathlib.Path(folder) / "etcd", 1) as etcd, cluster.Gateway(programs.gateway, programs.regd, etcd, folder, 0) as gateway:
        address = f"127.0.0.1:{gateway.port}"
        seen(load(programs, address, "-populate", seconds=0, callers=1))
        for number in range(ROUNDS):
            quiet, busy, sessions = _round(programs, gateway, address)
            expect(busy["lost"], 0, "lost connections of callers that behave")
            pairs = {what: (quiet[f"{what}_p99_ms"], busy[f"{what}_p99_ms"]) for what in ("reads", "changes")}
            text = ", ".join(f"{what} {alone:.1f} to {among:.1f} ms" for what, (alone, among) in pairs.items())
            if all(among <= RATIO * max(alone, FLOOR_MS) for alone, among in pairs.values()):
                break
        else:
            raise Wrong(f"99th percentiles: {text}")
        memory = gateway.memory() >> 20
    if memory > MEMORY_MB:
        raise Wrong(f"the gateway took {memory} MiB")
    return f"{sessions} connections, 99th percentiles in round {number + 1}: {text}; {memory} MiB"


def _round(programs, gateway, address):
    """Returns what callers that behave saw without a crowd and in one, and how many connections there were."""
    usual = ["-changes", "10", "-think", "20ms"]
    quiet = seen(load(programs, address, *usual))
    with contextlib.ExitStack() as stack:
        for kind, count in KINDS.items():
            misbehaving = load(programs, address, "-kind", kind, seconds=40, callers=count)
            os.setpriority(os.PRIO_PROCESS, misbehaving.pid, 19)  # they would be on other machines
            stack.callback(misbehaving.communicate)
            stack.callback(misbehaving.kill)
        cluster.wait_for(lambda: gateway.status()["sessions"] > sum(KINDS.values()) * 3 // 4, 20, "a crowd")
        time.sleep(2)
        busy = seen(load(programs, address, *usual))
        sessions = gateway.status()["sessions"]
    cluster.wait_for(lambda: gateway.status()["sessions"] == 0, 30, "the end of the crowd")
    expect(gateway.metric("reply_bytes"), 0.0, "replies that are held afterwards")
    return quiet, busy, sessions


def trial_keys(folder, *addresses):
    """Makes certificates by the script of deploy/."""
    subprocess.run([str(DEPLOY / "certificates"), str(folder), cluster.DOMAIN, *addresses], check=True)
    return pathlib.Path(folder)


def secured(keys, who="operator"):
    """Returns the words of load for a caller with a certificate."""
    return ["-certificate", f"{keys}/{who}/cert.pem", "-key", f"{keys}/{who}/key.pem", "-authorities", f"{keys}/{who}/ca.pem"]


def gateway_words(keys):
    """Returns the words of a gateway with certificates."""
    own = f"{keys}/127.0.0.1/callers"
    return ["-certificate", f"{own}/cert.pem", "-key", f"{own}/key.pem", "-authorities", f"{own}/ca.pem",
            "-operators", f"spiffe://{cluster.DOMAIN}/operator", "-limit-caller-connections", "5000"]


def handshakes(programs, folder):
    """2,000 callers connect with TLS together: all are served, and so are those that are connected."""
    keys = trial_keys(pathlib.Path(folder) / "keys", "127.0.0.1")
    with cluster.Etcd(pathlib.Path(folder) / "etcd", 1) as etcd, \
            cluster.Gateway(programs.gateway, programs.regd, etcd, folder, 0, gateway_words(keys)) as gateway:
        address = f"127.0.0.1:{gateway.port}"
        connected = load(programs, address, *secured(keys), "-populate", "-think", "20ms", seconds=10, callers=50)
        time.sleep(1)
        storm = seen(load(programs, address, *secured(keys), "-think", "500ms", seconds=4, callers=2000))
        others = seen(connected)
    expect((storm["unconnected"], storm["lost"], others["lost"]), (0, 0, 0), f"failed and lost connections ({storm['reason']})")
    if storm["reads"] < 2000 or others["longest_s"] > 5:
        raise Wrong(f"{storm['reads']} answers after the handshakes, longest wait of the others {others['longest_s']:.1f} s")
    return f"{storm['reads']} answers, longest wait with the handshake {storm['longest_s']:.1f} s, of the others {others['longest_s']:.1f} s"


# ---- the end, certificates, upgrades


def _under_load(programs, folder, seconds, change, regds=None):
    """Calls `change` with a site under load. Returns what callers saw, and fails if an acknowledged change is lost, doubled or different."""
    with faults.Site(programs, folder, regds=regds) as site:
        subprocess.run([programs.load, "-addresses", f"127.0.0.1:{site.gateways[0].port}", "-populate", "-seconds", "0"], check=True, stdout=subprocess.DEVNULL)
        process = site.load(seconds, "-changes", "50", "-think", "5ms")
        time.sleep(1)
        notes = change(site)
        saw = seen(process)
        found, acknowledged = faults.checked(site)
        expect(found, [], "faults")
        expect(saw["back"], 0, "places that went back")
        return saw, f"{len(acknowledged)} changes acknowledged, {saw['lost']} connections lost, longest wait {saw['longest_s']:.1f} s; {notes}"


def stop(programs, folder):
    """SIGTERM under load: every line that was read is answered before its connection ends, so no change is repeated when it is sent again."""
    def change(site):
        times = []
        for gateway in (*site.gateways, site.gateways[0]):
            begin = time.monotonic()
            expect(gateway.stop(), 0, "the exit status")
            times.append(time.monotonic() - begin)
            time.sleep(0.5)
            gateway.start()
            time.sleep(1)
        return f"{len(times)} gateways stopped, the slowest in {max(times):.1f} s"

    saw, text = _under_load(programs, folder, 18, change)
    expect((saw["repeated"], saw["refused"]), (0, 0), "changes that were made and not answered, and refused ones")
    return text


def certificates(programs, folder):
    """All certificates are replaced under load, while callers and the gateway connect again and again."""
    folder = pathlib.Path(folder)
    keys = trial_keys(folder / "keys", "127.0.0.1")
    member = scenarios.SecureEtcd(folder / "etcd", keys / "127.0.0.1/member")
    words = [*gateway_words(keys), "-etcd-files", str(keys / "127.0.0.1/etcd")]

    def serial(port):
        context = ssl.create_default_context(cafile=keys / "operator/ca.pem")
        context.load_cert_chain(keys / "operator/cert.pem", keys / "operator/key.pem")
        with socket.create_connection(("127.0.0.1", port), 10) as opened, context.wrap_socket(opened, server_hostname=f"gateway.{cluster.DOMAIN}") as secure:
            return secure.getpeercert()["serialNumber"]

    with member as etcd, cluster.Gateway(programs.gateway, programs.regd, etcd, folder, 0, words) as gateway:
        address, first, rounds = f"127.0.0.1:{gateway.port}", serial(gateway.port), 0
        shutil.copytree(keys / "operator", folder / "operator")  # load doesn't expect its own files to change
        steady = load(programs, address, *secured(folder), "-populate", "-changes", "50", "-think", "5ms", "-tokens", seconds=20, callers=10)
        ended = threading.Event()
        failures = []

        def connect():
            while not ended.is_set():
                saw = seen(load(programs, address, *secured(folder), "-think", "10ms", seconds=0.3, callers=20))
                failures.append(saw["unconnected"] + saw["lost"])

        worker = threading.Thread(target=connect)
        worker.start()
        for rounds in range(1, 13):
            trial_keys(keys, "127.0.0.1")
            if rounds % 4 == 0:  # the gateway has to connect to etcd again, with what it finds then
                etcd.kill(0)
                etcd.start(0)
                etcd.wait(0)
            time.sleep(0.3)
        ended.set()
        worker.join()
        saw = seen(steady)
        expect(sum(failures), 0, "failed connections")
        expect((saw["lost"], saw["refused"]), (0, 0), "lost connections and refused changes")
        if serial(gateway.port) == first:
            raise Wrong("the gateway has its first certificate")
        for name in ("certificate_expiry_timestamp_seconds", "etcd_certificate_expiry_timestamp_seconds"):
            if not gateway.metric(name) > time.time() + 29 * 86400 - 3600:
                raise Wrong(f"{name} is {gateway.metric(name)}")
        return f"{rounds} times, {20 * len(failures)} connections meanwhile, none failed; {saw['changes']} changes"


def upgrade(programs, folder):
    """An upgrade of `regd` and of the gateway, machine by machine, to builds that reply equally. Then one to a `regd` that doesn't: it stops itself."""
    folder = pathlib.Path(folder)
    folder.mkdir(parents=True, exist_ok=True)
    regd, gateway_program, odd = folder / "new-regd", folder / "new-gateway", folder / "odd-regd"
    for old, new in ((programs.regd, regd), (programs.gateway, gateway_program)):
        new.write_bytes(pathlib.Path(old).read_bytes() + b"\n")  # another checksum
        new.chmod(0o755)
    script(odd, scenarios.LIAR.format(python=sys.executable, regd=programs.regd))

    def change(site):
        before = {gateway.status()["program"] for gateway in site.gateways}
        for gateway in site.gateways:
            expect(gateway.stop(), 0, "the exit status")
            gateway.regd, gateway.program = str(regd), str(gateway_program)
            gateway.start()
            time.sleep(1)
        after = {gateway.status()["program"] for gateway in site.gateways}
        expect((len(before), len(after), before & after), (1, 1, set()), "programs before and after")
        expect([gateway.status()["disputed"] for gateway in site.gateways], [False] * 3, "disputes")
        wrong = site.gateways[2]
        expect(wrong.stop(), 0, "the exit status")
        wrong.regd = str(odd)
        wrong.start(waits=False)
        expect(wrong.process.wait(60), 4, "the exit status of the odd one")
        entry = site.gateways[0].status()["entry"]
        time.sleep(1)
        expect([gateway.process.poll() for gateway in site.gateways[:2]], [None, None], "the exit statuses of the others")
        wrong.process.stdout.close()
        wrong.regd = str(regd)
        wrong.start()
        return f"the odd one stopped itself by entry {entry}"

    # all changes to gateways that reply rightly: a caller of the odd one would record its replies
    with faults.Site(programs, folder) as site:
        site_gateways, site.gateways = site.gateways, site.gateways[:2]
        subprocess.run([programs.load, "-addresses", f"127.0.0.1:{site.gateways[0].port}", "-populate", "-seconds", "0"], check=True, stdout=subprocess.DEVNULL)
        process = site.load(30, "-changes", "80", "-think", "2ms")
        site.gateways = site_gateways
        notes = change(site)
        saw = seen(process)
        found, acknowledged = faults.checked(site)
        expect(found, [], "faults")
        return f"{len(acknowledged)} changes acknowledged, longest wait {saw['longest_s']:.1f} s; {notes}"


# ---- a poisoned line, a backup

FRAGILE = '''#!{python}
"""Starts regd, and kills it when a line on its first connection has the word POISON."""
import json, os, socket, subprocess, sys, threading

real = subprocess.Popen(["{regd}", *sys.argv[1:]], stdout=subprocess.PIPE)
host, port = json.loads(real.stdout.readline())["listening"].rsplit(":", 1)
listener = socket.create_server(("127.0.0.1", 0))
print(json.dumps({{"listening": "127.0.0.1:%d" % listener.getsockname()[1]}}), flush=True)

def copy(source, target):
    while data := source.recv(1 << 16):
        if b"POISON" in data:
            real.kill()
            os._exit(1)
        target.sendall(data)
    real.kill()
    os._exit(0)

threads = []
for number in range(int(sys.argv[-1])):
    outer, _ = listener.accept()
    inner = socket.create_connection((host, int(port)))
    threads += [threading.Thread(target=copy, args=args) for args in ((outer, inner), (inner, outer))]
    for thread in threads[-2:]:
        thread.start()
for thread in threads:
    thread.join()
'''


def skip(programs, folder):
    """A change that ends every `regd`: the status names its line, and an operator skips it under load. The other lines of its entry are executed."""
    folder = pathlib.Path(folder)
    fragile = folder / "regd"
    script(fragile, FRAGILE.format(python=sys.executable, regd=programs.regd))

    def change(site):
        poison = json.dumps({"ops": [{"op": "set_bundle", "domain": "b.org", "text": "POISON"}]}).encode() + b"\n"
        with socket.create_connection(("127.0.0.1", site.gateways[0].port), 60) as caller:
            caller.sendall(poison)
            for gateway in site.gateways:
                cluster.wait_for(lambda: gateway.status().get("failing"), 40, "a line that fails")
            failing = {gateway.status()["failing"]["line"] for gateway in site.gateways}
            expect(len(failing), 1, "lines that fail")
            [line] = failing
            words = [programs.gateway, "-domain", cluster.DOMAIN, "-etcd", ",".join(site.etcd.urls), "-regd", programs.regd, "-skip", line]
            begin = time.monotonic()
            subprocess.run(words, check=True, capture_output=True, timeout=30)
            for gateway in site.gateways:
                cluster.wait_for(lambda: gateway.status()["ready"], 60, "a ready gateway")
            took = time.monotonic() - begin
            with caller.makefile("rb") as stream:
                answer = stream.readline()
        expect(answer in (b'{"code":"G7","line":1}\n', b""), True, "the answer to the poisoned line")
        expect([list(gateway.status()["skipped"]) for gateway in site.gateways], [[line]] * 3, "skipped lines")
        return f"line {line} skipped, all ready after {took:.1f} s"

    return _under_load(programs, folder, 15, change, regds={number: str(fragile) for number in range(3)})[1]


# how many entries are between two votes
VOTE_INTERVAL = 1000


def queried(caller):
    """Sends a query, and returns the answer."""
    caller.sendall(b'{"ops":[{"op":"show","id":"00000000-0000-4000-8000-000000000000"}]}\n')
    return caller.makefile("rb").readline()


def restore(programs, folder):
    """etcd is restored from a backup, once while all gateways are stopped and once while they run: all replicas have the book of the backup.

    A connection that has seen a commit after the backup gets no older answer.
    """
    folder, texts = pathlib.Path(folder), []
    with faults.Site(programs, folder) as site:
        load_words = ["-changes", "50", "-think", "2ms"]
        seen(load(programs, f"127.0.0.1:{site.gateways[0].port}", "-populate", seconds=0))
        for is_running in (False, True):
            first = seen(site.load(3, *load_words, record=f"first{is_running}"))
            before = cluster.settle(site.gateways)[0]
            backup = folder / f"backup{is_running}.db"
            subprocess.run(["etcdctl", "--endpoints", site.etcd.urls[0], "snapshot", "save", str(backup)], env={**os.environ, "ETCDCTL_API": "3"},
                           check=True, capture_output=True)
            lost = before
            early, late = (socket.create_connection(("127.0.0.1", site.gateways[0].port), 60) for _ in range(2))
            queried(early)
            while lost["entry"] // VOTE_INTERVAL == before["entry"] // VOTE_INTERVAL:  # votes are lost, too
                seen(site.load(2, *load_words, record="lost"))
                lost = cluster.settle(site.gateways)[0]
            queried(late)
            if not is_running:
                expect([gateway.stop() for gateway in site.gateways], [0, 0, 0], "exit statuses")
            site.etcd.restore(backup)
            if not is_running:
                for gateway in site.gateways:
                    gateway.start()
            cluster.wait_for(lambda: all(gateway.status()["ready"] and gateway.status()["entry"] == before["entry"] for gateway in site.gateways), 60,
                             "the entry of the backup")
            after = cluster.settle(site.gateways)
            expect({status["sum"] for status in after}, {before["sum"]}, "checksums")
            found, acknowledged = faults.checked(site, f"first{is_running}")
            expect(found, [], "faults")
            if is_running:
                expect([b"" == queried(caller) for caller in (early, late)], [False, True], "answers on connections from before")
            texts.append(f"{len(acknowledged)} changes of the backup, {lost['place'] - before['place']} later ones gone")
            expect(first["lost"], 0, "lost connections")
        now = before
        while now["entry"] // VOTE_INTERVAL == before["entry"] // VOTE_INTERVAL:
            seen(site.load(2, *load_words, record="afterwards"))
            expect(faults.checked(site, "afterwards")[0], [], "faults afterwards")
            now = cluster.settle(site.gateways)[0]
        time.sleep(6)  # until each gateway has looked at the votes
        expect([gateway.status()["disputed"] for gateway in site.gateways], [False] * 3, "disputes")
    return "; ".join(texts)


# ---- the files of deploy/

# what `systemd-analyze security` may find, from 0, the best, to 100
EXPOSURE = 20
PATHS = {"/usr/local/bin/regd-gateway": "gateway", "/usr/local/bin/regd": "regd"}


def units(programs, folder):
    """`systemd-analyze` accepts the units and their sandboxes, and HAProxy its configuration."""
    folder = pathlib.Path(folder)
    folder.mkdir(parents=True, exist_ok=True)
    file = folder / "haproxy.cfg"
    file.write_text(balancer.configuration(1, 2, [(3, 4)] * 3))
    checked = subprocess.run(["haproxy", "-c", "-f", str(file)], capture_output=True, text=True)
    expect(checked.returncode, 0, checked.stderr)
    names = sorted(unit.name for unit in DEPLOY.iterdir() if unit.suffix in (".service", ".timer"))
    for name in names:
        text = (DEPLOY / name).read_text()
        for path, program in PATHS.items():
            text = re.sub(rf"{path}(?![\w-])", getattr(programs, program), text)
        (folder / name).write_text(text.replace("/usr/bin/etcdctl", shutil.which("etcdctl")).replace("/usr/bin/etcd\n", shutil.which("etcd") + "\n"))
    verified = subprocess.run(["systemd-analyze", "verify", "--man=no", *names], cwd=folder, capture_output=True, text=True)
    expect((verified.returncode, verified.stderr), (0, ""), "systemd-analyze verify")
    levels = []
    for name in names:
        if name.endswith(".service"):
            words = ["systemd-analyze", "security", "--offline=true", f"--threshold={EXPOSURE}", "--no-pager", str(folder / name)]
            secure = subprocess.run(words, capture_output=True, text=True)
            last = secure.stdout.strip().splitlines()[-1] if secure.stdout else secure.stderr
            expect(secure.returncode, 0, f"systemd-analyze security {name}: {last}")
            levels.append(f"{name} {re.search(r'[0-9]+[.][0-9]', last)[0]}")
    return f"{len(names)} units are valid; exposure {', '.join(levels)}"


def _end(file):
    """Returns when a certificate expires, in seconds."""
    text = subprocess.run(["openssl", "x509", "-noout", "-enddate", "-in", str(file)], check=True, capture_output=True, text=True).stdout
    return ssl.cert_time_to_seconds(text.strip().partition("=")[2])


def authorities(programs, folder):
    """No certificate of `deploy/certificates` outlives its authority. An authority that would expire first is refused, and nothing changes."""
    keys = trial_keys(pathlib.Path(folder) / "keys", "127.0.0.1")
    for name in ("caller-authority", "etcd-authority", "peer-authority"):
        trial_keys(keys, "127.0.0.1")  # with the authorities that are there
        made = [file for file in keys.rglob("cert.pem") if (file.parent / "ca.pem").exists()]
        expect(len(made), 6, "certificates")
        expect([file for file in made if _end(file) > _end(file.parent / "ca.pem")], [], "certificates that outlive their authorities")
        authority = keys / name
        former = (authority / "cert.pem").read_bytes()
        subprocess.run(["openssl", "req", "-x509", "-key", str(authority / "key.pem"), "-days", "30", "-subj", f"/CN=trial {name} authority",
                        "-out", str(authority / "cert.pem")], check=True, capture_output=True)
        before = {file: file.read_bytes() for file in keys.rglob("*.pem")}
        done = subprocess.run([str(DEPLOY / "certificates"), str(keys), cluster.DOMAIN, "127.0.0.1"], capture_output=True, text=True)
        expect((done.returncode, str(authority) in done.stderr), (1, True), f"the exit status, and the authority in {done.stderr}")
        expect({file: file.read_bytes() for file in keys.rglob("*.pem")}, before, "files")
        (authority / "cert.pem").write_bytes(former)
    return f"{len(made)} certificates, none outlives its authority; {done.stderr.strip()}"


# ---- the commands of docs/GATEWAY.md

SUDO = """#!/bin/sh
while [ "${1#--}" != "$1" ]; do shift; done
exec "$@"
"""


def blocks(text):
    """Returns the blocks of commands of a page, by their headings."""
    found = {}
    for block in guides.split(text)[0]:
        if block.mark == "console":
            above = [line for line in text.splitlines()[: block.line] if line.startswith("##")]
            found.setdefault(above[-1].lstrip("# "), []).append(block.text)
    return found


# with commands, which these tests run; the part audit has the last one
HEADINGS = {"One machine", "Three machines", "From one machine to three", "The loss of a machine", "Space in etcd", "A line that ends regd", "Backup and restore",
            "Auditing"}


class Machine:
    """A machine of the page: a loopback address, and a folder for its files."""

    def __init__(self, site, number):
        self.site, self.number = site, number
        self.root = site.folder / f"machine{number}"
        self.root.mkdir()

    def run(self, *commands):
        """Runs commands of the page in one shell, and returns what they print."""
        text = "set -e\n" + "\n".join(commands).replace("THIS=10.0.0.1", f"THIS=10.0.0.{self.number}").replace("10.0.0.", self.site.network)
        variables = {**os.environ, "REGD_ROOT": str(self.root), "REGD": self.site.programs.regd, "GOFLAGS": "-mod=vendor", "GOPROXY": "off",
                     "PATH": f"{self.site.bin}:{self.root}/usr/local/bin:{os.environ['PATH']}"}
        done = subprocess.run(["bash", "-c", text], cwd=self.site.top, env=variables, stdin=subprocess.DEVNULL, capture_output=True, text=True, timeout=300)
        if done.returncode:
            logs = "".join(f"{log}: {log.read_text()[-1500:]}" for log in sorted(self.root.glob("run/*.log")))
            raise Wrong(f"machine {self.number}: status {done.returncode} of {text}\n{done.stdout[-1000:]}{done.stderr[-1500:]}\n{logs}")
        return done.stdout

    def kill(self):
        """Kills all processes of the machine."""
        for file in self.root.glob("run/*.service"):
            with contextlib.suppress(ProcessLookupError):
                os.killpg(int(file.read_text()), signal.SIGKILL)


class Page:
    """The commands of the page, and machines that run them."""

    def __init__(self, programs, folder):
        self.programs, self.folder = programs, folder
        folder.mkdir(parents=True)
        self.top, self.bin = folder / "top", folder / "bin"
        for path in (self.top, self.bin):
            path.mkdir()
        for name in ("gateway", "deploy"):
            shutil.copytree(tools.TOP / name, self.top / name)
        shutil.copy(tools.SOURCES / "lib/systemctl", self.bin)
        script(self.bin / "sudo", SUDO)
        # addresses of this test alone
        self.network = f"127.{os.getpid() % 250 + 2}.{int(time.time()) % 250 + 2}."
        self.blocks = blocks((tools.TOP / "docs/GATEWAY.md").read_text())
        expect(set(self.blocks), HEADINGS, "headings with commands")
        self.machines = {}

    def machine(self, number):
        self.machines[number] = Machine(self, number)
        return self.machines[number]

    def __enter__(self):
        return self

    def __exit__(self, *_):
        for machine in self.machines.values():
            machine.kill()


def committed(text):
    """Fails unless an agent was registered, and then shown."""
    expect([text.count(word) for word in ("registered at commit", "/spire/agent/trial")], [1, 2], f"registered, and its name twice in {text}")


READY = "curl --silent --fail --retry 60 --retry-delay 1 --retry-all-errors http://10.0.0.{}:8474/ready/changes"


def one_machine(programs, folder):
    with Page(programs, folder) as page:
        machine = page.machine(1)
        install, use = page.blocks["One machine"]
        machine.run(install)
        committed(machine.run(use))
        with open(machine.root / "etc/regd/local.env", "a") as local:
            local.write('MORE_OPTIONS="-keep 0 -limit-lines 200 -operators spiffe://ex.org/operator"\n')  # of which only the first one concerns a snapshot
        machine.run("systemctl start regd-snapshot", "systemctl restart regd-gateway", READY.format(1))
        expect('event="snapshot made"' in (machine.root / "run/regd-snapshot.service.log").read_text(), True, "a snapshot with MORE_OPTIONS")
        for commands in page.blocks["Space in etcd"]:
            machine.run(commands)
        machine.run(READY.format(1))
        # and then three
        second, third = page.machine(2), page.machine(3)
        prepare, announce, join, announce_third, join_third, finish = page.blocks["From one machine to three"]
        for one, commands in ((machine, prepare), (machine, announce), (second, join), (machine, announce_third), (third, join_third), (machine, finish), (second, finish)):
            one.run(commands)
        committed(machine.run(page.blocks["Three machines"][2]))
        members = json.loads(machine.run("curl --silent --fail http://10.0.0.2:8474/status"))["etcd"]  # its own one is first
        members.sort(key=lambda member: member["url"])
        expect([member.get("error") for member in members], [None] * 3, "errors of members")
        # what the operator changed on the first machine is still there, although it was installed again
        expect([member["quota"] >> 30 for member in members], [16, 8, 8], "quotas in GiB")


def restored(machines, state, *blocks):
    """Stops etcd on all machines, and restores this state of it everywhere."""
    for machine in machines:
        machine.run("systemctl stop regd-etcd")
    for machine in machines:
        backup = machine.root / "var/lib/regd-backup/backup.db"
        backup.parent.mkdir(parents=True, exist_ok=True)
        if state != backup:
            shutil.copy(state, backup)
    for commands in blocks:
        for machine in machines:
            machine.run(commands)


def three_machines(programs, folder):
    with Page(programs, folder) as page:
        machines = [page.machine(number) for number in (1, 2, 3)]
        first, _, third = machines
        build = page.blocks["One machine"][0].split("deploy/certificates")[0]
        certificates, install, use = page.blocks["Three machines"]
        first.run(build, certificates)
        for machine in machines:
            machine.run(install)
        committed(first.run(use))
        # the loss of a machine, and of its disk
        remove, add, again = page.blocks["The loss of a machine"]
        third.kill()
        shutil.rmtree(third.root)
        committed(first.run(READY.format(1), use.splitlines()[-2], use.splitlines()[-1].replace("10.0.0.3", "10.0.0.2")))
        third.root.mkdir()
        first.run(remove, add)
        third.run(again)
        committed(first.run(use))
        # a skipped line, a restored backup
        look, skip_commands = page.blocks["A line that ends regd"]
        expect("set_agent" in first.run(look.replace("%016x 17", "%016x 2")), True, "a line in the entry")
        first.run(skip_commands.replace("regd-gateway", "programs/regd-gateway").replace("-skip 17.1", "-skip 2.1"))
        backup, restoration, go_on = page.blocks["Backup and restore"]
        first.run(backup)
        restored(machines, first.root / "var/lib/regd-backup/backup.db", restoration, go_on)
        committed(first.run(use))
        # and the database of a member that has kept its disk, which has what was committed after the backup
        change, show = (line.replace("agent/trial", "agent/later") for line in use.splitlines()[-2:])
        first.run(change)
        restored(machines, first.root / "var/lib/regd-etcd/member/snap/db", restoration.replace("snapshot restore", "snapshot restore --skip-hash-check"), go_on)
        expect("x:1" in first.run(READY.format(3), show), True, "what was committed after the backup")
        committed(first.run(use))
        statuses = [json.loads(first.run(f"curl --silent --fail http://10.0.0.{number}:8474/status")) for number in (1, 2, 3)]
        expect([list(status["skipped"]) for status in statuses], [["2.1"]] * 3, "skipped lines")


def pages(programs, folder):
    """The commands of docs/GATEWAY.md, run from top to bottom."""
    folder = pathlib.Path(folder)
    one_machine(programs, folder / "one")
    three_machines(programs, folder / "three")
    return "one machine, then three; three machines, the loss of one, a skipped line, a restored backup"


OPERATIONS = {"crowd": crowd, "handshakes": handshakes, "stop": stop, "certificates": certificates, "upgrade": upgrade, "skip": skip, "restore": restore,
              "units": units, "authorities": authorities, "pages": pages}
