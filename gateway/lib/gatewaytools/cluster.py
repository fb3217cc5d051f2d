"""Processes on loopback for tests: etcd members, gateways and a balancer."""
import contextlib
import json
import os
import pathlib
import random
import shutil
import signal
import socket
import subprocess
import time
import urllib.error
import urllib.request

from gatewaytools import logs, network

DOMAIN = "ex.org"


given = set()  # ports


def free_port():
    """Returns a port of its own. It is below those of outgoing connections, of which one could take it while its process is being started again."""
    while True:
        port = random.randrange(16384, 32768)
        with socket.socket() as opened, contextlib.suppress(OSError):
            opened.bind(("127.0.0.1", port))
            if port not in given:
                given.add(port)
                return port


def wait_for(condition, seconds, what):
    """Waits until the condition holds, and returns its value."""
    give_up = time.monotonic() + seconds
    while not (value := condition()):
        if time.monotonic() > give_up:
            raise TimeoutError(what)
        time.sleep(0.05)
    return value


class Etcd:
    """A cluster whose members are started and killed one by one. Their data is in a folder. With a network, members and gateways reach each
    other through it, and the tests don't."""

    def __init__(self, folder, count=3, words=(), has_network=False):
        self.folder, self.count, self.words = pathlib.Path(folder), count, list(words)
        shutil.rmtree(self.folder, ignore_errors=True)
        self.folder.mkdir(parents=True)
        self.clients = [free_port() for _ in range(count)]
        self.peers = [free_port() for _ in range(count)]
        self.members = [None] * count
        self.gateways = []
        self.network = network.Network(self.processes) if has_network else None
        # those that members and gateways use
        self.peer_ports = [self.led(f"m{number}", port) for number, port in enumerate(self.peers)]
        self.client_ports = [self.led(f"m{number}", port) for number, port in enumerate(self.clients)]
        for number in range(count):
            self.start(number)
        for number in range(count):
            self.wait(number)

    def __enter__(self):
        return self

    def __exit__(self, *_):
        for number in range(self.count):
            self.kill(number)
        if self.network:
            self.network.close()

    def led(self, name, port):
        """Returns the port by which others reach a node."""
        return self.network.listen(name, port) if self.network else port

    def processes(self):
        """Returns the numbers of the processes by the names of members and gateways."""
        members = {f"m{number}": member.pid for number, member in enumerate(self.members) if member}
        return members | {f"g{gateway.number}": gateway.process.pid for gateway in self.gateways if gateway.process}

    @property
    def urls(self):
        return [f"http://127.0.0.1:{port}" for port in self.clients]

    @property
    def urls_of_gateways(self):
        return [f"http://127.0.0.1:{port}" for port in self.client_ports] if self.network else self.urls

    def start(self, number):
        client, peer, told = self.urls[number], f"http://127.0.0.1:{self.peers[number]}", f"http://127.0.0.1:{self.peer_ports[number]}"
        cluster = ",".join(f"m{other}=http://127.0.0.1:{port}" for other, port in enumerate(self.peer_ports))
        with open(self.folder / f"{number}.log", "ab") as log:
            self.members[number] = subprocess.Popen(
                ["etcd", "--name", f"m{number}", "--data-dir", str(self.folder / str(number)), "--listen-client-urls", client,
                 "--advertise-client-urls", client, "--listen-peer-urls", peer, "--initial-advertise-peer-urls", told,
                 "--initial-cluster", cluster, "--initial-cluster-state", "new", "--logger", "zap", "--log-level", "error", *self.words],
                stdout=log, stderr=log)

    def wait(self, number):
        """Waits until a member answers. On a busy machine that takes long after a start."""
        def answers():
            if self.members[number].poll() is not None:
                raise RuntimeError(f"etcd member {number} has ended: {self.said(number)}")
            try:
                logs.Store([self.urls[number]]).get("x")
                return True
            except OSError:
                return False
        try:
            wait_for(answers, 90, "")
        except TimeoutError:
            raise TimeoutError(f"etcd member {number}: {self.said(number)}") from None

    def said(self, number):
        return (self.folder / f"{number}.log").read_text(errors="replace")[-1000:]

    def kill(self, number):
        if self.members[number].poll() is None:
            self.members[number].kill()
        self.members[number].wait()

    def restore(self, backup):
        """Replaces the data of all members by a backup, and starts them again."""
        for number in range(self.count):
            self.kill(number)
        cluster = ",".join(f"m{other}=http://127.0.0.1:{port}" for other, port in enumerate(self.peer_ports))
        for number in range(self.count):
            data = self.folder / str(number)
            shutil.rmtree(data)
            subprocess.run(["etcdctl", "snapshot", "restore", str(backup), "--name", f"m{number}", "--data-dir", str(data), "--initial-cluster", cluster,
                            "--initial-advertise-peer-urls", f"http://127.0.0.1:{self.peer_ports[number]}", "--initial-cluster-token", "restored"],
                           env={**os.environ, "ETCDCTL_API": "3"}, check=True, capture_output=True)
        for number in range(self.count):
            self.start(number)
        for number in range(self.count):
            self.wait(number)

    def signal(self, number, which):
        os.kill(self.members[number].pid, which)

    def leader(self):
        """Returns the number of the member that leads."""
        def found():
            statuses = {}
            for number in range(self.count):
                if self.members[number].poll() is None:
                    try:
                        statuses[number] = logs.Store([self.urls[number]]).call("/v3/maintenance/status", {})
                    except OSError:
                        pass
            for number, status in statuses.items():
                if status.get("leader") == status["header"]["member_id"]:
                    return [number]
            return None
        return wait_for(found, 20, "a leader")[0]

    def store(self, prefix="regd/"):
        return logs.Store([url for number, url in enumerate(self.urls) if self.members[number].poll() is None], prefix)


class Gateway:
    """A gateway with a folder for its log."""

    def __init__(self, program, regd, etcd, folder, number, words=()):
        self.program, self.regd, self.etcd, self.number, self.words = program, regd, etcd, number, list(words)
        self.folder = pathlib.Path(folder)
        self.folder.mkdir(parents=True, exist_ok=True)
        self.port, self.fresh, self.status_port = free_port(), free_port(), free_port()
        self.process = None
        self.etcd.gateways.append(self)
        self.start()

    def __enter__(self):
        return self

    def __exit__(self, *_):
        self.kill()

    @property
    def log(self):
        return self.folder / f"gateway{self.number}.log"

    def start(self, waits=True):
        with open(self.log, "ab") as log:
            self.process = subprocess.Popen(
                [self.program, "-domain", DOMAIN, "-regd", self.regd, "-etcd", ",".join(self.etcd.urls_of_gateways), "-name", f"g{self.number}",
                 "-listen", f"127.0.0.1:{self.port}", "-fresh", f"127.0.0.1:{self.fresh}", "-status", f"127.0.0.1:{self.status_port}",
                 *self.words], stdout=subprocess.PIPE, stderr=log)
        if waits and not self.process.stdout.readline().startswith(b'{"listening"'):
            raise RuntimeError(f"the gateway ended: {self.log.read_text()[-2000:]}")

    def kill(self):
        if self.process.poll() is None:
            self.process.kill()
        self.process.wait()
        self.process.stdout.close()

    def stop(self, seconds=40):
        """Sends SIGTERM, and returns the exit status."""
        self.process.terminate()
        status = self.process.wait(seconds)
        self.process.stdout.close()
        return status

    def get(self, path):
        """Returns the code and the text of an answer over HTTP."""
        try:
            with urllib.request.urlopen(f"http://127.0.0.1:{self.status_port}{path}", timeout=10) as answer:
                return answer.status, answer.read().decode()
        except urllib.error.HTTPError as error:
            return error.code, error.read().decode()

    def metric(self, name):
        """Returns the value of a metric, or None."""
        for line in self.get("/metrics")[1].splitlines():
            key, _, value = line.rpartition(" ")
            if key == f"regd_gateway_{name}":
                return float(value)
        return None

    def memory(self):
        """Returns the most bytes that the process has had in memory."""
        status = pathlib.Path(f"/proc/{self.process.pid}/status").read_text()
        return next(int(line.split()[1]) << 10 for line in status.splitlines() if line.startswith("VmHWM"))

    def status(self):
        try:
            with urllib.request.urlopen(f"http://127.0.0.1:{self.status_port}/status", timeout=5) as answer:
                return json.load(answer)
        except urllib.error.HTTPError as error:
            return json.load(error)
        except OSError:
            return {"ready": False, "entry": 0}

    def kill_regd(self):
        os.kill(wait_for(lambda: self.status().get("regd"), 60, "a replica"), signal.SIGKILL)

    def call(self, *lines, fresh=False, seconds=60):
        """Sends lines on a new connection and returns the answers."""
        with socket.create_connection(("127.0.0.1", self.fresh if fresh else self.port), seconds) as connection:
            with connection.makefile("rwb") as stream:
                answers = []
                for begin in range(0, len(lines), 100):
                    part = lines[begin : begin + 100]
                    stream.write(b"".join(line + b"\n" for line in part))
                    stream.flush()
                    answers += [stream.readline().removesuffix(b"\n") for _ in part]
                return answers

    def book(self):
        """Returns the tails of the answers to all pages."""
        from gatewaytools import plain

        answers, queries, following = [], [], None
        while True:
            query = page(following)
            [answer] = self.call(query)
            answers.append(plain.tail(answer))
            queries.append(query)
            following = json.loads(answer)["replies"][0]["next"]
            if following is None:
                return queries, answers


def page(following=None):
    return json.dumps({"ops": [{"op": "page", "size": 500, **({"from": following} if following else {})}]}).encode()


def settle(gateways, seconds=60):
    """Waits until all gateways have executed the same entry."""
    def is_settled():
        statuses = [gateway.status() for gateway in gateways]
        return all(status["ready"] and status["entry"] >= status["head"] for status in statuses) and len({status["entry"] for status in statuses}) == 1
    time.sleep(1.1)  # a gateway learns once a second where the log ends
    wait_for(is_settled, seconds, "gateways at the same entry")
    return [gateway.status() for gateway in gateways]
