"""Starts `regd serve` and connects to it."""

import json
import os
import pathlib
import resource
import socket
import subprocess

from regdtools.program import program


class Server:
    """A server of ex.org on a port that the system chooses. Leaving its `with` block kills it if it still runs.

    `workers` and `connections` are the options of those names, `words` further options, `descriptors` the limit on open files, and
    `variables` additions to its environment. `path` is the program, by default that of the repository, or a list of words that start it.
    """

    def __init__(self, workers, connections, words=(), descriptors=None, variables=None, path=None):
        start = path if isinstance(path, list) else [path or program()]
        self.words = [*start, "serve", "--domain", "ex.org", "--listen", "127.0.0.1:0"]
        self.words += ["--workers", str(workers), "--connections", str(connections), *words]
        self.workers, self.connections, self.descriptors = workers, connections, descriptors
        self.variables = os.environ | (variables or {})
        self.opened = 0

    def __enter__(self):
        self.process = subprocess.Popen(self.words, stdout=subprocess.PIPE, preexec_fn=self._limit, env=self.variables)
        line = self.process.stdout.readline()
        if not line:
            raise RuntimeError(f"the server ended with status {self.process.wait()} before it listened")
        host, port = json.loads(line)["listening"].rsplit(":", 1)
        self.address = host, int(port)
        return self

    def __exit__(self, *_):
        if self.process.poll() is None:
            self.process.kill()
        self.process.wait()
        self.process.stdout.close()

    def _limit(self):
        if self.descriptors:
            resource.setrlimit(resource.RLIMIT_NOFILE, (self.descriptors, self.descriptors))

    def connect(self, timeout=20.0, buffer=None):
        """Returns the socket of the next connection. Its worker is `opened` modulo `workers`.

        `timeout` is in seconds; `buffer` is the size in bytes of the system's buffers each way, by default the system's own.
        """
        connection = socket.socket()
        if buffer:
            connection.setsockopt(socket.SOL_SOCKET, socket.SO_RCVBUF, buffer)
            connection.setsockopt(socket.SOL_SOCKET, socket.SO_SNDBUF, buffer)
        connection.settimeout(timeout)
        connection.connect(self.address)
        connection.setsockopt(socket.IPPROTO_TCP, socket.TCP_NODELAY, 1)
        self.opened += 1
        return connection

    def memory(self):
        """Returns the resident memory of the server in kilobytes, or None if it has ended."""
        try:
            status = pathlib.Path(f"/proc/{self.process.pid}/status").read_text()
        except FileNotFoundError:
            return None
        return next((int(line.split()[1]) for line in status.splitlines() if line.startswith("VmRSS:")), None)

    def end(self, timeout=20.0):
        """Waits for the server to end by itself and returns its status, or None after `timeout` seconds."""
        try:
            return self.process.wait(timeout)
        except subprocess.TimeoutExpired:
            return None
