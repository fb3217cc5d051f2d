"""HAProxy in front of the gateways, by deploy/haproxy.cfg."""
import os
import pathlib
import re
import socket
import subprocess

from gatewaytools import cluster, tools

EXAMPLE = tools.TOP / "deploy/haproxy.cfg"
LETTERS = "abc"


def configuration(agents, operators, gateways):
    """Returns the example with the addresses of three gateways, each a pair of ports: for callers and of its state."""
    text = EXAMPLE.read_text().replace("bind :8471", f"bind 127.0.0.1:{agents}").replace("bind :8470", f"bind 127.0.0.1:{operators}")
    for letter, (port, status) in zip(LETTERS, gateways):
        text = re.sub(rf"{letter}\.example:8472 check port 8474", f"127.0.0.1:{port} check port {status}", text)
    if os.geteuid() != 0:  # only root can give up its rights
        text = re.sub(r" *(user|group) haproxy\n", "", text)
    return text


class Balancer:
    """A running HAProxy with a port for agents and one for operators."""

    def __init__(self, folder, gateways):
        self.agents, self.operators = cluster.free_port(), cluster.free_port()
        file = pathlib.Path(folder) / "haproxy.cfg"
        file.write_text(configuration(self.agents, self.operators, [(gateway.port, gateway.status_port) for gateway in gateways]))
        self.process = subprocess.Popen(["haproxy", "-f", str(file)], stdout=subprocess.DEVNULL, stderr=subprocess.DEVNULL)

    def __enter__(self):
        def answers():
            with socket.socket() as opened:
                return opened.connect_ex(("127.0.0.1", self.operators)) == 0
        cluster.wait_for(answers, 10, "haproxy")
        return self

    def __exit__(self, *_):
        self.process.kill()
        self.process.wait()
