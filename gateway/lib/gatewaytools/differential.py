"""Sends random lines through a gateway and through `regd plain`, and compares every byte of the answers."""
import re
import random
import socket
import subprocess
import threading

from gatewaytools import cluster, requests, rules

LINE = re.compile(rb',"line":\d+')


def lines_of(seed, count):
    """Returns the lines of a run, and what follows the last line feed."""
    made = requests.Lines(random.Random(seed), [0, 5, 30][seed % 3])
    lines = [made.long_line() if number % 1000 == 999 else made.line() for number in range(count)]
    return lines, b"cut off" if seed % 2 else b""


def expected(regd, lines, rest):
    """Returns the answers by `regd plain`, with the gateway's own codes where its rules say so, and how many these are."""
    own = [rules.own_code(line) for line in lines]
    others = [line for line, code in zip(lines, own) if code is None]
    data = b"".join(line + b"\n" for line in others) + rest
    out = subprocess.run([regd, "plain", "--domain", cluster.DOMAIN], input=data, capture_output=True, check=True).stdout
    replies = iter(out.splitlines())
    answers = []
    for number, code in enumerate([*own, *([None] if rest else [])], 1):
        if code:
            answers.append(b'{"code":"%s","line":%d}' % (code.encode(), number))
        else:
            reply = next(replies)
            answers.append(reply if reply.startswith(b'{"call":') else LINE.sub(b',"line":%d' % number, reply, count=1))
    return answers, sum(code is not None for code in own)


def answers_of(port, data):
    """Sends bytes on one connection, and returns the lines that come back."""
    with socket.create_connection(("127.0.0.1", port), 120) as connection:
        got = bytearray()

        def read():
            while part := connection.recv(1 << 16):
                got.extend(part)

        reader = threading.Thread(target=read)
        reader.start()
        connection.sendall(data)
        connection.shutdown(socket.SHUT_WR)
        reader.join()
    return bytes(got).splitlines()


def run(program, regd, etcd, folder, seed, count):
    """Makes one run. Returns how many lines it compared, how many got a code of the gateway, how many the log has, and the differences."""
    lines, rest = lines_of(seed, count)
    with cluster.Gateway(program, regd, etcd, folder, seed, ["-prefix", f"run{seed}/"]) as gateway:
        got = answers_of(gateway.port, b"".join(line + b"\n" for line in lines) + rest)
    want, own = expected(regd, lines, rest)
    logged = sum(len(entry.lines) for entry in etcd.store(f"run{seed}/").entries())
    lines.append(rest)
    differing = []
    for number in range(max(len(got), len(want))):
        pair = [side[number] if number < len(side) else b"nothing" for side in (got, want)]
        if pair[0] != pair[1]:
            differing.append((lines[number] if number < len(lines) else b"", *pair))
    return len(want), own, logged, differing
