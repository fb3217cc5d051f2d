"""Fault injection in `regd serve` with several connections: what one of them loses, the others don't."""

import json
import os
import socket
import subprocess
import time

from regdtools.allocations import SECONDS
from regdtools.faults.requests import Session, exchange, is_no_memory, without_call

# queries of an empty book, so that no connection changes what another one reads
LINES = [
    b'{"ops":[{"op":"show","id":"00000000-0000-0000-0000-000000000001"}]}\n',
    b'{"ops":[{"op":"authorised","agent":"spiffe://ex.org/spire/agent/n1"}]}\n',
]
# more than a queue has room for when its first connection has arrived
WAITING = 8


class Serving(Session):
    """Runs of `regd serve` with one worker. The first connection is served; the second one is silent, and the others wait behind it."""

    def outputs(self, fail=0):
        """Returns the status (None if the server didn't end), the answers on each connection with requests, and what standard error got."""
        words = [self.program, "serve", "--domain", self.domain, "--listen", "127.0.0.1:0"]
        words += ["--workers", "1", "--connections", str(WAITING + 2)]
        with subprocess.Popen(words, stdout=subprocess.PIPE, stderr=subprocess.PIPE, env=self.variables(fail)) as server:
            try:
                line = server.stdout.readline()
                outputs = outputs_of(server.pid, json.loads(line)["listening"]) if line else []
                _, errors = server.communicate(timeout=SECONDS)
            except (TimeoutError, subprocess.TimeoutExpired):
                server.kill()
                return None, [], b"no end within %d seconds" % SECONDS
        return server.returncode, outputs, errors


def outputs_of(pid, address):
    """Returns what the server answers on the first connection, and on those that wait."""
    text, (host, port) = b"".join(LINES), address.rsplit(":", 1)
    outputs, waiting = [exchange(address, text)], []
    try:
        with socket.create_connection((host, int(port)), timeout=SECONDS):
            for _ in range(WAITING):
                waiting.append(socket.create_connection((host, int(port)), timeout=SECONDS))
            accepted(pid)
    except ConnectionError:
        pass
    for connection in waiting:
        try:
            with connection, connection.makefile("rb") as answers:
                connection.sendall(text)
                connection.shutdown(socket.SHUT_WR)
                outputs.append(answers.read())
        except TimeoutError:
            raise
        except OSError:
            # the server has closed it without reading
            outputs.append(b"")
    return outputs


def accepted(pid):
    """Waits until the server has accepted all connections, at most a second: it may have closed one."""
    give_up = time.monotonic() + 1
    while time.monotonic() < give_up:
        try:
            if len(os.listdir(f"/proc/{pid}/fd")) > 3 + WAITING:
                return
        except FileNotFoundError:
            return
        time.sleep(0.005)


def is_answer(output, whole):
    """Returns true if a connection was answered as without a failure, apart from call numbers and from one line with L6."""
    answers, expected = output.splitlines(keepends=True), whole.splitlines(keepends=True)
    if len(answers) != len(expected):
        return False
    pairs = enumerate(zip(answers, expected), 1)
    differing = [number for number, (answer, wanted) in pairs if without_call(answer)[1] != without_call(wanted)[1]]
    return all(is_no_memory(answers[number - 1], number) for number in differing) and len(differing) <= 1


def has_l6(output):
    return any(is_no_memory(line, number) for number, line in enumerate(output.splitlines(keepends=True), 1))


def fault_of(runs, whole, result):
    """Returns what is wrong with a run in which one allocation failed, or None; and true if a connection lost an answer."""
    status, outputs, errors = result
    if status == 1:
        is_right = not any(outputs) and errors in runs.ends
        answered = sum(map(bool, outputs))
        return None if is_right else f"status 1 after {answered} connections were answered, on standard error {errors!r}", False
    if status != 0 or errors or len(outputs) != len(whole):
        return f"status {status}, {len(outputs)} connections, on standard error {errors!r}", False
    wrong = [number for number, output in enumerate(outputs) if output and not is_answer(output, whole[number])]
    lost = [number for number, output in enumerate(outputs) if not output or has_l6(output)]
    if wrong or len(lost) > 1:
        return f"wrong answers to the connections {wrong}, none or L6 to {lost}", False
    return None, bool(lost)


def check(folder, domain):
    runs = Serving(folder, domain)
    status, whole, errors = runs.outputs()
    if status != 0 or errors or len(whole) != WAITING + 1 or any(output.count(b"\n") != len(LINES) for output in whole):
        print(f"although no allocation fails: status {status}, {whole}, on standard error {errors!r}")
        return 1
    ended = lost = same = wrong = 0
    for number, result in runs.each(runs.outputs):
        fault, has_lost = fault_of(runs, whole, result)
        if fault:
            wrong += 1
            print(f"allocation {number}: {fault}", flush=True)
        elif result[0] == 1:
            ended += 1
        elif has_lost:
            lost += 1
        else:
            same += 1
    total = ended + lost + same + wrong
    print(f"{total} allocations failed in turn over {WAITING + 2} connections: {ended} servers ended with nothing answered, "
          f"in {lost} runs one connection lost an answer, {same} answered everything, {wrong} wrong")
    return 1 if wrong or total == 0 else 0
