"""Fault injection in runs over request lines: `regd plain`, or one connection of `regd serve`."""

import errno
import json
import pathlib
import socket
import subprocess

from regdtools.allocations import SECONDS, Result, Runs
from regdtools.program import program


class Plain(Runs):
    """Runs of `regd plain`."""

    # what a run that ends early may write to standard error
    ends = {b"regd: out of memory\n"}
    # true if a run may also end with status 0 and nothing written
    may_close = False

    def __init__(self, folder, domain):
        super().__init__(folder)
        self.program, self.domain = program(), domain

    def answer(self, lines, fail=0):
        """Returns the result of a run over these lines."""
        return self.run([self.program, "plain", "--domain", self.domain], fail, b"".join(lines))


class Session(Plain):
    """Runs of `regd serve` with one worker and one connection."""

    may_close = True

    def answer(self, lines, fail=0):
        words = [self.program, "serve", "--domain", self.domain, "--listen", "127.0.0.1:0", "--workers", "1", "--connections", "1"]
        with subprocess.Popen(words, stdout=subprocess.PIPE, stderr=subprocess.PIPE, env=self.variables(fail)) as server:
            try:
                line = server.stdout.readline()
                output = exchange(json.loads(line)["listening"], b"".join(lines)) if line else b""
                _, errors = server.communicate(timeout=SECONDS)
            except (TimeoutError, subprocess.TimeoutExpired):
                server.kill()
                return Result(None, b"", b"no end within %d seconds" % SECONDS)
        return Result(server.returncode, output, errors)


def exchange(address, text):
    """Returns all that a server answers on one connection. The server may close it before it has read everything."""
    host, port = address.rsplit(":", 1)
    try:
        with socket.create_connection((host, int(port)), timeout=SECONDS) as connection:
            connection.sendall(text)
            connection.shutdown(socket.SHUT_WR)
            with connection.makefile("rb") as answers:
                return answers.read()
    except OSError as error:
        # after a reset, an end of the connection can't be shut down: it isn't connected any more
        if not isinstance(error, ConnectionError) and error.errno != errno.ENOTCONN:
            raise
        return b""


def without_call(line):
    """Returns the call number of an answer and the rest of it."""
    answer = json.loads(line)
    call = answer.pop("call", None)
    return call, answer


def is_no_memory(line, number):
    return line == b'{"code":"L6","line":%d}\n' % number


def fault_of(runs, lines, whole, result):
    """Returns what is wrong with a run in which one allocation failed, or None; and true if a line of it was answered with L6.

    `whole` is the output of a run in which none failed.
    """
    status, output, errors = result
    if status == 1:
        if output or errors not in runs.ends:
            return f"status 1, {len(output)} bytes written, on standard error {errors!r}", False
        return None, False
    if runs.may_close and status == 0 and not output and not errors:
        return None, False
    answers = output.splitlines(keepends=True)
    if status != 0 or errors or len(answers) != len(lines):
        return f"status {status}, {len(answers)} answers, on standard error {errors!r}", False
    if output == whole:
        return None, False
    refused = [number for number, line in enumerate(answers, 1) if is_no_memory(line, number)]
    if len(refused) != 1:
        return f"L6 to the lines {refused}, and another answer changed", False
    [left_out] = refused
    # the line was either not run, or it drew its ids and was refused then
    faults = []
    for replacement in ([], [only_drawing(lines[left_out - 1], runs.domain)]):
        rest = runs.answer(lines[: left_out - 1] + replacement + lines[left_out:]).output
        expected = rest.splitlines(keepends=True)
        expected[left_out - 1 : left_out - 1 + len(replacement)] = [answers[left_out - 1]]
        faults.append(difference(answers, expected, left_out))
    return (None if None in faults else faults[0]), True


def only_drawing(line, domain):
    """Returns a line whose batch draws the same ids and is then refused, because no agent has the name in its last operation."""
    batch = json.loads(line)
    batch["ops"].append({"op": "drop_agent", "agent": f"spiffe://{domain}/spire/agent/of.no.such.name"})
    return json.dumps(batch, separators=(",", ":")).encode() + b"\n"


def difference(answers, expected, left_out):
    """Returns the first answer that differs from the expected one, apart from the numbers of lines and calls, or None."""
    if len(answers) != len(expected):
        return f"{len(answers)} answers, expected {len(expected)}"
    last = 0
    for number, (answer, wanted) in enumerate(zip(answers, expected), 1):
        (call, body), (_, wanted_body) = without_call(answer), without_call(wanted)
        if "line" in wanted_body:
            wanted_body["line"] = number
        if body != wanted_body:
            return f"line {number}: {answer!r}, expected {wanted!r}"
        if call is not None and not last < call <= last + 1 + (left_out < number):
            return f"line {number}: call {call} after {last}"
        last = call or last
    return None


def check(folder, kind, file, domain):
    lines = pathlib.Path(file).read_bytes().splitlines(keepends=True)
    runs = kind(folder, domain)
    whole = runs.answer(lines)
    if whole.status != 0 or whole.errors or len(whole.output.splitlines()) != len(lines):
        print(f"although no allocation fails: {whole}")
        return 1
    ended = refused = same = wrong = 0
    for number, result in runs.each(lambda fail: runs.answer(lines, fail)):
        fault, has_l6 = fault_of(runs, lines, whole.output, result)
        if fault:
            wrong += 1
            print(f"allocation {number}: {fault}", flush=True)
        elif result.status == 1 or not result.output:
            ended += 1
        elif has_l6:
            refused += 1
        else:
            same += 1
    total = ended + refused + same + wrong
    print(f"{total} allocations failed in turn over {len(lines)} lines: {ended} runs ended with nothing written, "
          f"{refused} answered one line with L6, {same} answered every line, {wrong} wrong")
    return 1 if wrong or total == 0 else 0
