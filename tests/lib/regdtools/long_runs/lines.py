"""Random request lines through `regd plain` and through a session of one seat, whose answers have to be equal byte for byte."""
import collections
import contextlib
import re
import subprocess
import threading

from regdtools import operations
from regdtools.long_runs import drawing, shrinking
from regdtools.malformed import parsing
from regdtools.program import program
from regdtools.server import Server
from regdtools.wrong import Wrong

CHUNK = 256
SECONDS = 300.0
HEAD = re.compile(rb'\{(?:"call":(\d+),)?(?:"code":"(\w+)"|"place":(\d+))')
GENERATED = re.compile(rb'"id":"([0-9a-f]{8}-[0-9a-f]{4}-4[0-9a-f]{3}-[89ab][0-9a-f]{3}-[0-9a-f]{12})"')


class Plain:
    """A running `regd plain`."""

    def __init__(self):
        words = [program(), "plain", "--domain", operations.DOMAIN]
        self.process = subprocess.Popen(words, stdin=subprocess.PIPE, stdout=subprocess.PIPE)

    def __enter__(self):
        return self

    def __exit__(self, *_):
        self.kill()
        self.process.wait()
        for stream in (self.process.stdin, self.process.stdout):
            with contextlib.suppress(OSError):
                stream.close()

    def kill(self):
        self.process.kill()

    def send(self, data):
        self.process.stdin.write(data)
        self.process.stdin.flush()

    def end_input(self):
        self.process.stdin.close()

    def line(self):
        return self.process.stdout.readline()

    def status(self):
        return self.process.wait(SECONDS)


class Session:
    """The only connection of a running `regd serve` with one worker."""

    def __init__(self):
        self.server = Server(1, 1)
        self.server.__enter__()
        self.socket = self.server.connect(SECONDS)
        self.stream = self.socket.makefile("rb")

    def __enter__(self):
        return self

    def __exit__(self, *_):
        self.stream.close()
        self.socket.close()
        self.server.__exit__()

    def kill(self):
        self.server.process.kill()

    def send(self, data):
        self.socket.sendall(data)

    def end_input(self):
        self.socket.shutdown(1)

    def line(self):
        return self.stream.readline()

    def status(self):
        return self.server.end(SECONDS)


def exchange(engines, data, count, is_end=False):
    """Sends bytes to each engine and returns `count` answers of each. Kills the engines if they don't answer in time."""

    def send(engine):
        with contextlib.suppress(OSError, ValueError):
            if data:
                engine.send(data)
            if is_end:
                engine.end_input()

    def kill():
        for engine in engines:
            engine.kill()

    clock = threading.Timer(SECONDS, kill)
    senders = [threading.Thread(target=send, args=(engine,)) for engine in engines]
    for thread in (clock, *senders):
        thread.start()
    try:
        return [[engine.line() for _ in range(count)] for engine in engines]
    except OSError:
        raise Wrong("a session ended") from None
    finally:
        clock.cancel()
        for thread in senders:
            thread.join()


class Comparison:
    """A run of both engines over the same lines."""

    def __init__(self, counts):
        self.counts = counts
        self.lines, self.calls = 0, 0

    def __enter__(self):
        self.stack = contextlib.ExitStack()
        try:
            self.engines = [self.stack.enter_context(Plain()), self.stack.enter_context(Session())]
        except BaseException:
            self.stack.close()
            raise
        return self

    def __exit__(self, *_):
        self.stack.close()

    def answers(self, lines):
        """Compares the answers to some lines with each other and with those of the table, and returns those of `plain`."""
        plain, session = exchange(self.engines, b"".join(lines), len(lines))
        for line, one, other in zip(lines, plain, session):
            self.check(line, one, other)
        return plain

    def check(self, line, plain, session):
        self.lines += 1
        if plain != session:
            raise Wrong(f"line {self.lines}: plain answers {plain[:500]!r}, the session {session[:500]!r}")
        head = HEAD.match(plain)
        if not head:
            raise Wrong(f"line {self.lines}: unexpected answer {plain[:500]!r}")
        try:
            parsing.read_request(line)
        except parsing.Refused as refused:
            expected = refused.line(self.lines).encode() + b"\n"
            if plain != expected:
                raise Wrong(f"line {self.lines}: expected {expected!r}, got {plain[:500]!r}") from None
        else:
            self.calls += 1
            if head[1] is None or int(head[1]) != self.calls:
                raise Wrong(f"line {self.lines}: expected the answer to call {self.calls}, got {plain[:500]!r}")
        result = head[2] or plain[plain.rfind(b'"result":"') + 10 :].removesuffix(b'"}\n')
        self.counts[result.decode()] += 1

    def end(self, rest):
        """Ends the input after bytes without a line feed, and compares what follows."""
        plain, session = exchange(self.engines, rest, int(rest != b""), is_end=True)
        for one, other in zip(plain, session):
            self.check(rest, one, other)
        last = [engine.line() for engine in self.engines]
        statuses = [engine.status() for engine in self.engines]
        if last != [b"", b""] or statuses != [0, 0]:
            raise Wrong(f"at the end plain and the session print {last}, their statuses are {statuses}")


class LongLines:
    """Pieces of lines. A piece stores its own lines, and no others."""

    name, unit, piece = "lines", "lines", 25_000
    item_of, bytes_of = staticmethod(lambda line: line), staticmethod(lambda line: line)
    simpler, weight = staticmethod(shrinking.simpler_line), staticmethod(shrinking.weight_of)
    # what has to occur in a run of at least `enough` lines
    expected = [*"L1 L2 L3 L4 L5 I1 I2 I3 I4 I5 I6 I7 I8 S1 S2 S3 S4 U1".split(), *(f"B{number}" for number in range(1, 15)),
                *(f"O{number}" for number in range(1, 10)), "W1", "W3", "W4", "W5", "W6", "committed", "answered", "repeated"]
    enough = 10_000_000

    def run(self, draw, amount, counts):
        sent = []
        try:
            self.play(draw, amount, counts, sent)
        except Wrong as wrong:
            raise Wrong(wrong.reason, sent) from None

    def play(self, draw, amount, counts, sent):
        lines = drawing.Lines(draw, draw.choices(["small", "medium", "large"], [60, 37, 3])[0])
        with Comparison(counts) as comparison:
            for line in self.first(draw, lines, amount):
                sent.append(line)
                if len(sent) % CHUNK == 0:
                    comparison.answers(sent[-CHUNK:])
            if len(sent) % CHUNK:
                comparison.answers(sent[-(len(sent) % CHUNK) :])
            counts["lines that fill the book"] += len(sent)
            for done in range(0, amount, CHUNK):
                chunk = [lines.line() for _ in range(min(CHUNK, amount - done))]
                sent += chunk
                self.learn(lines, comparison.answers(chunk))
                counts[self.unit] += len(chunk)
            rest = lines.line()[: draw.randint(0, 200)].removesuffix(b"\n") if draw.random() < 0.5 else b""
            if rest:
                sent.append(rest)
            comparison.end(rest)

    def first(self, draw, lines, amount):
        """Returns the lines at the start of a piece: in some they fill the book, or its tokens."""
        if len(lines.habits.pool["agent"]) > drawing.MOST_AGENTS and draw.random() < 0.7:
            return lines.full_book()
        return lines.all_tokens() if amount == self.piece and draw.random() < 0.04 else ()

    def learn(self, lines, answers):
        """Takes the newest commit number and a generated id from answers."""
        for answer in answers:
            head = HEAD.match(answer)
            if head[3] and answer.endswith(b'"committed"}\n'):
                lines.newest = int(head[3])
                found = GENERATED.search(answer[:2000])
                if found:
                    lines.found.append(found[1].decode())

    @staticmethod
    def group(line):
        return None

    def fails(self, items):
        """Runs the check on these lines. Returns what is wrong, or None."""
        counts = collections.Counter()
        whole = [line for line in items if line.endswith(b"\n")]
        rest = b"".join(line for line in items[-1:] if not line.endswith(b"\n"))
        try:
            with Comparison(counts) as comparison:
                for begin in range(0, len(whole), CHUNK):
                    comparison.answers(whole[begin : begin + CHUNK])
                comparison.end(rest)
        except Wrong as wrong:
            return wrong.reason
        return None
