"""Mixed requests over several connections of `regd serve`, whose replies have to be explained by one list of committed batches."""
import collections
import json
import pathlib
import select
import socket
import struct
import tempfile
import time
import uuid

from regdtools import one_list
from regdtools.long_runs import drawing, shrinking
from regdtools.malformed import parsing
from regdtools.mixed_requests import Pool, changes, line_of
from regdtools.server import Server
from regdtools.wrong import Wrong

SECONDS = 120.0
MOST_BYTES = 4_000
LOST = "changes whose reply was lost"


class Item:
    """A line, with the round and the worker of its connection. Lines of one window are sent together. The reply to a lost line isn't read."""

    def __init__(self, round, worker, window, line, lost=False):
        self.round, self.worker, self.window, self.line, self.lost = round, worker, window, line, lost

    def with_values(self, **values):
        return Item(**{**vars(self), **values})


class Drawn:
    """Draws the windows of a piece, connection after connection, and stores their lines."""

    def __init__(self, draw, amount):
        self.draw, self.amount = draw, amount
        self.workers, self.rounds = draw.choice([2, 3, 4, 8]), draw.choice([1, 3, 10])
        self.queries, self.depth = draw.choice([0.1, 0.5, 0.9]), draw.choice([1, 4, 16, 64])
        self.malformed = draw.choice([0, 0.01])
        self.pool = Pool(draw.random(), draw.choice([20, 300]))
        self.bad = drawing.Lines(draw, "small")
        self.bad.habits.damage, self.bad.habits.wrong = 60, 0.5
        self.newest, self.items, self.left, self.windows = 0, [], 0, 0

    def begin_round(self, round):
        """Sets how many lines the connections of a round share."""
        self.left += self.amount // self.rounds + (self.amount % self.rounds if round == 0 else 0)

    def window(self, round, worker):
        """Returns the lines that a connection sends next, none at its end."""
        lines, self.windows = [], self.windows + 1
        if not self.items:
            lines = list(self.pool.first)
        elif self.left:
            lines = [self.line() for _ in range(min(self.left, self.draw.randint(1, self.depth)))]
            self.left -= len(lines)
        self.items += [Item(round, worker, self.windows, line) for line in lines]
        return lines

    def line(self):
        if self.draw.random() < self.malformed:
            line = self.bad.line()
            if len(line) <= MOST_BYTES and refusal_of(line):
                return line
        return self.pool.line(self.draw, self.newest, len(self.items) < self.amount // 10, self.queries)

    def lost(self, round, worker):
        """Returns a change whose reply the connection doesn't read, or None. The next connection of the worker sends it again."""
        if round + 1 == self.rounds or self.draw.random() < 0.7:
            return None
        line = line_of(*changes(self.draw), token=str(uuid.UUID(int=self.draw.getrandbits(128))))
        self.items.append(Item(round, worker, self.windows, line, True))
        return line


class Repeated:
    """Takes the windows from the items of an earlier run."""

    def __init__(self, items):
        self.workers, self.rounds = 1 + max(it.worker for it in items), 1 + max(it.round for it in items)
        self.windows, self.losses, self.newest = {}, {}, 0
        if any(it.lost for it in items):
            self.rounds += 1
        for it in items:
            if it.lost:
                self.losses[it.round, it.worker] = it.line
            else:
                self.windows.setdefault((it.round, it.worker), {}).setdefault(it.window, []).append(it.line)

    def begin_round(self, round):
        pass

    def window(self, round, worker):
        rest = self.windows.get((round, worker))
        return rest.pop(next(iter(rest))) if rest else []

    def lost(self, round, worker):
        return self.losses.get((round, worker))


def refusal_of(line):
    """Returns why a line is no request, or None."""
    try:
        parsing.read_request(line)
    except parsing.Refused as refused:
        return refused
    return None


class Connection:
    """A connection to a worker. `numbers` counts its lines."""

    def __init__(self, server, recorder):
        self.recorder, self.numbers, self.sent, self.known = recorder, 0, [], 0
        self.socket = server.connect(SECONDS)
        self.stream = self.socket.makefile("rb")

    def fileno(self):
        return self.socket.fileno()

    def send(self, lines, newest):
        """Sends lines in one write. `newest` is the largest commit number that any connection has seen."""
        self.sent, self.known = lines, newest
        self.socket.sendall(b"".join(lines))

    def take(self):
        """Reads and checks the replies to the lines that were sent. Refusals don't belong to the list of batches."""
        lines, replies = [], []
        for line in self.sent:
            reply = self.stream.readline()
            self.numbers += 1
            if not reply.startswith(b'{"code":'):
                lines.append(line)
                replies.append(reply)
                continue
            refused = refusal_of(line)
            if not refused or reply != refused.line(self.numbers).encode() + b"\n":
                raise Wrong(f"the server answers {line!r} by {reply!r}")
        self.recorder.take(lines, replies, self.known)
        self.sent = []

    def reset(self):
        self.socket.setsockopt(socket.SOL_SOCKET, socket.SO_LINGER, struct.pack("ii", 1, 0))
        self.close()

    def close(self):
        self.stream.close()
        self.socket.close()


def talk(connections, source, round):
    """Sends the windows of a round; every connection with something to send waits for its replies at the same time."""
    idle, busy = list(enumerate(connections)), {}
    while idle or busy:
        for worker, connection in idle:
            lines = source.window(round, worker)
            if lines:
                connection.send(lines, source.newest)
                busy[connection] = worker
        idle = []
        for connection in select.select(list(busy), [], [], SECONDS)[0] if busy else []:
            connection.take()
            source.newest = max(source.newest, connection.recorder.place)
            idle.append((busy.pop(connection), connection))
        if busy and not idle:
            raise Wrong(f"no reply within {SECONDS:.0f} seconds")


def play(source, folder, counts):
    """Runs a server and its connections, and stores and checks the replies."""
    recorders = [one_list.Recorder(folder, worker) for worker in range(source.workers)]
    resent = [[] for _ in recorders]
    with Server(source.workers, source.workers * source.rounds) as server:
        for round in range(source.rounds):
            connections = [Connection(server, recorder) for recorder in recorders]
            for connection, lines in zip(connections, resent):
                connection.send(lines, source.newest)
                connection.take()
                lines.clear()
            source.begin_round(round)
            talk(connections, source, round)
            for worker, connection in enumerate(connections):
                line = source.lost(round, worker)
                if line:
                    counts[LOST] += 1
                    recorders[worker].unknown += 1
                    connection.send([line], source.newest)
                    time.sleep(0.001)
                    resent[worker].append(line)
                    connection.reset()
                else:
                    connection.close()
        if server.end(SECONDS) != 0:
            raise Wrong(f"the server ended with status {server.process.returncode}")
    for recorder in recorders:
        recorder.close()
    counts["replies older than a commit number that was known"] += sum(recorder.older for recorder in recorders)
    return one_list.Transcript(folder, source.workers)


def check(source, counts):
    """Plays and explains the replies. Raises Wrong."""
    memory = pathlib.Path("/dev/shm")
    with tempfile.TemporaryDirectory(dir=memory if memory.is_dir() else None) as folder:
        try:
            transcript = play(source, pathlib.Path(folder), counts)
        except (OSError, RuntimeError) as error:
            raise Wrong(f"{type(error).__name__}: {error}") from None
        counts.update({one_list.KINDS[kind]: count for kind, count in transcript.counts.items()})
        transcript.check()


class LongServe:
    """Pieces of requests. Each piece has a server, and one list that explains all its replies."""

    name, unit, piece = "serve", "requests", 25_000
    expected = [*one_list.KINDS, LOST]
    enough = 1_000_000
    # how often a smaller input is played, since a failure may depend on the order of the threads
    attempts = 5

    def run(self, draw, amount, counts):
        source = Drawn(draw, amount)
        try:
            check(source, counts)
        except Wrong as wrong:
            raise Wrong(wrong.reason, source.items) from None
        counts[self.unit] += amount

    def fails(self, items):
        """Plays these lines a few times. Returns what is wrong, or None."""
        for _ in range(self.attempts):
            try:
                check(Repeated(items), collections.Counter())
            except Wrong as wrong:
                return wrong.reason
        return None

    @staticmethod
    def simpler(item):
        yield from (item.with_values(worker=number) for number in shrinking.simpler_number(item.worker))
        yield from (item.with_values(round=number) for number in shrinking.simpler_number(item.round))
        yield from (item.with_values(line=line) for line in shrinking.simpler_line(item.line))

    @staticmethod
    def group(item):
        return item.round, item.worker, item.window

    @classmethod
    def weight(cls, item):
        return shrinking.weight_of(cls.bytes_of(item))

    @staticmethod
    def bytes_of(item):
        values = {**vars(item), "line": item.line.decode("utf-8", "surrogateescape")}
        return json.dumps(values, separators=(",", ":")).encode() + b"\n"

    @staticmethod
    def item_of(line):
        values = json.loads(line)
        return Item(**{**values, "line": values["line"].encode("utf-8", "surrogateescape")})
