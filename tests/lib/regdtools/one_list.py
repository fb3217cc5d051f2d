"""Explains all replies of a server by one list of committed batches.

A Recorder stores the lines and the replies of each worker. A Transcript puts them into the order of the commit numbers and compares the
replies with those of `regd plain`.
"""

import array
import collections
import heapq
import re
import subprocess

from regdtools.program import program
from regdtools.wrong import Wrong

HEAD = re.compile(rb'\{"call":(\d+),(?:"code":"(\w\d)",(?:"detail":"[^"]*",)?(?:"op":\d+,)?)?"place":(\d+),')
KINDS = ["committed", "answered", "refused", "repeated", "conflict"]
TAILS = {f'"result":"{kind}"}}\n'.encode(): kind for kind in KINDS}
COMMITTED, ANSWERED, REFUSED, REPEATED, CONFLICT = range(5)


class Recorder:
    """Checks the replies of one worker as they arrive, and stores each line and its reply in a folder.

    `calls` is the number of the worker's last call, `place` the newest commit number that it reported. `unknown` is the number of lines
    sent since then whose replies were lost. `older` counts replies that are older than a commit number that the client knew.
    """

    def __init__(self, folder, worker):
        self.folder, self.worker = folder, worker
        self.requests = open(folder / f"requests.{worker}", "wb")
        self.replies = open(folder / f"replies.{worker}", "wb")
        # for each reply: eight times its commit number, plus its kind
        self.kinds = array.array("Q")
        self.calls, self.unknown, self.place, self.older = 0, 0, 0, 0

    def take(self, lines, replies, newest=0):
        """Takes lines and their replies. `newest` is the largest commit number that the client knew when it sent them."""
        for reply in replies:
            self._take(reply, newest)
        self.requests.writelines(lines)
        self.replies.writelines(replies)

    def _take(self, reply, newest):
        head = HEAD.match(reply)
        tail = TAILS.get(reply[reply.rfind(b',"result"') + 1 :])
        if not head or not tail:
            raise Wrong(f"worker {self.worker}: unexpected reply {reply!r}")
        call, place, kind = int(head[1]), int(head[3]), KINDS.index(tail)
        if not self.calls < call <= self.calls + 1 + self.unknown:
            raise Wrong(f"worker {self.worker}: call {call} after call {self.calls} and {self.unknown} lines whose replies were lost")
        self.calls, self.unknown = call, 0
        if kind != REPEATED:
            if place < self.place or kind in (COMMITTED, CONFLICT) and place == self.place:
                raise Wrong(f"worker {self.worker}: {reply!r} after commit number {self.place}")
            self.older += place < newest
            self.place = place
        self.kinds.append(place * 8 + kind)

    def close(self):
        """Stores what isn't stored yet."""
        self.requests.close()
        self.replies.close()
        (self.folder / f"kinds.{self.worker}").write_bytes(self.kinds.tobytes())


class Transcript:
    """All lines and replies that the recorders of a server's workers stored in a folder."""

    def __init__(self, folder, workers):
        self.folder, self.workers = folder, workers
        self.kinds = [array.array("Q", (folder / f"kinds.{worker}").read_bytes()) for worker in range(workers)]
        self.counts = collections.Counter(code % 8 for kinds in self.kinds for code in kinds)
        self.committed = sorted(code // 8 for kinds in self.kinds for code in kinds if code % 8 == COMMITTED)

    def lines(self, worker):
        """Yields the lines of a worker without the conflicts: the commit number, 0 for the batch that committed with it and 1 for any
        other, the kind, the line, the reply."""
        seen = set(self.committed)
        with open(self.folder / f"requests.{worker}", "rb") as requests, open(self.folder / f"replies.{worker}", "rb") as replies:
            for code, request, reply in zip(self.kinds[worker], requests, replies, strict=True):
                place, kind = divmod(code, 8)
                if kind != CONFLICT:
                    is_item = kind == COMMITTED or kind == REPEATED and place not in seen
                    yield place, 0 if is_item else 1, kind, request, reply

    def in_order(self):
        """Returns all lines in the order of the list. A repeat represents its batch if the first reply was lost."""
        repeats = []
        streams = [self.without_repeats(worker, repeats) for worker in range(self.workers)]
        # a first pass over the streams collects the repeats
        for stream in streams:
            collections.deque(stream, maxlen=0)
        repeats.sort(key=lambda it: it[:2])
        return heapq.merge(repeats, *(self.without_repeats(worker, []) for worker in range(self.workers)), key=lambda it: it[:2])

    def without_repeats(self, worker, repeats):
        for it in self.lines(worker):
            if it[2] == REPEATED:
                repeats.append(it)
            else:
                yield it

    def check(self):
        """Compares all replies with those of the reference implementation. Returns how many replies and committed batches there are."""
        ordered, expected = self.folder / "ordered", self.folder / "expected"
        place = count = 0
        with open(ordered, "wb") as lines, open(expected, "wb") as replies:
            for at, rank, kind, request, reply in self.in_order():
                if rank == 0 and at == place and kind == REPEATED:
                    rank = 1
                if rank == 0:
                    if at != place + 1:
                        raise Wrong(f"commit number {at} follows commit number {place}")
                    place = at
                    reply = reply.replace(b'"result":"repeated"}\n', b'"result":"committed"}\n')
                if at != place:
                    raise Wrong(f"no batch has the commit number of {reply!r}")
                lines.write(request)
                replies.write(reply)
                count += 1
        self.compare(ordered, expected)
        return count, place

    def compare(self, ordered, expected):
        with open(ordered, "rb") as lines, open(expected, "rb") as replies, open(ordered, "rb") as given:
            plain = subprocess.Popen([program(), "plain", "--domain", "ex.org"], stdin=given, stdout=subprocess.PIPE)
            try:
                for line, reply, got in zip(lines, replies, plain.stdout, strict=True):
                    if reply.partition(b",")[2] != got.partition(b",")[2]:
                        raise Wrong(f"the server answers {line!r} by {reply!r}, regd plain by {got!r}")
            except ValueError:
                raise Wrong("regd plain prints another number of replies") from None
            finally:
                plain.kill()
                plain.wait()
