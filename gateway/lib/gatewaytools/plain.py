"""Runs `regd plain` as the reference, and keeps tokens as the gateway does."""
import subprocess
import threading

from gatewaytools import logs, rules

CHUNK = 256


def tail(reply):
    """Returns the part of a reply that does not depend on the connection."""
    if reply.startswith(b'{"call":'):
        return reply.split(b",", 1)[1]
    return reply.split(b',"line":')[0]


def place_of(reply):
    """Returns the commit number in a reply, or None."""
    _, found, rest = reply.partition(b'"place":')
    return int(rest[: len(rest) - len(rest.lstrip(b"0123456789"))]) if found else None


class Plain:
    """A running `regd plain`. A refusal has the number of the line in this process, and not in the log."""

    def __init__(self, program, domain):
        words = [program, "plain", "--domain", domain]
        self.process = subprocess.Popen(words, stdin=subprocess.PIPE, stdout=subprocess.PIPE)

    def __enter__(self):
        return self

    def __exit__(self, *_):
        self.process.stdin.close()
        self.process.stdout.close()
        self.process.wait()

    def run(self, lines):
        """Returns the replies to some lines."""
        data = b"".join(line + b"\n" for line in lines)
        writer = threading.Thread(target=self._write, args=(data,))
        writer.start()
        replies = [self.process.stdout.readline().removesuffix(b"\n") for _ in lines]
        writer.join()
        if replies and not replies[-1]:
            raise RuntimeError("regd plain ended")
        return replies

    def _write(self, data):
        self.process.stdin.write(data)
        self.process.stdin.flush()


# an entry that says nothing of tokens, for lines that are in no log
NO_ENTRY = logs.Entry(1, "", "", 0, [], [])


class Reference:
    """Executes lines as a correct gateway does: tokens are kept here, by the times of the log, and regd gets the lines without them."""

    def __init__(self, plain, snapshot=None):
        self.plain, self.place = plain, snapshot.place if snapshot else 0
        # the operations, the reply and the time of each; operations are not known after a snapshot
        self.kept = {token: (None, reply, time) for token, reply, time in (snapshot.tokens if snapshot else ())}
        self.bytes = sum(map(self._size, self.kept.values()))
        self.is_filling, self.is_full = (snapshot.is_filling, snapshot.is_full) if snapshot else (False, False)
        self.waiting, self.entry = [], NO_ENTRY

    def run(self, lines, entries=None, numbers=None):
        """Yields the reply to each line, without the numbers of calls and lines. `entries` has the entry of each line, and `numbers` its number there,
        from 1."""
        begun = set()
        for at, line in enumerate(lines):
            entry = entries[at] if entries else NO_ENTRY
            if entry is not self.entry:
                yield from self._flush()
                begun = set()
                self._begin(entry)
            token, is_added = rules.token_of(line), bool(numbers) and numbers[at] - 1 in entry.added
            if token in begun or token in self.kept or token is not None and self.is_full or len(self.waiting) >= CHUNK:
                yield from self._flush()
                begun = set()
            if token in self.kept:
                yield self._again(token, line, is_added)
            elif token is not None and self.is_full:
                yield b'{"code":"G5"'
            elif token is None:
                self.waiting.append((None, None, line))
            else:
                begun.add(token)
                self.waiting.append((token, self._operations(line, is_added), rules.with_member(line, b'"token":null')))
        yield from self._flush()

    @staticmethod
    def _operations(line, is_added):
        """Returns the operations that are compared. Revisions that a gateway has added are not."""
        return [{key: value for key, value in op.items() if not (is_added and key == "revision")} for op in rules.operations(line)]

    @staticmethod
    def _size(kept):
        return rules.TOKEN_OWN_BYTES + len(kept[1])

    def _begin(self, entry):
        """Forgets what an entry lets be forgotten, and counts the rest if it is time for that."""
        self.entry = entry
        oldest = entry.time - (entry.keep or rules.TOKEN_TIME)
        while self.kept and self.kept[token := next(iter(self.kept))][2] < oldest:
            self.bytes -= self._size(self.kept.pop(token))
        if self.is_filling or entry.number % rules.COUNT_INTERVAL == 0:
            room = entry.room or rules.TOKEN_ROOM
            self.is_filling, self.is_full = 2 * self.bytes >= room, self.bytes >= room

    def _flush(self):
        waiting, self.waiting = self.waiting, []
        for (token, ops, _), reply in zip(waiting, self.plain.run([line for _, _, line in waiting])):
            rest = tail(reply)
            if rest.endswith(b'"committed"}'):
                self.place = place_of(reply)
                if token is not None:
                    self.kept[token] = (ops, rest, self.entry.time)
                    self.bytes += self._size(self.kept[token])
            yield rest

    def _again(self, token, line, is_added):
        probe = rules.with_member(line, b'"token":null,"after":18446744073709551615')
        [reply] = self.plain.run([probe])
        ops, first, _ = self.kept[token]
        if b'"code":"W1"' not in reply[:40]:
            return tail(reply)
        if (rules.batch_of(line).get("after") or 0) > self.place:
            return b'"code":"W1","place":%d,"result":"refused"}' % self.place
        if ops is not None and ops != self._operations(line, is_added):
            return b'"code":"O9","place":%d,"result":"refused"}' % self.place
        return first.removesuffix(b'committed"}') + b'repeated"}'
