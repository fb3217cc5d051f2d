#!/usr/bin/env python3
"""A client for `regd serve` that uses Python's standard library only.

    examples/client.py HOST:PORT

Demonstrates the class `Client` on a server of the trust domain ex.org. The server needs at least two workers, because the demonstration
keeps two connections open at a time. It opens three in all.
"""
import contextlib
import json
import random
import socket
import sys
import threading
import time
import uuid

ATTEMPTS = 30
# out of memory, and a client handle that was not admitted: the same line may succeed the next time
TRANSIENT = {"L6", "L8"}


class Refused(Exception):
    """A refused request: the `code`, and the whole `answer`."""

    def __init__(self, answer):
        super().__init__(json.dumps(answer))
        self.answer = answer
        self.code = answer.get("code", "conflict")


class Client:
    """One client of a server. It opens its connection when it needs one, and again after the connection is lost.

    `place` is the highest commit number that the client has seen. No answer that it gets is older. So it reads its own writes, on any
    connection, and after `follow` also those of another client. Use a client from one thread only.
    """

    def __init__(self, host, port, timeout=10.0):
        self.address, self.timeout = (host, port), timeout
        self.place = 0
        self.stream = None

    def __enter__(self):
        return self

    def __exit__(self, *_):
        self.close()

    def close(self):
        """Closes the connection, which frees its worker for the next one. The client can be used again."""
        stream, self.stream = self.stream, None
        if stream:
            with contextlib.suppress(OSError):  # the connection was lost before everything was sent
                stream.close()

    def follow(self, other):
        """From now on, no answer to this client is older than what the other client has seen."""
        self.place = max(self.place, other.place)

    def ask(self, *ops):
        """Returns the replies to read-only operations, all from one book."""
        return self._answer({"ops": ops})

    def change(self, *ops, token=None):
        """Applies changes exactly once, all or none of them, and returns their replies.

        The batch carries a token, a new one by default. So the line can be sent again after its answer was lost: if it was committed, the
        server returns the original replies. For the same reason each create gets its id here."""
        ops = [{"id": str(uuid.uuid4()), **op} if op["op"] == "create" else op for op in ops]
        return self._answer({"ops": ops, "token": token or str(uuid.uuid4()), "tries": 16})

    def edit(self, id, alter):
        """Replaces an entry by `alter(entry)` and returns its new state. If another client was faster, calls `alter` again with the
        current entry, so that no update is lost."""
        for _ in range(ATTEMPTS):
            [shown] = self.ask({"op": "show", "id": id})
            if shown["entry"] is None:
                raise KeyError(id)
            try:
                [updated] = self.change({**alter(dict(shown["entry"])), "op": "update", "id": id})
                return updated["entry"]
            except Refused as refused:
                if refused.code != "O4":
                    raise
        raise refused_often(id)

    def entries(self, size=100, **filter):
        """Yields all entries that pass a filter, in the order of ids, from one book, even if other clients change entries meanwhile."""
        page = {"op": "page", "size": size, **filter}
        [reply] = self.ask(page)
        page["at"] = self.place
        yield from reply["entries"]
        while reply["next"]:
            [reply] = self.ask({**page, "from": reply["next"]})
            yield from reply["entries"]

    def _answer(self, request):
        """Sends a request until its answer is final, and returns the replies."""
        for attempt in range(ATTEMPTS):
            if attempt:
                time.sleep(random.uniform(0, min(1.0, 0.002 * 2**attempt)))
            try:
                answer = self._exchange({**request, "after": self.place})
            except OSError as lost:
                self.close()
                fault = lost
                continue
            if "replies" in answer:
                self.place = max(self.place, answer["place"])
                return answer["replies"]
            fault = Refused(answer)
            is_early = answer.get("code") == "W1"
            if not (is_early or answer.get("result") == "conflict" or answer.get("code") in TRANSIENT):
                break
        raise fault

    def _exchange(self, request):
        """Sends one line and returns the answer to it."""
        if self.stream is None:
            connection = socket.create_connection(self.address, self.timeout)
            # otherwise a line sent shortly after another may wait for the acknowledgement of the first
            connection.setsockopt(socket.IPPROTO_TCP, socket.TCP_NODELAY, 1)
            with connection:
                self.stream = connection.makefile("rwb")
        self.stream.write(json.dumps(request, separators=(",", ":")).encode() + b"\n")
        self.stream.flush()
        line = self.stream.readline()
        if not line.endswith(b"\n"):
            raise ConnectionError("the connection ended before the answer did")
        return json.loads(line)


def refused_often(id):
    return RuntimeError(f"{id} was changed by others {ATTEMPTS} times in a row")


# ---- demonstration

AGENT = "spiffe://ex.org/spire/agent/shown"
WEB, API = "00000000-0000-4000-8000-000000000001", "00000000-0000-4000-8000-000000000002"


def one_more(entry):
    """Returns the entry with the number in its hint increased by one."""
    return {**entry, "hint": str(int(entry["hint"] or 0) + 1)}


def count_twenty(client, id):
    for _ in range(20):
        client.edit(id, one_more)


def count_together(first, second, id):
    """Lets both clients count at the same time, each in its own thread."""
    other = threading.Thread(target=count_twenty, args=(second, id))
    other.start()
    count_twenty(first, id)
    other.join()


def main(words):
    host, port = words[0].rsplit(":", 1)
    with Client(host, int(port)) as operator, Client(host, int(port)) as agent:
        operator.change({"op": "set_agent", "agent": AGENT, "selectors": ["x:1"]})
        web = {"op": "create", "parent": AGENT, "identity": "spiffe://ex.org/web", "selectors": ["unix:uid:1000"]}
        api = {"op": "create", "parent": AGENT, "identity": "spiffe://ex.org/api", "selectors": ["unix:uid:1001"]}
        operator.change({**web, "id": WEB}, {**api, "id": API})

        # another connection and another worker: the agent sees what the operator committed
        agent.follow(operator)
        [served] = agent.ask({"op": "authorised", "agent": AGENT})
        print("served:", *(entry["identity"] for entry in served["entries"]))

        # the connection is lost before the answer is read, and the line is sent again on the next one: it is executed once
        token, bundle = str(uuid.uuid4()), {"op": "set_bundle", "domain": "b.org", "text": "{}"}
        first = operator.change(bundle, token=token)
        operator.close()
        print("sent twice, the same replies:", operator.change(bundle, token=token) == first)

        # two clients update one entry at the same time, and no update is lost
        count_together(operator, agent, WEB)
        agent.follow(operator)
        [shown] = agent.ask({"op": "show", "id": WEB})
        print("counted:", shown["entry"]["hint"])
        print("entries:", *(entry["identity"] for entry in agent.entries(size=1, parent=AGENT)))

        try:
            operator.change(web)
        except Refused as refused:
            print("refused:", refused.code)


if __name__ == "__main__":
    if len(sys.argv) != 2:
        sys.exit(__doc__)
    main(sys.argv[1:])
