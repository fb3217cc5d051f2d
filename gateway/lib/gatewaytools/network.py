"""A network in user space between gateways and members of etcd, whose directions are cut and delayed one by one.

Each node has a port for what others send to it. A connection to that port is passed on to the node's real port, byte for byte, in both
directions. What a direction of two nodes does with bytes is a rule: it holds them while it is cut, as a network that loses everything and
a TCP that sends it again, and otherwise each is late by its delay. Who connects is found by the process that has the other end of the
connection. So the processes need no rights and no namespaces.
"""
import asyncio
import collections
import contextlib
import os
import pathlib
import socket
import threading
import time

CHUNK = 1 << 16
# what a direction holds before the sender has to wait
MOST_CHUNKS = 64


class Rule:
    """What happens to the bytes from one node to another."""

    def __init__(self):
        self.is_cut, self.delay = False, 0.0


class Network:
    """Nodes by their names. `processes` returns the number of the process of each name; it is asked again, since processes are replaced."""

    def __init__(self, processes):
        self.processes = processes
        self.rules = collections.defaultdict(Rule)
        self.loop = asyncio.new_event_loop()
        self.changed = asyncio.Event()
        self.servers, self.tasks = [], set()
        self.thread = threading.Thread(target=self.loop.run_forever, daemon=True)
        self.thread.start()

    def close(self):
        async def end():
            for server in self.servers:
                server.close()
            for task in [*self.tasks]:
                task.cancel()
            await asyncio.gather(*self.tasks, return_exceptions=True)
        asyncio.run_coroutine_threadsafe(end(), self.loop).result()
        self.loop.call_soon_threadsafe(self.loop.stop)
        self.thread.join()
        self.loop.close()

    def listen(self, name, port):
        """Returns the port that leads to this port of a node."""
        return asyncio.run_coroutine_threadsafe(self.open(name, port), self.loop).result()

    # ---- faults, from other threads

    def set(self, sources, targets, is_cut=None, delay=None):
        """Changes the rules for what these sources send to these targets."""
        def change():
            for source in sources:
                for target in targets:
                    rule = self.rules[source, target]
                    rule.is_cut = rule.is_cut if is_cut is None else is_cut
                    rule.delay = rule.delay if delay is None else delay
            self.changed.set()
            self.changed.clear()
        self.call(change)

    def heal(self):
        def change():
            self.rules.clear()
            self.changed.set()
            self.changed.clear()
        self.call(change)

    @contextlib.contextmanager
    def cut(self, *directions):
        """Cuts directions, given as pairs of lists of nodes, for a time."""
        for sources, targets in directions:
            self.set(sources, targets, is_cut=True)
        try:
            yield
        finally:
            for sources, targets in directions:
                self.set(sources, targets, is_cut=False)

    def call(self, change):
        async def run():
            change()
        asyncio.run_coroutine_threadsafe(run(), self.loop).result()

    # ---- connections, in the thread of the loop

    async def open(self, name, port):
        def accepted(reader, writer):
            self.spawn(self.pass_on(name, port, reader, writer))
        self.servers.append(await asyncio.start_server(accepted, "127.0.0.1", 0))
        return self.servers[-1].sockets[0].getsockname()[1]

    def spawn(self, work):
        """Starts work that ends with the network at the latest."""
        task = self.loop.create_task(work)
        self.tasks.add(task)
        task.add_done_callback(self.tasks.discard)
        return task

    async def pass_on(self, name, port, reader, writer):
        """Serves a connection to a node until both directions have ended."""
        mine, other = writer.get_extra_info("sockname")[1], writer.get_extra_info("peername")[1]
        source = self.source_of(other, mine)
        try:
            inner, outer = await asyncio.open_connection("127.0.0.1", port)
        except OSError:
            writer.close()
            return
        for one in (writer, outer):
            one.get_extra_info("socket").setsockopt(socket.IPPROTO_TCP, socket.TCP_NODELAY, 1)
        try:
            await asyncio.gather(self.pump(reader, outer, source, name), self.pump(inner, writer, name, source))
        finally:
            for one in (writer, outer):
                one.close()

    async def pump(self, reader, writer, source, target):
        """Passes on what a source sends to a target, and its end."""
        queue = asyncio.Queue(MOST_CHUNKS)

        async def read():
            with contextlib.suppress(OSError):
                while text := await reader.read(CHUNK):
                    await queue.put((time.monotonic(), text))
            await queue.put((time.monotonic(), b""))

        reading = self.spawn(read())
        try:
            text = b"x"
            while text:
                began, text = await queue.get()
                await self.carry(source, target, began)
                if text:
                    writer.write(text)
                    await writer.drain()
            if writer.can_write_eof():
                writer.write_eof()
        except (OSError, RuntimeError):  # the other side has gone
            writer.close()
        finally:
            reading.cancel()

    async def carry(self, source, target, began):
        """Waits until what was sent at a moment has arrived."""
        while True:
            rule = self.rules[source, target]
            if rule.is_cut:
                await self.changed.wait()
            elif (rest := began + rule.delay - time.monotonic()) > 0:
                await asyncio.sleep(rest)
            else:
                return

    def source_of(self, port, own):
        """Returns the name of the node that has connected from a port to one of the network's own."""
        inode = inode_of(port, own)
        return next((name for name, process in self.processes().items() if inode and has_socket(process, inode)), "")


def inode_of(port, other):
    """Returns the number of the socket with a port on this side and another one on the other side, or None."""
    for line in pathlib.Path("/proc/net/tcp").read_text().splitlines()[1:]:
        fields = line.split()
        if [int(fields[i].partition(":")[2], 16) for i in (1, 2)] == [port, other]:
            return fields[9]
    return None


def has_socket(process, inode):
    folder = f"/proc/{process}/fd"
    with contextlib.suppress(OSError):
        for name in os.listdir(folder):
            with contextlib.suppress(OSError):
                if os.readlink(f"{folder}/{name}") == f"socket:[{inode}]":
                    return True
    return False
