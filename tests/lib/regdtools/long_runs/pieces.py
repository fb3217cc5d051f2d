"""Runs the pieces of a long run in several processes, and prints the progress.

A piece has a number. Its random source is seeded by the run's seed, the kind and this number, so a piece can be run again alone.
"""
import collections
import multiprocessing
import os
import queue
import random
import signal
import sys
import time
import traceback

from regdtools.wrong import Wrong

EVERY = 10.0


# what a piece found: its number, the counts, and the reason and the items of its failure, if it failed
Found = collections.namedtuple("Found", "piece counts reason items")
# how a run ended: the sum of the counts, the number of pieces that ended, the seconds, and the first failure or None
Ended = collections.namedtuple("Ended", "counts pieces seconds failure")


def drawn(seed, kind, piece):
    """Returns the random source of a piece."""
    return random.Random(f"{seed} {kind} {piece}")


def run_piece(kind, seed, piece, amount):
    """Runs a piece and returns what it found."""
    counts = collections.Counter()
    try:
        kind.run(drawn(seed, kind.name, piece), amount, counts)
    except Wrong as wrong:
        return Found(piece, counts, wrong.reason, wrong.items)
    except Exception:
        return Found(piece, counts, traceback.format_exc(), None)
    return Found(piece, counts, None, None)


def work(kind, seed, amounts, following, is_over, found):
    """Runs the next piece again and again, in a process of its own."""
    signal.signal(signal.SIGINT, signal.SIG_IGN)
    signal.signal(signal.SIGTERM, lambda *_: (found.cancel_join_thread(), sys.exit(143)))  # ends what the piece started
    while not is_over.is_set():
        with following.get_lock():
            piece = following.value
            following.value += 1
        amount = amounts(piece)
        if not amount:
            break
        found.put(run_piece(kind, seed, piece, amount))
    found.put(None)


class Progress:
    """Prints to standard error how far a run is, at most every ten seconds."""

    def __init__(self, unit, total):
        self.unit, self.total = unit, total
        self.begin = self.last = time.monotonic()

    def note(self, text):
        """Prints a text unless something was printed less than ten seconds ago."""
        if time.monotonic() - self.last >= EVERY:
            self.last = time.monotonic()
            print(text, file=sys.stderr, flush=True)

    def show(self, done, pieces):
        seconds = time.monotonic() - self.begin
        part = min(1.0, done / self.total)
        left = f", about {seconds * (1 / part - 1) / 60:.0f} min left" if part else ""
        self.note(f"{done:,} of {self.total:,} {self.unit}, {pieces} pieces, {done / seconds:,.0f} a second{left}")


def run(kind, seed, amounts, total, jobs):
    """Runs pieces until `amounts(number)` is 0, or until one fails."""
    context = multiprocessing.get_context("fork")
    following, is_over, found = context.Value("Q", 0), context.Event(), context.Queue()
    workers = [context.Process(target=work, args=(kind, seed, amounts, following, is_over, found)) for _ in range(jobs)]
    progress, counts, pieces, failure = Progress(kind.unit, total), collections.Counter(), 0, None
    for worker in workers:
        worker.start()
    try:
        ended = 0
        while ended < jobs:
            try:
                one = found.get(timeout=1)
            except queue.Empty:
                lost = [worker.exitcode for worker in workers if worker.exitcode]
                if lost:
                    raise RuntimeError(f"a process of a piece ended with status {lost[0]}") from None
                continue
            finally:
                progress.show(counts[kind.unit], pieces)
            if one is None:
                ended += 1
                continue
            counts.update(one.counts)
            pieces += 1
            if one.reason and not failure:
                failure = one
                is_over.set()
    finally:
        for worker in workers:
            if worker.is_alive() and ended < jobs:
                os.kill(worker.pid, signal.SIGTERM)
        for worker in workers:
            worker.join()
    return Ended(counts, pieces, time.monotonic() - progress.begin, failure)
