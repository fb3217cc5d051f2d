"""Random schedules, played and recorded by `regd schedule` and audited by `regd audit`."""
import json
import subprocess

from regdtools import schedules
from regdtools.long_runs import shrinking
from regdtools.schedules import Recorded, executable, text
from regdtools.wrong import Wrong

SECONDS = 120
# one schedule of this many starts from a book that is full of bundles
FULL_ONE_OF = 200
ON_FULL_BOOK = "W5 on a full book"


class Played(Recorded):
    """A schedule whose process ends with its `with` block. An answer that is no JSON object raises Wrong."""

    def __enter__(self):
        return self

    def __exit__(self, *_):
        if self.process.poll() is None:
            self.process.kill()
        self.process.communicate()

    def play(self, event):
        try:
            return super().play(event)
        except BrokenPipeError:
            raise Wrong(f"the program ended before {event}") from None
        except json.JSONDecodeError as error:
            raise Wrong(f"{event} has the answer {error.doc[:500]!r}") from None


def output(words, lines):
    """Runs the program on these bytes and returns what it prints, and its exit status."""
    ran = subprocess.run([executable(), *words, "--domain", "ex.org"], input=lines, capture_output=True, timeout=SECONDS)
    return ran.stdout, ran.returncode


def check_records(events, order):
    """Records the events again, and audits the records."""
    records, status = output(["schedule", "--record"], "".join(text(event) + "\n" for event in events).encode())
    recorded = [json.loads(line)["call"] for line in records.splitlines()]
    if status or recorded != order:
        raise Wrong(f"the records are of the calls {recorded}, the order is {order}, the status {status}")
    verdict, status = output(["audit"], records)
    if verdict != b'{"audit":"yes","calls":%d}\n' % len(order) or status:
        raise Wrong(f"the audit prints {verdict!r} with status {status}")


def check(run, order):
    """Checks the order of a schedule that has ended, its replies and its records."""
    schedules.check_order(run, order)
    schedules.check_replies(run, order)
    check_records(run.events, order)


class Replayed(schedules.Schedule):
    """A schedule of given events, which are all sent before the first answer is read."""

    def __init__(self, events):
        self.begin()
        self.events = events
        printed, status = output(["schedule"], "".join(text(event) + "\n" for event in events).encode())
        lines = printed.splitlines()
        if status or len(lines) != len(events) + 1:
            raise Wrong(f"{len(events)} events have {len(lines)} answers with the order, the status is {status}")
        for event, line in zip(events, lines):
            self.take(event, line)
        self.order = json.loads(lines[-1])["order"]


class LongSchedules:
    """Pieces of schedules. A schedule has its own number of events and of calls at a time."""

    name, unit, piece = "schedules", "schedules", 500
    expected = [*"committed answered refused repeated conflict E1 E2 E3 O1 O2 O3 O4 O5 O6 O7 O8 O9 W1".split(), ON_FULL_BOOK]
    enough = 5_000

    def run(self, draw, amount, counts):
        for _ in range(amount):
            with Played() as run:
                try:
                    self.draw_all(draw, run)
                    check(run, run.end())
                except Wrong as wrong:
                    raise Wrong(wrong.reason, run.events) from None
            is_full = len(run.events) > 1_000 and run.counts["W5"]
            counts.update({ON_FULL_BOOK: run.counts["W5"]} if is_full else {key: run.counts[key] for key in run.counts if key})
            counts["events"] += len(run.events)
            counts[self.unit] += 1

    def draw_all(self, draw, run):
        if draw.randrange(FULL_ONE_OF) == 0:
            schedules.fill(run)
        schedules.draw_events(draw, run, draw.choice([20, 60, 60, 60, 150]), draw.choice([2, 4, 6, 6, 12]))

    @staticmethod
    def simpler(event):
        """Yields smaller events. The keys of the event itself stay."""
        if "batch" in event:
            yield from ({**event, "batch": batch} for batch in shrinking.simpler(event["batch"]))
        yield from ({**event, "call": call} for call in shrinking.simpler_number(event["call"]))

    @staticmethod
    def group(event):
        return event["call"]

    @classmethod
    def weight(cls, event):
        return shrinking.weight_of(cls.bytes_of(event))

    @staticmethod
    def bytes_of(event):
        return text(event).encode() + b"\n"

    @staticmethod
    def item_of(line):
        return json.loads(line)

    def fails(self, events):
        """Plays these events. Returns what is wrong, or None."""
        try:
            run = Replayed(events)
            check(run, run.order)
        except Wrong as wrong:
            return wrong.reason
        except (KeyError, TypeError):
            return None  # no schedule: the search for a smaller one left out a key
        return None
