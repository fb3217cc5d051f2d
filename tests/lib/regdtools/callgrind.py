"""Counts the instructions of a running program for each chain of calls (callgrind of valgrind), and samples its functions (perf).

Callgrind counts exactly, whatever else the machine does, but an instruction isn't a time: it knows neither the processor's caches nor the
price of an atomic operation. Perf knows the time of a function, but not who called it. `shares` combines the two.
"""

import collections
import dataclasses
import os
import pathlib
import re
import signal
import subprocess

# an apostrophe separates the functions of a chain; one within < > belongs to the name of a function
CALLERS, DEPTH = re.compile(r"'(?![^<]*>)"), 60
# what callgrind and perf call differently, or what the C library has in a version for each processor
ALIASES = [(r"__mem(cpy|move|pcpy)_.*", "memcpy"), (r"__memset_.*", "memset"), (r"(c|__libc_)?free(@.*)?", "free")]
ALIASES += [(r"(unlink_chunk|sysmalloc).*|malloc_consolidate", "_int_malloc")]
ALLOCATING, FREEING = {"malloc", "calloc", "realloc"}, {"free"}
# how an atomic instruction of the program changes a reference count
COUNTING = {"dec": "decrements", "inc": "increments", "cmpxchg": "increments", "xadd": "increments"}


@dataclasses.dataclass
class Cost:
    """What the innermost function of a chain did itself, and how often it was called.

    `atomics` counts atomic instructions: `increments` and `decrements` in the program, and `others`, most of them in the allocator.
    `misses` are the accesses to memory that was not in the simulated first cache; they are counted only if callgrind simulates one.
    """

    instructions: int = 0
    misses: int = 0
    calls: int = 0
    atomics: collections.Counter = dataclasses.field(default_factory=collections.Counter)

    def add(self, other):
        self.instructions += other.instructions
        self.misses += other.misses
        self.calls += other.calls
        self.atomics.update(other.atomics)


def alias(function):
    return next((name for pattern, name in ALIASES if re.fullmatch(pattern, function)), function)


def merge(all_costs, costs):
    """Adds the costs of chains to those of `all_costs`."""
    for chain, cost in costs.items():
        all_costs.setdefault(chain, Cost()).add(cost)


# ---- callgrind


class Callgrind:
    """A program that runs under callgrind, which writes its files into a folder. Counting begins with `start`."""

    def __init__(self, program, folder):
        self.program, self.folder = pathlib.Path(program).resolve(), pathlib.Path(folder)
        listing = subprocess.run(["objdump", "-d", "--no-show-raw-insn", self.program], capture_output=True, text=True, check=True).stdout
        found = re.findall(r"^ *([0-9a-f]+):\s+lock (dec|inc|cmpxchg|xadd)", listing, re.MULTILINE)
        self.counting = {int(address, 16): COUNTING[name] for address, name in found}

    def words(self):
        """Returns the words that start the program."""
        options = ["--instr-atstart=no", f"--separate-callers={DEPTH}", "--collect-bus=yes", "--cache-sim=yes", "--dump-instr=yes"]
        return ["valgrind", "-q", "--tool=callgrind", *options, f"--callgrind-out-file={self.folder}/callgrind", str(self.program)]

    def start(self, pid):
        """Begins to count, with empty simulated caches."""
        self.pid = pid
        self._control("--instr=on")

    def costs(self, job):
        """Calls `job` and returns the costs of the chains meanwhile. A chain is a tuple of functions, the innermost first."""
        self._control("--zero")
        job()
        self._control("--dump")
        (path,) = self.folder.glob("callgrind.*")
        costs = self._read(path.read_text())
        path.unlink()
        return costs

    def _control(self, word):
        words = ["callgrind_control", word, str(self.pid)]
        subprocess.run(words, check=True, stdout=subprocess.DEVNULL, stderr=subprocess.DEVNULL, cwd=self.folder)

    def _read(self, text):
        names, costs = {}, {}

        def name_of(kind, text):
            # written once as `(NUMBER) NAME`, later as `(NUMBER)`
            number, _, name = text.partition(" ")
            if name:
                names[kind, number] = name
            return names[kind, number]

        def cost_of(name):
            # a number is the depth of a recursion
            return costs.setdefault(tuple(part for part in CALLERS.split(name) if not part.isdigit()), Cost())

        events, positions, cost, called, address, in_program = [], 2, None, None, 0, False
        for line in text.splitlines():
            key, _, rest = line.partition("=")
            if key == "ob":
                in_program = name_of("ob", rest) == str(self.program)
            elif key == "cob":
                name_of("ob", rest)
            elif key == "fn":
                cost = cost_of(name_of("fn", rest))
            elif key == "cfn":
                called = cost_of(name_of("fn", rest))
            elif key == "calls":
                called.calls += int(rest.split()[0])
            elif line.startswith("events:"):
                events = line.split()[1:]
            elif line.startswith("positions:"):
                positions = len(line.split()) - 1
            elif line[:1] and line[0] in "0123456789+-*":
                fields = line.split()
                place, numbers = fields[0], map(int, fields[positions:])
                address = address if place == "*" else int(place, 0) + (address if place[0] in "+-" else 0)
                if called is None:
                    found = dict(zip(events, numbers))
                    cost.instructions += found.get("Ir", 0)
                    cost.misses += found.get("D1mr", 0) + found.get("D1mw", 0)
                    cost.atomics[self.counting.get(address, "others") if in_program else "others"] += found.get("Ge", 0)
                # otherwise these are the costs of the function called at this address, which has them itself
                called = None
        return costs


# ---- perf


class Perf:
    """Samples the functions of a process every 100 microseconds, from a job until it is to rest. Leaving its `with` block ends it."""

    def __init__(self, pid, folder):
        self.path = pathlib.Path(folder) / "perf"
        self.words = ["perf", "record", "-q", "-e", "cpu-clock", "-c", "100000", "-p", str(pid), "-o", self.path, "--delay=-1"]

    def __enter__(self):
        (orders, self.orders), (self.answers, answers) = os.pipe(), os.pipe()
        words = [*self.words, f"--control=fd:{orders},{answers}"]
        self.process = subprocess.Popen(words, stderr=subprocess.DEVNULL, pass_fds=[orders, answers])
        os.close(orders)
        os.close(answers)
        self.at_work = False
        return self

    def __exit__(self, *_):
        self.process.send_signal(signal.SIGINT)
        self.process.wait()
        os.close(self.orders)
        os.close(self.answers)

    def time(self, job):
        """Samples, and calls `job`."""
        self._turn(True)
        job()

    def rest(self):
        """Doesn't sample until the next job. This takes some milliseconds."""
        self._turn(False)

    def _turn(self, at_work):
        if at_work != self.at_work:
            os.write(self.orders, b"enable\n" if at_work else b"disable\n")
            os.read(self.answers, 5)  # `ack` and LF
        self.at_work = at_work

    def samples(self):
        """Returns how many samples each function has, once the block is left. The kernel counts as one function."""
        words = ["perf", "report", "-i", self.path, "--stdio", "-n", "--sort", "symbol", "-t", "|"]
        report = subprocess.run(words, capture_output=True, text=True, check=True).stdout
        self.path.unlink()
        samples = collections.Counter()
        for line in report.splitlines():
            _, many, symbol, *_ = [*line.split("|"), "", "", ""]
            if many.strip().isdigit():
                where, _, name = symbol.strip().partition(" ")
                samples["kernel" if where == "[k]" else alias(name.strip())] += int(many)
        return samples


def shares(samples, costs, phase_of):
    """Returns for each phase its share of the samples.

    The samples of a function are divided over the phases as its instructions are; `phase_of` returns the phase of a chain. Those of the
    kernel, and of functions that callgrind didn't see, have the phases "kernel" and "unknown".
    """
    instructions = collections.defaultdict(collections.Counter)
    for chain, cost in costs.items():
        instructions[alias(chain[0])][phase_of(chain)] += cost.instructions
    found, total = collections.Counter(), sum(samples.values())
    for function, many in samples.items():
        phases = instructions[function]
        if function == "kernel" or not phases.total():
            found["kernel" if function == "kernel" else "unknown"] += many / total
            continue
        for phase, part in phases.items():
            found[phase] += many / total * part / phases.total()
    return found
