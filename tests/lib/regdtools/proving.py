"""Proves and builds the program by runs of `rt ci`, several at a time. Each proves some crates, over a copy of them and of those below."""

import contextlib
import dataclasses
import hashlib
import os
import pathlib
import re
import shutil
import signal
import subprocess
import sys
import time

from regdtools import crates, results
from regdtools.locks import Lock
from regdtools.program import BUILT, CRATES, ROOT, UNVERIFIED, is_current, mark_current, move_program, remove_program, sources_of
from regdtools.progress import Progress, Proof

PROGRAM = "regd"
# what `rt ci` runs the program on, and what it compares
STORED_RUN = ["args", "stdin", "stdout", "status"]
# for crates of which no time is known: the seconds of the smallest proof, and the lines that a processor proves in a second
LEAST_SECONDS = 40
LINES_A_SECOND = 20
# the most memory that the proof of a crate takes, in bytes
MEMORY_OF_A_PROOF = 5_000_000_000
# how often the script looks at what its runs have printed
SECONDS_BETWEEN_LOOKS = 0.2
# the first toolchain whose `rt ci` stores what it has proved, so that later runs take it over
FIRST_THAT_STORES = "rattle-kit-13f"
# what `rt ci` prints of a crate when it is proved, or is in the store
PROVED = re.compile(r"rt: (\w+) (proved|is kept: .*)\n")
COLUMNS = ["crate", "seconds", "lines"]


class Failed(Exception):
    """A crate is not proved, or the program is not built: the end of what the toolchain printed."""


@dataclasses.dataclass
class Run:
    """A run of `rt ci` that proves these crates, lowest first, with its copy of the sources, its process, and the file that it prints into."""

    proofs: list
    copy: pathlib.Path
    process: subprocess.Popen
    log: pathlib.Path

    def printed(self):
        return self.log.read_text(errors="replace")


def version():
    """Returns the line that identifies the toolchain."""
    return subprocess.run(["rt", "version"], capture_output=True, text=True, check=True).stdout


def stores_proofs():
    """Returns whether `rt ci` of this toolchain stores proved crates for later runs."""
    return version() >= FIRST_THAT_STORES


def estimate(name, lines):
    """Returns the seconds that a crate took when its time was last written, or an estimate from its size."""
    try:
        return float(results.latest("prove", {"crate": name})[0]["seconds"])
    except LookupError:
        return LEAST_SECONDS + lines / LINES_A_SECOND


def proofs_of_program():
    """Returns the proofs of the program and the crates below it, lowest first, by their names."""
    listed, names, found = crates.listed(), [*crates.below([PROGRAM]), PROGRAM], {}
    for name in names:
        lines = sum(path.read_bytes().count(b"\n") for path in sources_of(CRATES / name))
        uses = [it for it in listed[name] if it in names]
        found[name] = Proof(name, uses, crates.below([name]), lines, estimate(name, lines))
    for name in reversed(found):
        above = [proof.chain for proof in found.values() if name in proof.uses]
        found[name].chain = found[name].estimate + max(above, default=0.0)
    return found


def folder_in_cache(use, name=hashlib.sha256(str(ROOT).encode()).hexdigest()[:16]):
    """Returns a folder for such a use in the user's cache, by default that of this checkout. No other user may read it."""
    cache = pathlib.Path(os.environ.get("XDG_CACHE_HOME") or pathlib.Path.home() / ".cache")
    folder = cache / use / name
    folder.mkdir(mode=0o700, parents=True, exist_ok=True)
    return folder


def copy_crates(names, to, top=ROOT):
    """Copies the named crates of the repository at `top` without mutants, as a repository of their own."""
    shutil.rmtree(to, ignore_errors=True)
    # marks the root of a repository, as `rt ci` expects
    (to / ".git").mkdir(parents=True)
    shutil.copy2(top / "HANDLES", to)
    lines = (top / "crates.txt").read_text().splitlines(keepends=True)
    (to / "crates.txt").write_text("".join(line for line in lines if line.partition(":")[0] in names))
    for name in names:
        source = top / "crates" / name
        stored = [source / part for part in STORED_RUN if name == PROGRAM and (source / part).exists()]
        for path in [*sources_of(source), *stored]:
            target = to / "crates" / name / path.relative_to(source)
            target.parent.mkdir(parents=True, exist_ok=True)
            shutil.copy2(path, target)


def claims(proofs, sources):
    """Returns a lock for each crate. Calls in several checkouts share it if they prove the crate from the same sources: its name has a
    checksum of them."""
    folder, toolchain = folder_in_cache("regd-prove", "claims"), version()
    return {it.name: Lock(folder / f"{it.name}-{crates.checksum([*it.below, it.name], toolchain, sources)[:16]}") for it in proofs.values()}


class Prover:
    """Proves crates, each as soon as those below it are proved, the longest chain of crates first. A crate that another checkout is proving
    is taken from the toolchain's store afterwards."""

    def __init__(self, proofs, folder, progress):
        self.proofs, self.folder, self.progress, self.runs = proofs, folder, progress, []
        # all runs prove the sources as they are now, whatever becomes of the checkout meanwhile
        self.sources = folder / "sources"
        copy_crates(proofs, self.sources)
        memory = os.sysconf("SC_PAGE_SIZE") * os.sysconf("SC_PHYS_PAGES")
        # how many runs at a time: the longest chain takes half of the processors, and each other run one
        self.most = max(1, min(progress.processors // 2 + 1, memory // MEMORY_OF_A_PROOF))
        # with several runs, each of them would prove the crates below its own again
        self.is_one_run = not stores_proofs()
        self.claims, self.elsewhere = claims(proofs, self.sources), []

    def lacking(self, proof, group=()):
        """Returns what has to be proved before a crate and is neither proved nor in this group."""
        return [it for it in map(self.proofs.get, proof.below) if it.ended is None and it not in group]

    def ready(self):
        """Returns the proofs that may start, the one with the longest chain of crates above it first."""
        return sorted((it for it in self.proofs.values() if not it.has_run and not self.lacking(it)), key=lambda proof: -proof.chain)

    def chain_above(self, first):
        """Returns the longest chain of crates above a crate, as far as they lack nothing but this crate and each other."""
        found = [first]
        while above := [it for it in self.proofs.values() if found[-1].name in it.uses]:
            last = max(above, key=lambda proof: proof.chain)
            if self.lacking(last, found):
                break
            found.append(last)
        return found[1:]

    def claim(self, proof):
        """Claims a crate, and returns whether this call may prove it: no other checkout is doing so."""
        is_ours = self.claims[proof.name].take(waits=False)
        if is_ours and proof.name in self.elsewhere:
            self.elsewhere.remove(proof.name)
        if not is_ours and proof.name not in self.elsewhere:
            self.elsewhere.append(proof.name)
            self.progress.say(f"another checkout is proving {proof.name}")
        return is_ours

    def claim_group(self, longest):
        """Claims the crates for the next run and returns them: none if other checkouts are proving all crates that may start.

        The longest chain of crates has a run of its own; `longest` is that of the runs so far. Where several proofs of a run may start, each
        of them gets fewer jobs."""
        first = next((proof for proof in self.ready() if self.claim(proof)), None)
        if first is None:
            return []
        group = [first]
        for proof in self.chain_above(first) if first.chain >= longest else []:
            is_ours = self.claims[proof.name].take(waits=False)
            if not is_ours:
                break
            group.append(proof)
        return group

    def start(self, proofs, is_first):
        """Starts `rt ci` over a copy of these crates and of those below. By itself it divides the processors among the proofs that may start;
        with RT_JOBS each gets one. All runs stay in one session, since Linux divides the processors evenly among sessions, whatever the
        priorities in them."""
        copy = self.folder / proofs[-1].name
        needed = {name for proof in proofs for name in [*proof.below, proof.name]}
        copy_crates([name for name in self.proofs if name in needed], copy, self.sources)
        variables = {} if is_first else {"RT_JOBS": str(self.progress.processors)}
        log = self.folder / f"{proofs[-1].name}.log"
        with open(log, "w") as printed:
            process = subprocess.Popen(
                ["nice", "-n", "0" if is_first else "10", "rt", "ci"], cwd=copy, env={**os.environ, **variables}, stdin=subprocess.DEVNULL,
                stdout=printed, stderr=subprocess.STDOUT, process_group=0,
            )  # fmt: skip
        self.runs.append(Run(proofs, copy, process, log))
        self.progress.note_run(proofs)

    def start_ready(self):
        """Starts as many runs as there are processors and memory for. Runs outside the longest chain get one job each and a lower priority,
        unless they are few. If the toolchain stores no proofs, one run proves all crates."""
        if self.is_one_run and not self.runs:
            return self.start([*self.proofs.values()], True)
        while len(self.runs) < self.most:
            longest = max((it.chain for run in self.runs for it in run.proofs if it.ended is None), default=0.0)
            are_few = len(self.runs) + len(self.ready()) <= self.progress.processors // 2
            group = self.claim_group(longest)
            if not group:
                return
            self.start(group, group[0].chain >= longest or are_few)

    def note_proved(self, run, is_over):
        """Notes which crates of a run are proved. That of the program is over when the program is built and run, with the run."""
        ends = dict(PROVED.findall(run.printed()))
        for proof in run.proofs:
            if proof.ended is None and proof.name in ends and (is_over or proof.name != PROGRAM):
                self.claims[proof.name].release()
                self.progress.note_ended(proof, is_from_store=ends[proof.name] != "proved")

    def end(self, run):
        """Removes a run that has ended. Raises `Failed` unless everything passed."""
        status, has_program = run.process.wait(), run.proofs[-1].name == PROGRAM
        self.runs.remove(run)
        self.note_proved(run, not status)
        built = run.copy / "crates" / PROGRAM / "out" / PROGRAM
        if status or any(proof.ended is None for proof in run.proofs) or has_program and not built.exists():
            raise Failed("".join(["not everything passed:\n", *run.printed().splitlines(keepends=True)[-60:]]))
        if not has_program:
            shutil.rmtree(run.copy, ignore_errors=True)

    def run(self):
        try:
            while any(proof.ended is None for proof in self.proofs.values()):
                self.start_ready()
                for run in [*self.runs]:
                    if run.process.poll() is None:
                        self.note_proved(run, False)
                    else:
                        self.end(run)
                self.progress.say_what_runs(self.elsewhere)
                time.sleep(SECONDS_BETWEEN_LOOKS)
        finally:
            for run in self.runs:
                with contextlib.suppress(ProcessLookupError):
                    os.killpg(run.process.pid, signal.SIGTERM)
            for run in self.runs:
                run.process.wait()
            for lock in self.claims.values():
                lock.release()


@contextlib.contextmanager
def locked_folder():
    """Gives this checkout's folder in the user's cache to one call at a time. It is empty then, and is removed at the end, however the call ends."""
    folder = folder_in_cache("regd-prove")
    lock = Lock(folder.with_suffix(".lock"))
    is_alone = lock.take(waits=False)
    if not is_alone:
        print("prove: waiting for another scripts/prove in this checkout", file=sys.stderr)
        lock.take(waits=True)
    try:
        shutil.rmtree(folder, ignore_errors=True)
        folder.mkdir(mode=0o700)
        yield folder
    finally:
        shutil.rmtree(folder, ignore_errors=True)
        lock.release()


def prove(processors, writes):
    """Proves the crates and puts the program into the checkout, unless another call did so meanwhile. `processors` is the number to use;
    `writes` is whether to write the times."""
    os.sched_setaffinity(0, sorted(os.sched_getaffinity(0))[: max(1, processors)])
    with locked_folder() as folder:
        if not is_current(BUILT):
            build(folder, writes)


def build(folder, writes):
    """Proves the crates and builds the program in an empty folder, and moves the program into the checkout."""
    begin, new = time.time_ns(), BUILT.with_suffix(".new")
    BUILT.parent.mkdir(exist_ok=True)
    mark_current(new)
    progress = Progress(proofs_of_program(), len(os.sched_getaffinity(0)))
    condition = " if the toolchain's store has none of them" if stores_proofs() else ""
    progress.say(f"{len(progress.proofs)} crates on {progress.processors} processors", condition)
    Prover(progress.proofs, folder, progress).run()
    shutil.copy2(folder / PROGRAM / "crates" / PROGRAM / "out" / PROGRAM, new)
    move_program(new, BUILT, begin)
    remove_program(UNVERIFIED)
    proved = progress.proved()
    print(f"{progress.seconds() / 60:.1f} min in all: {len(proved)} crates proved, {len(progress.proofs) - len(proved)} taken from the store")
    if writes and proved:
        rows = [[it.name, f"{it.ended - it.began:.0f}", it.lines] for it in proved]
        note = f"{progress.seconds():.0f} seconds in all on {progress.processors} processors, for {len(proved)} of {len(progress.proofs)} crates"
        print(f"times: {results.write('prove', COLUMNS, rows, notes=[note])}")


def next_call():
    """Returns what the next call does after one that was interrupted."""
    if stores_proofs():
        return "the toolchain stores each crate that is proved, and the next call goes on from there"
    return "this toolchain stores no proofs, so the next call starts from the beginning"
