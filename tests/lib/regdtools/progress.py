"""How far a call of scripts/prove is: which proofs have begun and ended, and how long the rest will take."""

import dataclasses
import time

SECONDS_BETWEEN_REPORTS = 60
# how many seconds of proofs, each as fast as estimated, the proofs of this call are averaged with: a first short one then decides little
SECONDS_AS_ESTIMATED = 60
# the least part of its time so far that a proof goes on for, once it has taken longer than estimated
LEAST_PART_LEFT = 0.2


@dataclasses.dataclass
class Proof:
    """The proof of a crate. Times are in seconds, from the start of the call; `chain` is the estimate for the crate and the longest chain of
    crates above it. It has begun when a run has it and the crates below are proved."""

    name: str
    uses: list
    below: list
    lines: int
    estimate: float
    chain: float = 0.0
    has_run: bool = False
    began: float | None = None
    ended: float | None = None
    is_from_store: bool = False


class Progress:
    """Notes when the proofs begin and end, estimates the time that is left, and prints both."""

    def __init__(self, proofs, processors, clock=time.monotonic):
        self.proofs, self.processors, self.clock = proofs, processors, clock
        self.start, self.said = clock(), 0.0

    def seconds(self):
        return self.clock() - self.start

    def note_run(self, proofs):
        """Notes that a run has these proofs."""
        for proof in proofs:
            proof.has_run = True
        self._note_begun()

    def note_ended(self, proof, *, is_from_store):
        """Notes and prints that a crate is proved, by this call or before."""
        proof.ended, proof.is_from_store = self.seconds(), is_from_store
        self._note_begun()
        self.say(f"{proof.name} is " + ("taken from the store" if is_from_store else f"proved ({proof.ended - proof.began:.0f} s)"))

    def _note_begun(self):
        for proof in self.proofs.values():
            if proof.has_run and proof.began is None and all(self.proofs[name].ended is not None for name in proof.uses):
                proof.began = self.seconds()

    def being_proved(self):
        return [it for it in self.proofs.values() if it.began is not None and it.ended is None]

    def proved(self):
        """Returns what this call has proved itself."""
        return [it for it in self.proofs.values() if it.ended is not None and not it.is_from_store]

    def slowness(self):
        """Returns how many times as long as estimated the proofs of this call take, on this machine and under its load."""
        seen = [(proof.ended - proof.began, proof.estimate) for proof in self.proved()]
        running = self.being_proved()
        # with more proofs than processors, some of them wait
        if len(running) <= self.processors:
            late = [(self.seconds() - proof.began, proof.estimate) for proof in running]
            seen += [(taken, estimated) for taken, estimated in late if taken > estimated]
        taken, estimated = (sum(column) for column in zip((SECONDS_AS_ESTIMATED, SECONDS_AS_ESTIMATED), *seen))
        return taken / estimated

    def seconds_left(self):
        """Returns an estimate: the time of the longest chain of crates, or of all proofs on all processors."""
        rest, slowness = [it for it in self.proofs.values() if it.ended is None], self.slowness()
        left, chains = {it.name: self._left(it, slowness) for it in rest}, {}
        for proof in reversed(rest):
            above = [chains[it.name] for it in rest if proof.name in it.uses]
            chains[proof.name] = left[proof.name] + max(above, default=0.0)
        return max([*chains.values(), sum(left.values()) / self.processors])

    def _left(self, proof, slowness):
        expected = proof.estimate * slowness
        if proof.began is None:
            return expected
        taken = self.seconds() - proof.began
        return max(expected - taken, taken * LEAST_PART_LEFT)

    def say(self, text, condition=""):
        """Prints a text with the time so far and the estimate of what is left, under such a condition."""
        self.said = self.seconds()
        minutes = self.seconds_left() / 60
        left = f"about {minutes:.0f} min left" if minutes >= 1 else "less than a minute left"
        print(f"{int(self.said) // 60:3d}:{int(self.said) % 60:02d}  {text}; {left}{condition}", flush=True)

    def say_what_runs(self, elsewhere):
        """Prints what is being proved here and in other checkouts, unless something was printed in the last minute."""
        if self.seconds() - self.said >= SECONDS_BETWEEN_REPORTS:
            running = [proof.name for proof in self.being_proved()]
            texts = [f"{verb} {' '.join(names)}" for verb, names in (("proving", running), ("another checkout proves", elsewhere)) if names]
            self.say(", ".join(texts))
