"""Fault injection in runs of `regd audit` and `regd schedule --record`."""

import pathlib
import re
import sys

from regdtools.allocations import Result, Runs
from regdtools.program import program

OUT_OF_MEMORY = Result(1, b"", b"regd: out of memory\n")
YES, NO = 0, 3


def with_a_fault(records):
    """Returns the records with another commit number in the last one."""
    *others, last = records.splitlines(keepends=True)
    changed = re.sub(rb'"place":(\d+)', lambda found: b'"place":%d' % (int(found[1]) + 1), last, count=1)
    return b"".join([*others, changed])


class Programs(Runs):
    """Runs of the programs `audit` and `schedule --record` over one domain."""

    def __init__(self, folder, domain):
        super().__init__(folder)
        self.program, self.domain = program(), domain

    def audit(self, records, fail=0):
        return self.run([self.program, "audit", "--domain", self.domain], fail, records)

    def record(self, events, fail=0):
        return self.run([self.program, "schedule", "--record", "--domain", self.domain], fail, events)


def audits(runs, records, verdict):
    """Returns how many audits ended out of memory, how many gave the verdict, and what was wrong."""
    whole = runs.audit(records)
    if whole.status != verdict:
        sys.exit(f"although no allocation fails, the audit ends with {whole}")
    ended, judged, wrong = 0, 0, []
    for number, result in runs.each(lambda fail: runs.audit(records, fail)):
        ended += result == OUT_OF_MEMORY
        judged += result == whole
        if result not in (OUT_OF_MEMORY, whole):
            wrong.append(f"audit, allocation {number}: {result}, if none fails {whole}")
    return ended, judged, wrong


def recordings(runs, events):
    """Returns how many recorded runs ended out of memory, how many wrote all records, and what was wrong."""
    whole = runs.record(events)
    ended, complete, wrong = 0, 0, []
    for number, result in runs.each(lambda fail: runs.record(events, fail)):
        if result == whole:
            complete += 1
        elif result._replace(output=b"") == OUT_OF_MEMORY and runs.audit(result.output).status == YES:
            ended += 1
        else:
            wrong.append(f"recorded run, allocation {number}: {result}")
    return ended, complete, wrong


def check(folder, file, domain):
    events = pathlib.Path(file).read_bytes()
    runs = Programs(folder, domain)
    status, records, errors = runs.record(events)
    if status != 0 or not records:
        sys.exit(f"although no allocation fails, the recorded run ends with status {status}: {errors!r}")
    parts = [audits(runs, records, YES), audits(runs, with_a_fault(records), NO), recordings(runs, events)]
    wrong = [line for part in parts for line in part[2]]
    print("".join(f"{line}\n" for line in wrong), end="")
    (yes_ended, yes, _), (no_ended, no, _), (run_ended, complete, _) = parts
    total = yes_ended + yes + no_ended + no + run_ended + complete + len(wrong)
    print(f"{total} allocations failed in turn: {yes_ended + no_ended} audits out of memory, {yes} yes and {no} no as expected; "
          f"{run_ended} recorded runs out of memory, {complete} with all records; {len(wrong)} wrong")
    return 1 if wrong or total == 0 else 0
