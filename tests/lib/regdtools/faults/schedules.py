"""Fault injection in runs of `regd schedule`."""

import json
import pathlib
import subprocess
import threading

from regdtools.allocations import SECONDS, Runs
from regdtools.program import program

# the answers to an event for which memory ran out
OUT_OF_MEMORY = ("E5", "L6")


def play(words, variables, events):
    """Plays the events, and submits an event again if memory ran out for it.

    Returns the status, the other answers, what standard error received, and how many events were submitted again.
    """
    child = subprocess.Popen(words, stdin=subprocess.PIPE, stdout=subprocess.PIPE, stderr=subprocess.PIPE, env=variables)
    limit = threading.Timer(SECONDS, child.kill)
    limit.start()
    answers, again = [], 0
    try:
        for event in events:
            answer = submitted(child, event)
            while answer and json.loads(answer).get("code") in OUT_OF_MEMORY:
                again += 1
                answer = submitted(child, event)
            if not answer:
                break
            answers.append(answer)
    except BrokenPipeError:
        pass
    try:
        rest, errors = child.communicate()
    except BrokenPipeError:
        rest, errors = child.stdout.read(), child.stderr.read()
        child.wait()
    limit.cancel()
    return child.returncode, answers + rest.splitlines(keepends=True), errors, again


def submitted(child, event):
    child.stdin.write(event)
    child.stdin.flush()
    return child.stdout.readline()


def check(folder, file, domain):
    events = pathlib.Path(file).read_bytes().splitlines(keepends=True)
    runs = Runs(folder)
    words = [program(), "schedule", "--domain", domain]
    status, whole, errors, _ = play(words, runs.variables(), events)
    if status or errors:
        print(f"although no allocation fails: status {status}, on standard error {errors!r}")
        return 1
    ended = again = same = wrong = 0
    for number, result in runs.each(lambda fail: play(words, runs.variables(fail), events)):
        status, answers, errors, refused = result
        if status == 1 and errors == b"regd: out of memory\n" and answers == whole[: len(answers)]:
            ended += 1
        elif status or errors or answers != whole:
            wrong += 1
            print(f"allocation {number}: status {status}, on standard error {errors!r}, answers {answers!r}", flush=True)
        elif refused:
            again += 1
        else:
            same += 1
    total = ended + again + same + wrong
    print(f"{total} allocations failed in turn over {len(events)} events: {ended} runs ended out of memory, {again} had an event "
          f"submitted again, {same} had none, {wrong} wrong")
    return 1 if wrong or total == 0 or again == 0 else 0
