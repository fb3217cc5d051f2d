"""Runs programs in which one allocation fails, and counts the allocations of a program.

A library in C does both, tests/faults/allocations.c, which is loaded before the program by LD_PRELOAD. It needs a C compiler and glibc.
"""

import os
import subprocess
import sys
from typing import NamedTuple

from regdtools.program import ROOT

SOURCE = ROOT / "tests/faults/allocations.c"
SECONDS = 120


def library(folder):
    """Compiles the library into `folder` and returns its path."""
    target = folder / "allocations.so"
    subprocess.run([os.environ.get("CC", "cc"), "-O1", "-shared", "-fPIC", "-o", target, SOURCE], check=True)
    return target


def environment(library, count_file, fail=0):
    """Returns the variables to add to a program's environment.

    With them the program keeps the number of its allocations in `count_file`, and its allocation number `fail` fails, from 1. With 0
    none fails.
    """
    return {"LD_PRELOAD": str(library), "ALLOCATION_COUNT": str(count_file), "FAIL_ALLOCATION": str(fail)}


def count(count_file):
    """Returns the number of allocations of the last program that was started with this file."""
    return int.from_bytes(count_file.read_bytes(), sys.byteorder)


class Result(NamedTuple):
    """How a program ended. `status` is None if it did not end in time; it was killed then."""

    status: int | None
    output: bytes
    errors: bytes


class Runs:
    """Runs a program any number of times; in each run at most one allocation fails."""

    def __init__(self, folder):
        self.library, self.count_file = library(folder), folder / "count"

    def variables(self, fail=0):
        """Returns the whole environment of a run. Forgets the count of the run before."""
        self.count_file.unlink(missing_ok=True)
        return os.environ | environment(self.library, self.count_file, fail)

    def run(self, words, fail=0, text=b"", seconds=SECONDS):
        """Returns the result of a run on this standard input."""
        try:
            ended = subprocess.run(words, input=text, capture_output=True, timeout=seconds, env=self.variables(fail))
        except subprocess.TimeoutExpired:
            return Result(None, b"", b"no end within %d seconds" % seconds)
        return Result(ended.returncode, ended.stdout, ended.stderr)

    def count(self):
        """Returns the number of allocations of the last run."""
        return count(self.count_file)

    def each(self, run):
        """Yields the number of each allocation of `run(0)`, and what `run` returns if that allocation fails."""
        run(0)
        for number in range(1, self.count() + 1):
            yield number, run(number)
