"""Fault injection in the tests of a crate."""

import pathlib
import re
import subprocess
import sys

from regdtools import checking, crates
from regdtools.allocations import Runs
from regdtools.building import TARGET
from regdtools.program import CRATES

OUT_OF_MEMORY = re.compile(rb"NoMemory|AllocError|AllocFailed|[Nn]o memory|[Oo]ut ?[Oo]f ?[Mm]emory")
# the status of a test that returns an error
ERROR = 101
SECONDS = 60
# a test with more allocations than this is not run
MOST = 5_000


def built(folder, crate):
    """Builds the program with the crate's tests, of crates/CRATE_tests or of the crate itself if there is no such crate, and returns its
    path. `rt ci` proves the crates below in the folder, or takes them from the toolchain's store."""
    name = next((name for name in (f"{crate}_tests", crate) if name in crates.listed()), None)
    if name is None:
        sys.exit(f"there is no crate {crate}")
    kit, uses, below = checking.toolchain(), crates.listed()[name], crates.below([name])
    libraries, made, program = folder / "libraries", folder / f"{name}.o", folder / name
    checking.prove(below, libraries)
    words = ["--crate-name", name, "--test", "src/lib.rt", *checking.over(libraries, uses, below)]
    more = ["--toolchain", kit / "toolchain", "--backend", "llvm", "-o", made]
    linked = [made, kit / "c/libos_c.a", kit / "c/liblibc_c.a"]
    subprocess.run([kit / "bin/rattle", "build", *words, *more], cwd=CRATES / name, stdout=sys.stderr, check=True)
    words = ["--target", TARGET, "--toolchain", kit / "toolchain", "-o", program, *linked]
    subprocess.run([kit / "bin/rattle-link", *words], cwd=folder, stdout=sys.stderr, check=True)
    return program


def names(program):
    listed = subprocess.run([program, "--list"], capture_output=True, text=True, check=True).stdout
    return [line.removesuffix(": test") for line in listed.splitlines() if line.endswith(": test")]


def printed(result):
    return (result.output + result.errors).decode(errors="replace").strip()


def is_out_of_memory(result):
    """Returns true if the test returned an error, and the error says that memory ran out."""
    return result.status == ERROR and OUT_OF_MEMORY.search(result.output + result.errors)


def check(folder, crate, program=None):
    program = pathlib.Path(program).resolve() if program else built(pathlib.Path(folder), crate)
    runs = Runs(folder)
    passed = out_of_memory = wrong = 0
    for name in names(program):
        whole = runs.run([program, name], seconds=SECONDS)
        if whole.status != 0:
            sys.exit(f"{name} fails although no allocation fails:\n{printed(whole)}")
        if runs.count() > MOST:
            print(f"{name} has {runs.count()} allocations: not run", flush=True)
            continue
        is_first = True
        for number, result in runs.each(lambda fail: runs.run([program, name], fail, seconds=SECONDS)):
            if result.status == 0:
                passed += 1
            elif is_out_of_memory(result):
                out_of_memory += 1
            else:
                wrong += 1
                if is_first:
                    print(f"{name}, allocation {number}:\n{printed(result)}", flush=True)
                is_first = False
    total = passed + out_of_memory + wrong
    print(f"{crate}: {total} allocations failed in turn: {out_of_memory} tests reported out of memory, {passed} passed, {wrong} wrong")
    return 1 if wrong or total == 0 else 0
