"""Builds programs over the verified crates, runs them, and reads what they measured.

A driver is a program bench/drivers/NAME.rattle. It is not part of the repository's crates, and is built in another folder. A driver
satisfies the conditions of the calls that it measures by construction, but that is not proved: it assumes them by calling the C function
`assumed` (bench/assume.c), whose contract is false. The compiler's output for the verified crates is not affected. A driver proves
nothing.

A peer is an ordinary Rust program bench/peers/NAME.rs that does the same work with the standard library alone.
"""

import os
import shutil
import statistics
import subprocess
import sys

from regdtools import checking, crates
from regdtools.program import ROOT

DRIVERS, PEERS = ROOT / "bench/drivers", ROOT / "bench/peers"


def peer(name, folder):
    """Compiles a peer into a folder and returns the path of the program."""
    program = folder / name
    subprocess.run(["rustc", "--edition", "2021", "-O", "-o", program, PEERS / f"{name}.rs"], check=True)
    return program


def built(folder, name, uses, root=ROOT):
    """Builds the driver `name` in an empty folder, over the crates of a checkout, and returns the path of the program.

    `uses` are the crates and libraries that the driver uses, separated by spaces. `rt ci` proves the crates in the folder, or takes
    them from the toolchain's store.
    """
    made, source, kit, uses = folder / "drivers" / name, DRIVERS / f"{name}.rattle", checking.toolchain(), uses.split()
    names = {*uses, *crates.below(uses, root)}
    below = [it for it in crates.listed(root) if it in names]
    checking.prove(below, folder / "libraries", root)
    (made / "src").mkdir(parents=True)
    shutil.copy(source, made / "src/main.rt")
    words = ["--crate-name", name, "src/main.rt", *checking.over(folder / "libraries", uses, below)]
    more = ["--toolchain", kit / "toolchain", "--backend", "llvm", "-o", f"{name}.o"]
    linked = [f"{name}.o", kit / "c/libos_c.a", kit / "c/liblibc_c.a"]
    if "fn assumed()" in source.read_text():
        subprocess.run(["cc", "-O2", "-fPIC", "-fno-lto", "-c", ROOT / "bench/assume.c", "-o", "assume.o"], cwd=made, check=True)
        linked.append("assume.o")
    subprocess.run([kit / "bin/rattle", "build", *words, *more], cwd=made, stdout=sys.stderr, check=True)
    words = ["--target", "x86_64-unknown-linux-gnu", "--toolchain", kit / "toolchain", "-o", name, *linked]
    subprocess.run([kit / "bin/rattle-link", *words], cwd=made, stdout=sys.stderr, check=True)
    return made / name


def run(program, words):
    """Runs a program and returns the lines that it printed and its resource usage."""
    child = subprocess.Popen([program, *words], stdout=subprocess.PIPE, text=True)
    text = child.stdout.read()
    _, status, usage = os.wait4(child.pid, 0)
    if status != 0:
        sys.exit(f"{program}: status {status}")
    return text.splitlines(), usage


def measures(lines):
    """Reads the lines `NAME COUNT TIMES WALL PROCESSOR` of a program, and its headings, which begin with `==`.

    Returns for each heading, name and count the wall time and the processor time of one repetition, in microseconds.
    """
    heading, found = "", {}
    for line in lines:
        if line.startswith("=="):
            heading = line
            continue
        name, count, times, *both = line.split()
        found[heading, name, count] = [int(time) / int(times) for time in both]
    return found


def in_turn(runs, jobs):
    """Runs the jobs `runs` times and returns for each name its measures, one for each run.

    A job is a program and its words. The jobs take turns, so that other work of the machine slows each of them equally.
    """
    found = {name: [] for name in jobs}
    for _ in range(runs):
        for name, (program, words) in jobs.items():
            found[name].append(measures(run(program, [str(word) for word in words])[0]))
    return found


def processor_times(runs, key):
    """Returns the smallest and the median processor time of a measure, in microseconds. Both are None if it was not measured."""
    times = [run[key][1] for run in runs if key in run]
    return [min(times), statistics.median(times)] if times else [None, None]


def ratios(times, others):
    """Returns the ratios of two lists of times, item by item, and None where one is missing."""
    return [time / other if time and other else None for time, other in zip(times, others)]
