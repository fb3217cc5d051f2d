"""Tries the mutants of the gateway in copies of its sources: most take away a bound, a retry, a refusal or a check, others take a wrong
value or the wrong order. A unit test has to fail with each. regdtools.mutants says how they are written.
"""
import concurrent.futures
import contextlib
import os
import pathlib
import queue
import re
import shutil
import signal
import subprocess

from regdtools import mutants
from gatewaytools import tools


def all_mutants():
    """Returns the mutants of the gateway."""
    return [mutants.mutant_of(mutants.GATEWAY, written) for written in mutants.mutants_of(mutants.GATEWAY)]


def run(regd, folder, some, jobs=2):
    """Tries mutants in copies of the sources. Yields each with the tests that fail, or with what went wrong."""
    copies = queue.SimpleQueue()
    for number in range(jobs):
        copy = pathlib.Path(folder) / str(number)
        shutil.copytree(tools.SOURCES, copy)
        copies.put(copy)

    def tried(mutant):
        copy = copies.get()
        try:
            return mutant, [] if mutant.fault else noticed(copy, mutant, {"REGD": regd}), mutant.fault
        except ValueError as error:
            return mutant, [], str(error)
        finally:
            copies.put(copy)

    with concurrent.futures.ThreadPoolExecutor(jobs) as pool:
        yield from pool.map(tried, some)


@contextlib.contextmanager
def changed(folder, mutant):
    """Has a mutant in a folder of sources for a time."""
    originals = {path: (folder / path).read_text() for path in mutant.texts}
    try:
        for path, text in mutant.texts.items():
            (folder / path).write_text(text)
        yield
    finally:
        for path, text in originals.items():
            (folder / path).write_text(text)


def packages_of(folder, test):
    """Returns the folders of the packages that have a unit test of this name. Names have to be different, since a mutant names no package."""
    return sorted({file.parent for file in folder.rglob("*_test.go") if f"func {test}(" in file.read_text()})


def noticed(folder, mutant, env):
    """Runs the test of a mutant with it in a folder of sources. Returns the tests that fail then."""
    [test] = mutant.test
    [package] = packages_of(folder, test)
    words = ["test", "-count=1", "-vet=off", "-ldflags=-s -w", "-timeout", "70s", "-run", f"^{test}$", f"./{package.relative_to(folder)}"]
    with changed(folder, mutant), tools.started_go(*words, cwd=folder, env=env, stdout=subprocess.PIPE, stderr=subprocess.STDOUT, text=True,
                                                   errors="replace", start_new_session=True) as process:
        try:
            printed, _ = process.communicate(timeout=150)
        except subprocess.TimeoutExpired:  # the command waits for a regd which a test that ran out of time has left behind
            printed = "panic: no end"
        finally:
            with contextlib.suppress(ProcessLookupError):
                os.killpg(process.pid, signal.SIGKILL)
    if "[build failed]" in printed or "[setup failed]" in printed:
        raise ValueError(f"it does not compile: {printed[-500:]}")
    failed = re.findall(r"--- FAIL: (\w+)", printed) or re.findall(r"panic: (.{1,60})", printed)
    return failed if process.wait() else []
