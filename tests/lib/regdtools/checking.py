"""Checks one crate over proved libraries: `rt ci` proves the crates below it in a copy, or takes them from the toolchain's store, and then
`rattle check` checks the crate alone."""

import contextlib
import fcntl
import pathlib
import shutil
import subprocess

from regdtools import crates, proving
from regdtools.program import ROOT


class Failed(Exception):
    """Crates are not proved: the end of what the toolchain printed."""


def toolchain():
    """Returns the folder of the toolchain whose `rt` is on PATH."""
    return pathlib.Path(shutil.which("rt")).resolve().parent.parent


def over(libraries, uses, below, jobs=1):
    """Returns the words with which the compiler takes the crates and libraries that a crate uses, and the crates below it, which are proved
    in the repository at `libraries`."""
    kit, words = toolchain(), []
    is_kit = lambda library: (kit / f"rlibs/{library}.rlib").exists()
    rlib = lambda library: libraries / "crates" / library / "out/rlib"
    for library in ["std", *uses]:
        words += ["--extern", f"{library}={kit / 'rlibs' if is_kit(library) else rlib(library)}/{library}.rlib"]
    for folder in [kit / "rlibs", *map(rlib, below)]:
        words += ["-L", f"dependency={folder}"]
    words += ["--antt-project", kit / "rattle/logic/antt-project.json", "--logic-built", kit / "logic_built", "--jobs", jobs]
    return [str(word) for word in words]


def command(name, libraries, jobs=1):
    """Returns the command that checks a crate in whose folder it runs, with its tests if it is a crate of tests. In the repository at
    `libraries` the crates below it are proved."""
    root = "src/main.rt" if name == proving.PROGRAM else "src/lib.rt"
    words = over(libraries, crates.listed()[name], crates.below([name]), jobs)
    words += ["--links", f"{name}=", *["--test"] * name.endswith("_tests")]
    return [str(toolchain() / "bin/rattle"), "check", "--crate-name", name, root, *words]


def prove_below(name, libraries):
    """Copies the crates below this one to `libraries` and has `rt ci` prove them there, unless that was done with the same sources before."""
    names, stamp = crates.below([name]), libraries / "proved"
    now = crates.checksum(names, (toolchain() / "KIT-ID").read_text())
    if stamp.exists() and stamp.read_text() == now:
        return
    prove(names, libraries)
    stamp.write_text(now)


def prove(names, libraries, top=ROOT):
    """Copies crates of the repository at `top` to `libraries` and has `rt ci` prove them there, or take them from the toolchain's store."""
    proving.copy_crates(names, libraries, top)
    if names:
        settings = {"stdin": subprocess.DEVNULL, "stdout": subprocess.PIPE, "stderr": subprocess.STDOUT, "text": True, "errors": "replace"}
        ran = subprocess.run(["rt", "ci"], cwd=libraries, **settings)
        if ran.returncode:
            raise Failed("".join([f"not proved: {' '.join(names)}\n", *ran.stdout.splitlines(keepends=True)[-60:]]))


class Checker:
    """Checks a crate over the libraries of the crates below it. The results for single functions are stored in the folder `kept`."""

    def __init__(self, name, folder):
        self.name, self.libraries, self.kept = name, folder / "libraries", folder / "functions"

    def check(self, home, arguments=(), jobs=1, kept=None, **settings):
        """Checks the crate as it is in the folder `home`. Returns the finished process."""
        words = [*command(self.name, self.libraries, jobs), "--incremental", str(kept or self.kept), *arguments]
        return subprocess.run(words, cwd=home, stdin=subprocess.DEVNULL, **settings)


@contextlib.contextmanager
def checker(name):
    """Gives the checker of a crate of this checkout to one call at a time. Its folder is in the user's cache and stays there."""
    folder = proving.folder_in_cache("regd-check") / name
    folder.mkdir(exist_ok=True)
    with open(folder / "lock", "w") as lock:
        fcntl.flock(lock, fcntl.LOCK_EX)
        found = Checker(name, folder)
        prove_below(name, found.libraries)
        found.kept.mkdir(exist_ok=True)
        yield found
