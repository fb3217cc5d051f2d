"""Builds the program from changed crates, over proved libraries. The changed crates, and those above them, are proved too."""

import shutil
import subprocess

from regdtools import checking, crates
from regdtools.proving import PROGRAM

TARGET = "x86_64-unknown-linux-gnu"


def run(words, home):
    """Runs a command of the toolchain. Raises `Failed` with what it printed if it fails."""
    settings = {"stdin": subprocess.DEVNULL, "stdout": subprocess.PIPE, "stderr": subprocess.STDOUT, "text": True, "errors": "replace"}
    ran = subprocess.run([str(word) for word in words], cwd=home, **settings)
    if ran.returncode:
        raise checking.Failed(ran.stdout)


def built(changed, top, libraries, folder, kept, jobs=1):
    """Builds the program in a folder, which is empty then, and returns its path.

    The sources of the program, and of the crates of `changed`, are those of the repository at `top`. All other crates are those that are
    proved at `libraries`, unless they use a changed one. What was proved stays in the folder `kept`, for other builds from nearly the same
    sources.
    """
    shutil.rmtree(folder, ignore_errors=True)
    names, again = [*crates.below([PROGRAM]), PROGRAM], {*changed, PROGRAM}
    for name in names:
        home = folder / "crates" / name
        if again.isdisjoint([name, *crates.below([name])]):
            home.parent.mkdir(parents=True, exist_ok=True)
            home.symlink_to(libraries / "crates" / name)
            continue
        (home / "out/rlib").mkdir(parents=True)
        build(name, top / "crates" / name, folder, kept, jobs)
    return folder / PROGRAM


def build(name, source, folder, kept, jobs):
    """Proves and builds a crate over those in a folder: a library in its place there, or the program in the folder itself."""
    kit, uses = checking.toolchain(), crates.listed()[name]
    (kept / name).mkdir(parents=True, exist_ok=True)
    words = [kit / "bin/rattle", "build", "--crate-name", name, "src/main.rt" if name == PROGRAM else "src/lib.rt",
             *checking.over(folder, uses, crates.below([name]), jobs), "--incremental", kept / name]  # fmt: skip
    if name != PROGRAM:
        run([*words, "-o", folder / "crates" / name / f"out/rlib/{name}.rlib"], source)
        return
    made = folder / f"{PROGRAM}.o"
    run([*words, "--toolchain", kit / "toolchain", "--backend", "llvm", "-o", made], source)
    linked = [made, kit / "c/libos_c.a", kit / "c/liblibc_c.a"]
    run([kit / "bin/rattle-link", "--target", TARGET, "--toolchain", kit / "toolchain", "-o", folder / PROGRAM, *linked], source)
