"""Where the repository and the program are.

The program is the one that the variable REGD names, otherwise the one that scripts/prove verified and built. Where a script says so, the one
that scripts/build-unverified compiled without proofs will do.
"""

import functools
import os
import pathlib
import subprocess
import sys

ROOT = pathlib.Path(__file__).resolve().parents[3]
CRATES = ROOT / "crates"
BUILT = CRATES / "regd/out/regd"
UNVERIFIED = CRATES / "regd/out/regd-unverified"
IS_CURRENT = ROOT / "scripts/is-current"


def sources_of(crate):
    """Returns the sources, definitions and proofs in the folder of a crate."""
    folders = (crate / part for part in ("src", "specs", "proofs"))
    return [path for folder in folders for path in sorted(folder.rglob("*")) if path.suffix in (".rt", ".antt")]


def is_current(path):
    """Returns true if the program at the path was built from the sources as they are."""
    return subprocess.run([IS_CURRENT, path], check=False).returncode == 0


def mark_of(path):
    """Returns the path of the file that records from which sources a program was built."""
    return path.with_name(path.name + ".sources")


def mark_current(path):
    """Records that the program at the path is built from the sources as they are."""
    subprocess.run([IS_CURRENT, "--mark", path], check=True)


def move_program(new, path, begin):
    """Moves a program and its record to the path. It was built from the sources as they were at the time `begin`, in nanoseconds."""
    # as old as these sources: what changed since is newer
    os.utime(new, ns=(begin, begin))
    mark_of(new).replace(mark_of(path))
    new.replace(path)


def remove_program(path):
    """Removes a program and its record, if they exist."""
    path.unlink(missing_ok=True)
    mark_of(path).unlink(missing_ok=True)


@functools.cache
def warn(text):
    """Prints a warning on standard error, once in a run."""
    print(text, file=sys.stderr)


def program(*, unverified=False):
    """Returns the path of the program. Ends the script with status 2 if there is none.

    With `unverified`, the program without proofs takes the place of the verified one if that is not built.
    """
    if os.environ.get("REGD"):
        return pathlib.Path(os.environ["REGD"]).resolve()
    if is_current(BUILT):
        return BUILT
    name = pathlib.Path(sys.argv[0]).name
    if unverified and is_current(UNVERIFIED):
        warn(f"{name}: with the UNVERIFIED program {UNVERIFIED}")
        return UNVERIFIED
    instead = ", or scripts/build-unverified to try it without proofs" if unverified else ""
    print(f"{name}: regd is not built, or its sources changed since: run scripts/prove first{instead}", file=sys.stderr)
    sys.exit(2)
