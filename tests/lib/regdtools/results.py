"""Writes and reads results of benches and tests: tables of tab-separated values in bench/results/YYYY-MM-DD-WHAT.tsv.

A file has one block for each table that was written on that day. A block begins with comment lines (`# commit`, `# kit`,
`# machine`, then notes), followed by a line with the names of the columns and one line for each row. An empty line ends it. Units
are in the names of the columns; numbers have no separators. Results that are no table are in bench/results/WHAT.json, a list of runs.
"""

import argparse
import collections
import datetime
import json
import os
import pathlib
import subprocess

from regdtools.program import ROOT

FOLDER = ROOT / "bench/results"
LOAD_AT_START = os.getloadavg()[0]

Table = collections.namedtuple("Table", "comments columns rows")


# ---- writing


def _output(words):
    """Returns what a command prints, or "" if it fails or does not exist."""
    try:
        return subprocess.run(words, cwd=ROOT, capture_output=True, text=True, check=True).stdout.strip()
    except (OSError, subprocess.CalledProcessError):
        return ""


def commit():
    """Returns the short hash of the last commit that changed anything outside bench/results, with `+changes` if the checkout has
    changes there."""
    outside = ["--", ".", ":!bench/results"]
    changes = _output(["git", "status", "--porcelain", *outside])
    return (_output(["git", "rev-list", "-1", "--abbrev-commit", "HEAD", *outside]) or "unknown") + ("+changes" if changes else "")


COMMIT_AT_START = commit()


def commit_of_run():
    """Returns the commit when the script started, and that of now if it is another one."""
    now = commit()
    return COMMIT_AT_START if now == COMMIT_AT_START else f"{COMMIT_AT_START} at the start, {now} at the end"


def kit():
    """Returns the version of the Rattle toolchain."""
    return _output(["rt", "version"]).partition("\n")[0] or "unknown"


def _value(path, key):
    """Returns the first value of a key in a file of `key: value` lines, or "" if there is none."""
    try:
        pairs = [line.split(":", 1) for line in pathlib.Path(path).read_text().splitlines() if ":" in line]
    except OSError:
        return ""
    return next((value.strip() for name, value in pairs if name.strip() == key), "")


def machine():
    """Returns the number of processors, their model, the memory, and the load when the script started and now."""
    model = _value("/proc/cpuinfo", "model name") or "unknown model"
    kilobytes = int((_value("/proc/meminfo", "MemTotal") or "0").split()[0])
    load = f"load {LOAD_AT_START:.1f} at the start, {os.getloadavg()[0]:.1f} at the end"
    return f"{os.cpu_count()} processors, {model}, {kilobytes // 2**20} GB, {load}"


def cell(value):
    """Returns the text of a value in a table. A float has three digits or more, up to three after the point; None has no text."""
    if value is None:
        return ""
    if isinstance(value, float):
        places = 0 if value >= 100 else 1 if value >= 10 else 2 if value >= 1 else 3
        return f"{value:.{places}f}"
    return str(value)


def write(what, columns, rows, folder=FOLDER, notes=()):
    """Appends a table to the day's file of `what`, which is created if it does not exist, and returns its path.

    `rows` are lists of values in the order of `columns`; `notes` are further comment lines.
    """
    path = pathlib.Path(folder) / f"{datetime.date.today().isoformat()}-{what}.tsv"
    path.parent.mkdir(parents=True, exist_ok=True)
    comments = [f"commit {commit_of_run()}", f"kit {kit()}", f"machine {machine()}", *notes]
    lines = [*(f"# {comment}" for comment in comments), *("\t".join(map(cell, row)) for row in [columns, *rows])]
    with open(path, "a") as file:
        file.write(("\n" if file.tell() else "") + "\n".join(lines) + "\n")
    return path


def add_run(what, values, folder=FOLDER):
    """Appends a run to the list of runs in the file WHAT.json, which is created if it does not exist, and returns its path.

    The run is an object of `values`, a dictionary, with the commit, the toolchain and the machine.
    """
    path = pathlib.Path(folder) / f"{what}.json"
    path.parent.mkdir(parents=True, exist_ok=True)
    runs = json.loads(path.read_text()) if path.exists() else []
    runs.append({**values, "date": datetime.date.today().isoformat(), "commit": commit_of_run(), "kit": kit(), "machine": machine()})
    path.write_text(json.dumps(runs, indent=1) + "\n")
    return path


# ---- reading


def read(path):
    """Returns the tables of a file, in order. A row is a dictionary from the names of the columns to texts."""
    tables = []
    for block in pathlib.Path(path).read_text().split("\n\n"):
        lines = block.strip("\n").split("\n")
        comments = [line.removeprefix("# ") for line in lines if line.startswith("#")]
        head, *rows = [line.split("\t") for line in lines if line and not line.startswith("#")] or [[]]
        tables.append(Table(comments, head, [dict(zip(head, row)) for row in rows]))
    return tables


def files(what, folder=FOLDER):
    """Returns the files of `what`, the newest first."""
    return sorted(pathlib.Path(folder).glob(f"????-??-??-{what}.tsv"), reverse=True)


def newest(what, wanted, folder=FOLDER):
    """Returns rows, the table that has them and its file: the newest table that has all that is wanted.

    `wanted` is a list of pairs: the values that select a row, and the columns in which it needs a text. The row that was written last counts.
    """
    for path in files(what, folder):
        for table in reversed(read(path)):
            found = [next((row for row in reversed(table.rows) if where.items() <= row.items() and all(map(row.get, columns))), None)
                     for where, columns in wanted]
            if all(found):
                return found, table, path
    raise LookupError(f"no result of {what} with {' and '.join(f'{where} and texts in {list(columns)}' for where, columns in wanted)}")


def latest(what, where, columns=(), folder=FOLDER):
    """Returns the newest row that has the values of `where` and a text in each of these columns, and the file that has the row."""
    (row,), _, path = newest(what, [(where, columns)], folder)
    return row, path


# ---- the common part of the scripts


def show(columns, rows, notes=()):
    """Prints the notes and the table, in aligned columns."""
    for note in notes:
        print(note)
    texts = [[cell(value) for value in row] for row in [columns, *rows]]
    widths = [max(map(len, column)) for column in zip(*texts)]
    for row in texts:
        print("  ".join(text.ljust(width) for text, width in zip(row, widths)).rstrip(), flush=True)
    print()


def parser(text, runs=None):
    """Returns a parser of the command line with `--out`, and with `--runs` if a number of runs is given. `text` is its help."""
    made = argparse.ArgumentParser(description=text, formatter_class=argparse.RawDescriptionHelpFormatter)
    if runs:
        made.add_argument("--runs", type=int, default=runs, metavar="N", help=f"how often each program runs (default {runs})")
    made.add_argument("--out", nargs="?", type=pathlib.Path, const=FOLDER, metavar="FOLDER",
                      help="also write the results into this folder (without a name: bench/results)")
    return made


def report(settings, what, columns, rows, notes=(), shown=()):
    """Prints a table, and writes it if the command line has `--out`. If columns are `shown`, only those are printed."""
    places = [columns.index(name) for name in shown or columns]
    show([columns[place] for place in places], [[row[place] for place in places] for row in rows], notes)
    if settings.out:
        print(f"written to {write(what, columns, rows, settings.out, notes)}\n")
