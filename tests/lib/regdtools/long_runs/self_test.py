"""Tests the search for the smallest failing input: on lists, and on programs with a planted fault.

The planted fault is a program in front of regd. After an agent was set, it changes one reply of `regd plain` that shows an agent. The
smallest input that shows this has two requests of one operation each.
"""
import json
import os
import pathlib
import sys
import tempfile

from regdtools import program, schedules
from regdtools.long_runs import pieces, shrinking
from regdtools.wrong import Wrong, expect

# it imports little, since a search starts it hundreds of times
PLANTED = """#!{python} -ISE
import os, sys
if sys.argv[1] != "plain":
    os.execv({regd!r}, [{regd!r}, *sys.argv[1:]])
(child_in, to_child), (from_child, child_out) = os.pipe(), os.pipe()
if os.fork() == 0:
    os.dup2(child_in, 0)
    os.dup2(child_out, 1)
    os.closerange(3, 20)
    os.execv({regd!r}, [{regd!r}, *sys.argv[1:]])
os.close(child_in)
os.close(child_out)
replies = os.fdopen(from_child, "rb")
is_set = is_changed = False
for line in sys.stdin.buffer:
    os.write(to_child, line)
    if not line.endswith(b"\\n"):
        os.close(to_child)
    reply = replies.readline()
    if is_set and not is_changed and reply.endswith(b'"answered"}}\\n') and b'{{"agent":' in reply:
        is_changed, reply = True, reply.replace(b'"place":', b'"place":9')
    is_set = is_set or reply.endswith(b'"committed"}}\\n') and b'{{"agent":{{' in reply
    sys.stdout.buffer.write(reply)
    sys.stdout.buffer.flush()
os.closerange(to_child, to_child + 1)
sys.exit(os.waitstatus_to_exitcode(os.wait()[1]))
"""
# the longest search on a busy machine
SECONDS = 300


def search_lists():
    """Searches lists and lines whose smallest failing input is known."""

    def fails(items):
        return "wrong" if {3, 700} <= set(items) else None

    found = shrinking.Search(fails, lambda item: (), lambda item: item, lambda item: item % 10, SECONDS).smallest(list(range(1_000)))
    expect(found, [3, 700], "a list")

    line = b'{"ops":[{"op":"show","id":"x"},{"op":"prune","before":900,"zz":[1,2,{"a":"long text"}]}],"after":3}\n'

    def has_prune(items):
        value = shrinking.object_of(items[0])
        return "wrong" if value and any(op.get("op") == "prune" and op.get("before", 0) > 100 for op in value.get("ops", [])) else None

    search = shrinking.Search(has_prune, shrinking.simpler_line, shrinking.weight_of, lambda item: None, SECONDS)
    expect(search.smallest([line]), [b'{"ops":[{"op":"prune","before":101}]}\n'], "a line")

    def has_bytes(items):
        return "wrong" if items[0].count(b"\xff") > 1 else None

    search = shrinking.Search(has_bytes, shrinking.simpler_line, shrinking.weight_of, lambda item: None, SECONDS)
    expect(search.smallest([b'{"ops": \xff[\xfe{"op"\xff:7}\n']), [b"\xff\xff\n"], "a line that is no JSON")


def planted(folder):
    """Writes the program with the fault and returns its path."""
    path = pathlib.Path(folder) / "regd"
    path.write_text(PLANTED.format(python=sys.executable, regd=str(program.program())))
    path.chmod(0o755)
    return path


def failing(kind, amount):
    """Returns the reason and the items of the first piece that fails."""
    for piece in range(20):
        found = pieces.run_piece(kind, "self-test", piece, amount)
        if found.reason:
            if found.items is None:
                raise Wrong(found.reason)
            return found
    raise Wrong(f"{kind.name}: no piece shows the planted fault")


def requests_in(kind, items):
    """Returns the operations of the requests in a failing input, request by request."""
    values = [json.loads(kind.bytes_of(item)) for item in items]
    batches = [json.loads(value["line"]) if "line" in value else value.get("batch", value) for value in values]
    return [[op["op"] for op in batch["ops"]] for batch in batches if "ops" in batch]


def search_planted(kind, amount):
    """Searches the smallest input of a kind that shows the planted fault. Returns a line for the report."""
    found = failing(kind, amount)
    expect(kind.fails(found.items) is not None, True, f"{kind.name}: the whole input fails again")
    search = shrinking.Search(kind.fails, kind.simpler, kind.weight, kind.group, SECONDS)
    items = search.smallest(found.items)
    expect([[names[0]] for names in requests_in(kind, items)], requests_in(kind, items), f"{kind.name}: one operation each")
    expect(len(requests_in(kind, items)), 2, f"{kind.name}: the number of requests")
    expect(kind.fails([kind.item_of(kind.bytes_of(item)) for item in items]) is not None, True, f"{kind.name}: the stored input fails")
    size = sum(len(kind.bytes_of(item)) for item in items)
    if os.environ.get("SHOW"):
        print(*map(kind.bytes_of, items), sep="\n")
    return f"{kind.name}: {len(found.items)} items, then {len(items)} of {size} bytes after {search.attempts} attempts"


def run(kinds):
    """Runs all tests. Prints a line for each, and returns true if all passed."""
    before = os.environ.get("REGD")
    try:
        search_lists()
        print("lists and lines: as expected", flush=True)
        with tempfile.TemporaryDirectory() as folder:
            os.environ["REGD"] = str(planted(folder))
            schedules.executable.cache_clear()
            for kind, amount in kinds:
                kind.attempts = 1  # the planted fault doesn't depend on time
                print(search_planted(kind, amount), flush=True)
    except Wrong as wrong:
        print(f"self-test: {wrong}")
        return False
    finally:
        os.environ.pop("REGD")
        if before:
            os.environ["REGD"] = before
        schedules.executable.cache_clear()
    return True
