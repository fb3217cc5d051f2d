"""Checks that calls that promise to allocate nothing do so.

The program bench/drivers/without_memory.rattle makes everything that a call needs, and then makes the call once or not at all. A call
allocates nothing if both runs have the same number of allocations: then there is none that could fail.
"""

import sys

from regdtools import drivers
from regdtools.allocations import Runs

DRIVER = "without_memory"
CRATES = ["spiffe_name", "entry_book", "plain_book", "version_shelf", "version_book", "test_batches", "batch_work", "commit_head",
          "call_events", "call_answers", "shared_registry", "line_devices", "line_reading", "reg_lines"]
# the calls in families of up to ten; the driver numbers them 0 to 9, 10 to 19 and so on
FAMILIES = [
    ["SelectorSet::within", "SelectorSet::meets"],
    ["SpiffeId::domain", "SpiffeId::path", "SpiffeId::as_str", "TrustDomain::as_str"],
    ["Shelf::len", "Shelf::has_room", "Shelf::get", "Shelf::find", "Shelf::range", "Shelf::range_from", "Shelf::rows"],
    ["Version::number", "Version::count", "Version::unchanged", "Window::newest", "Window::book", "Version::server", "Version::entry",
     "Version::agent", "Version::bundle"],
    ["Work::status", "Changes::hits", "Batch::is_query"],
    ["Head::place", "Head::kept", "Head::window", "Head::item", "Head::checkpoint", "Head::checkpoint_into"],
    ["Window::push", "SharedWindow::newest", "SharedWindow::book", "SharedWindow::next"],
    ["Head::finish"],
    ["PlainBook::place"],
    ["print_to of a reply", "print_to of L6", "print_to of L8", "print_to of a borrowed reply"],
    ["Seat::place", "Seat::number", "Seat::calls", "Seat::has_calls", "Seat::learn", "Seat::see_found"],
]
CALLS = {call: 10 * family + at for family, calls in enumerate(FAMILIES) for at, call in enumerate(calls)}


def check(folder, calls):
    unknown = [call for call in calls if call not in CALLS]
    if unknown:
        sys.exit(f"unknown calls: {', '.join(unknown)}")
    program = drivers.built(folder, DRIVER, " ".join(CRATES))
    runs, wrong = Runs(folder), 0

    def allocations(call, times):
        """Returns what the driver printed, and how many allocations it made."""
        result = runs.run([program, str(CALLS[call]), str(times)])
        if result.status != 0:
            sys.exit(f"{call}, {times} times: {result}")
        return result.output.decode().strip().replace("\n", "; "), runs.count()

    calls = calls or list(CALLS)
    for call in calls:
        _, without = allocations(call, 0)
        answer, with_it = allocations(call, 1)
        wrong += with_it != without
        print(f"{call}: {answer[:60]}: {with_it - without} of {with_it} allocations", flush=True)
    print(f"{len(calls)} calls, {wrong} wrong")
    return 1 if wrong else 0
