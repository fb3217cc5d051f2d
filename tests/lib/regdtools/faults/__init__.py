"""The subcommands of tests/faults/allocations: each makes every allocation of a kind of program fail in turn.

A module's `check` prints what was wrong, then one line with counts. It returns the exit status: 1 if anything was wrong.
"""
