"""Long random runs in pieces, each with a seed of its own, and the search for the smallest failing input: used by tests/system/long-runs."""
