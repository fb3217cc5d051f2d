"""Generates malformed lines, and computes independently what the program answers to each: used by tests/system/malformed-lines."""
