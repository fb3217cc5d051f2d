"""What a check raises, and the comparison that most checks need."""


class Wrong(Exception):
    """Something that is not as expected: the reason, and the items of the input that led to it where a search can make them fewer."""

    def __init__(self, reason, items=None):
        super().__init__(reason)
        self.reason, self.items = reason, items


def expect(got, expected, what):
    """Raises Wrong if a value is not the expected one."""
    if got != expected:
        raise Wrong(f"{what}: got {got!r}, expected {expected!r}")
