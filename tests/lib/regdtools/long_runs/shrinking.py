"""Searches for the smallest failing input.

An input is a list of items: lines, events or faults. `smallest` drops items, first in large groups and then one by one, and then makes the
items that are left smaller. Each attempt runs the check again, so a search ends after a given time with the smallest input found by then.
"""
import json
import time


def without_groups(items, size):
    """Yields the list without each group of `size` items in a row."""
    for begin in range(0, len(items), size):
        yield items[:begin] + items[begin + size :]


def shorter(items, least=1):
    """Yields the list or text without larger and then smaller groups of its items, down to groups of `least` items."""
    size = len(items)
    while size >= least > 0:
        yield from without_groups(items, size)
        size //= 2


def simpler_number(value):
    return (other for other in (0, 1, value // 2, value - 1) if 0 <= other < value)


def simpler(value):
    """Yields smaller JSON values of the same type, the smallest ones first."""
    if isinstance(value, dict):
        yield from ({key: value[key] for key in value if key != name} for name in value)
        for name in value:
            if name != "op":  # a part of an operation's name is no operation
                yield from ({**value, name: other} for other in simpler(value[name]))
    elif isinstance(value, list):
        yield from shorter(value)
        for index, item in enumerate(value):
            yield from (value[:index] + [other] + value[index + 1 :] for other in simpler(item))
    elif isinstance(value, str):
        yield from shorter(value, 1 + len(value) // 8)
    elif type(value) is int:
        yield from simpler_number(value)


def weight_of(data):
    """Returns what a search compares for bytes: a shorter text is smaller, and of texts with the same length the first in their order."""
    return len(data), data


def compact(value):
    """Returns the compact JSON text of a value."""
    return json.dumps(value, ensure_ascii=False, separators=(",", ":"))


def object_of(line):
    """Returns the JSON object in the bytes of a line, or None."""
    try:
        value = json.loads(line)
        compact(value).encode()
    except (ValueError, RecursionError):
        return None
    return value if isinstance(value, dict) else None


def simpler_line(line):
    """Yields smaller lines. A line of a JSON object becomes a line of a smaller object; of any line, bytes are left out."""
    ended = line.removesuffix(b"\n")
    feed = line[len(ended) :]
    value = object_of(ended)
    if value is not None:
        yield compact(value).encode() + feed
        if compact(value).encode() == ended:
            yield from (compact(other).encode() + feed for other in simpler(value))
            return
    yield from (other + feed for other in shorter(ended))


class Search:
    """A search that ends after `seconds`.

    `fails` runs the check on a list of items and returns what is wrong, or None. `simpler` yields smaller versions of an item, and `weight`
    returns a number or text that is less for a smaller item. `group` returns what items have in common that may be dropped together.
    """

    def __init__(self, fails, simpler, weight, group, seconds, note=lambda text: None):
        self.fails, self.simpler, self.weight, self.group, self.note = fails, simpler, weight, group, note
        self.give_up = time.monotonic() + seconds
        self.attempts = 0
        self.reason = None

    def is_over(self):
        return time.monotonic() > self.give_up

    def accepts(self, items):
        """Returns true if the check fails for these items."""
        self.attempts += 1
        reason = self.fails(items)
        self.reason = reason or self.reason
        self.note(f"{self.attempts} attempts, {len(items)} items")
        return reason is not None

    def without_whole_groups(self, items):
        """Returns the items without the groups that the failure doesn't need."""
        for group in dict.fromkeys(map(self.group, items)):
            fewer = [item for item in items if self.group(item) != group]
            if not self.is_over() and len(fewer) < len(items) - 1 and fewer and self.accepts(fewer):
                items = fewer
        return items

    def dropped(self, items):
        """Returns the items without those that the failure doesn't need."""
        size = max(1, len(items) // 2)
        while not self.is_over():
            count, begin = len(items), 0
            while begin < len(items) and not self.is_over():
                fewer = items[:begin] + items[begin + size :]
                if fewer and self.accepts(fewer):
                    items = fewer
                else:
                    begin += size
            if size == 1 and len(items) == count:
                break
            size = max(1, min(size // 2, len(items)))
        return items

    def simplified(self, items, index):
        """Returns the items with the smallest version of one of them that still fails."""
        is_smaller = True
        while is_smaller and not self.is_over():
            is_smaller = False
            for other in self.simpler(items[index]):
                if self.weight(other) < self.weight(items[index]) and self.accepts(items[:index] + [other] + items[index + 1 :]):
                    items = items[:index] + [other] + items[index + 1 :]
                    is_smaller = True
                    break
                if self.is_over():
                    break
        return items

    def smallest(self, items):
        """Returns the smallest failing list that the search finds. `items` have to fail."""
        before = None
        while items != before and not self.is_over():
            before, items = items, self.dropped(self.without_whole_groups(items))
            for index in range(len(items)):
                items = self.simplified(items, index)
        return items
