"""Maps event numbers to positions on a drawing.

A gap of more than MOST_GAP numbers without an event of a drawn call is drawn as wide as MOST_GAP numbers. So neither a long batch nor a
changed stamp squeezes the rest of a drawing. Positions are percentages of the drawing's width.
"""
import bisect

MOST_GAP = 20
MOST_TICKS = 12
MARGIN, OPEN_MARGIN = 1.5, 9


class Axis:
    """The axis of a drawing with these events. With `has_open` it leaves room after the last one."""

    def __init__(self, stamps, has_open=False):
        self.room = 100 - MARGIN - (OPEN_MARGIN if has_open else MARGIN)
        self.stamps = sorted(set(stamps))
        self.sums = [0]
        for before, stamp in zip(self.stamps, self.stamps[1:]):
            self.sums.append(self.sums[-1] + min(stamp - before, MOST_GAP))
        self.width = self.sums[-1] or 1

    def at(self, stamp):
        """Returns the position of an event; for one outside of the drawing, that of the nearer end."""
        index = min(bisect.bisect_left(self.stamps, stamp), len(self.stamps) - 1)
        return self._position(self.sums[index])

    def _position(self, units):
        return round(MARGIN + self.room * units / self.width, 3)

    def gaps(self):
        """Returns the positions of the middles of shortened gaps."""
        middles = []
        for index, stamp in enumerate(self.stamps[1:]):
            if stamp - self.stamps[index] > MOST_GAP:
                middles.append(self._position((self.sums[index] + self.sums[index + 1]) / 2))
        return middles

    def ticks(self):
        """Returns numbers with their positions: round ones, and the first one after each gap, if there is room."""
        step = self._step()
        ticks, last = [], None
        for number, units, is_after_gap in self._numbers():
            if number % step and not is_after_gap:
                continue
            if last is None or units - last >= self.width / (MOST_TICKS + 2):
                ticks.append((number, self._position(units)))
                last = units
        return ticks

    def _step(self):
        """Returns the smallest of 1, 2, 5, 10, 20, 50, .. that makes few enough ticks."""
        step, factors = 1, (2, 2.5, 2)
        turn = 0
        while self.width / step > MOST_TICKS:
            step, turn = int(step * factors[turn % 3]), turn + 1
        return step

    def _numbers(self):
        """Yields every number outside of shortened gaps, with its units, and whether it is the first one or follows a gap."""
        yield self.stamps[0], 0, True
        for index, stamp in enumerate(self.stamps[1:]):
            before, units = self.stamps[index], self.sums[index]
            if stamp - before > MOST_GAP:
                yield stamp, self.sums[index + 1], True
                continue
            for offset in range(1, stamp - before + 1):
                yield before + offset, units + offset, False
