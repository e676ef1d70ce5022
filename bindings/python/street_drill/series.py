"""What is drawn of a series of values: stretches without a gap, a long one thinned; and a smoothed one.

  stretches               the days in stretches
  thinned, thinned_band   a stretch of values, or of lows and highs, with as many points as a picture can show
  smoothed                the mean of the days around each; window: how many days
"""

import math
from collections.abc import Iterable, Iterator, Sequence
from itertools import accumulate

# More days are drawn by the least and the greatest of each so many parts: a picture has fewer points across.
_MOST_POINTS, _PARTS = 1000, 500
# Days that the smoothed line is the mean of: the first that is a hundredth of the span.
_WINDOWS = (7, 30, 90, 365)

# Days in a row, each with its values.
Stretch = list[tuple[int, tuple[float, ...]]]


def stretches(values: Iterable[tuple[float, ...]]) -> Iterator[Stretch]:
    """The days in stretches without a value that is infinite or no number: there a line is broken."""
    stretch: Stretch = []
    for day, places in enumerate(values):
        if all(map(math.isfinite, places)):
            stretch.append((day, places))
        elif stretch:
            yield stretch
            stretch = []
    if stretch:
        yield stretch


def _parts(stretch: Stretch) -> Iterator[Stretch]:
    size = math.ceil(len(stretch) / _PARTS)
    return (stretch[start : start + size] for start in range(0, len(stretch), size))


def thinned(stretch: Stretch) -> Stretch:
    """Of a long stretch the least and the greatest value of each part, in the order of their days."""
    if len(stretch) <= _MOST_POINTS:
        return stretch
    ends = ({min(part, key=lambda each: each[1]), max(part, key=lambda each: each[1])} for part in _parts(stretch))
    return [point for part in ends for point in sorted(part)]


def thinned_band(stretch: Stretch) -> Stretch:
    """Of a long stretch the widest of each part, on its first day."""
    if len(stretch) <= _MOST_POINTS:
        return stretch
    return [(part[0][0], (min(low for _, (low, _) in part), max(high for _, (_, high) in part)))
            for part in _parts(stretch)]


def window(span: int) -> int:
    """How many days the smoothed line is the mean of, 0 where so few days need none."""
    if span < 3 * _WINDOWS[0]:
        return 0
    return next((days for days in _WINDOWS if 100 * days >= span), _WINDOWS[-1])


def smoothed(values: Sequence[float], days: int) -> list[float]:
    """The mean of the days around each, of fewer at both ends; nothing where some value is no finite number."""
    if not all(map(math.isfinite, values)):
        return []
    sums = [0.0, *accumulate(values)]
    ends = [(max(0, day - days // 2), min(len(values), day + (days + 1) // 2)) for day in range(len(values))]
    return [(sums[end] - sums[start]) / (end - start) for start, end in ends]
