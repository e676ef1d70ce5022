"""A picture's axes: where they have their marks, and how these are told.

  Scale         from values to a picture's units
  axis          marks from 0 up; amount: a mark's text
  grid, below   the marks across, and those of the axis below
"""

import math
from collections.abc import Iterable, Iterator
from dataclasses import dataclass

# A picture's own units; the browser scales it to the window.
WIDTH, HEIGHT = 480, 256
LEFT, RIGHT, TOP, BOTTOM = 58, 472, 14, 216
_TIME_STEPS = (1, 2, 5, 10, 20, 30, 60, 120, 300, 600, 900, 1800, 3600, 7200, 10800, 21600, 43200, 86400)


@dataclass(frozen=True)
class Scale:
    """From values to a picture's units."""

    last: float
    top: float
    first: float = 0

    def x(self, value: float) -> float:
        """From the left."""
        return LEFT + (value - self.first) / (self.last - self.first) * (RIGHT - LEFT)

    def y(self, value: float) -> float:
        """From the top."""
        return BOTTOM - value / self.top * (BOTTOM - TOP)


def _round_step(least: float) -> float:
    """The first of 1, 2, 5, 10, 20, 25, 50, .. that is not below."""
    power = 10.0 ** math.floor(math.log10(max(least, 1)))
    # 2.5 is no step of whole numbers.
    factors = (1, 2, 5, 10, 20) if power < 10 else (1, 2, 2.5, 5, 10, 20)
    return next(factor * power for factor in factors if factor * power >= least)


def axis(most: float, time: bool = False, marks: int = 5) -> list[float]:
    """Marks from 0 up to the first that is not below `most`."""
    least = most / marks
    if time:
        step = next((step for step in _TIME_STEPS if step >= least), None) or 3600 * _round_step(least / 3600)
    else:
        step = _round_step(least)
    return [number * step for number in range(max(1, math.ceil(most / step - 1e-9)) + 1)]


def amount(value: float, time: bool = False) -> str:
    """A number, or a time."""
    if not time:
        return f"{value:,.0f}" if value < 1e6 else f"{value:.3g}"
    if value >= 360_000_000:
        return f"{value / 3600:.2g} h"
    if value < 60:
        return f"{value:g} s" if value else "0"
    minutes = round(value / 60)
    if minutes < 60:
        return f"{minutes} min"
    return f"{minutes // 60:,} h {minutes % 60:02}" if minutes % 60 else f"{minutes // 60:,} h"


def grid(scale: Scale, marks: Iterable[float], time: bool = False) -> Iterator[str]:
    """A line across at each mark."""
    for mark in marks:
        y = scale.y(mark)
        yield f'<line class="grid" x1="{LEFT}" x2="{RIGHT}" y1="{y:.1f}" y2="{y:.1f}"/>'
        yield f'<text x="{LEFT - 6}" y="{y + 4:.1f}" text-anchor="end">{amount(mark, time)}</text>'


def below(scale: Scale, marks: Iterable[tuple[float, str]], title: str) -> Iterator[str]:
    """The marks of the axis below, and what it is of."""
    for place, text in marks:
        x = scale.x(place)
        yield f'<line class="grid" x1="{x:.1f}" x2="{x:.1f}" y1="{BOTTOM}" y2="{BOTTOM + 4}"/>'
        yield f'<text x="{x:.1f}" y="{BOTTOM + 18}" text-anchor="middle">{text}</text>'
    yield f'<text x="{(LEFT + RIGHT) / 2}" y="{HEIGHT - 4}" text-anchor="middle">{title}</text>'
