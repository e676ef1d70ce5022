"""What the pictures show: the courses by days, and by weeks and months where these are whole.

  Shown   one course by one kind of stretch
  View    all courses by one kind
  views   those that there are
"""

import math
from collections.abc import Mapping, Sequence
from dataclasses import dataclass
from typing import Any

from .course import STANDING, Course, Table, days_table
from .periods import Stretch, months, months_table, weeks, weeks_table


@dataclass(frozen=True)
class Shown:
    """A value a stretch in each column; of several runs the mean, with `_p10`, `_p90` and `_first` beside it."""

    names: Sequence[str]
    first: Sequence[int]
    days: Sequence[int]
    dates: Sequence[str]
    columns: Mapping[str, Sequence[float]]

    def place(self, day: int) -> float:
        """Where a day is: what stands at a stretch's end is drawn at its place, so the days before lie left of it."""
        stretch = sum(first <= day for first in self.first) - 1
        return max(0.0, stretch - 1 + (day - self.first[stretch] + 1) / self.days[stretch])


@dataclass(frozen=True)
class View:
    """`kind` is day, week or month."""

    kind: str
    courses: tuple[Shown, ...]

    @property
    def longest(self) -> Shown:
        """The course that has most stretches."""
        return max(self.courses, key=lambda shown: len(shown.names))

    @property
    def last(self) -> int:
        """Where the axis ends: of one stretch at 1, since it needs some width."""
        return max(1, len(self.longest.names) - 1)


def _shown(kind: str, table: Table) -> Shown:
    _, head, rows = table
    columns: dict[str, Any] = dict(zip(head, zip(*rows)))
    first = columns.pop("day")
    names = first if kind == "day" else columns.pop(kind)
    days = columns.pop("days", (1,) * len(first))
    return Shown(tuple(map(str, names)), first, days, columns.pop("date", ()), columns)


def _whole_only(kind: str, stretches: Sequence[Stretch], table: Table) -> Shown:
    """Half a week would look like an easy one: it has no number in the columns that are summed."""
    shown = _shown(kind, table)
    # `cost_p10` belongs to the column `cost`.
    columns = {name: values if name.partition("_")[0] in STANDING else
               [value if each.is_whole else math.nan for value, each in zip(values, stretches)]
               for name, values in shown.columns.items()}
    return Shown(shown.names, shown.first, shown.days, shown.dates, columns)


def views(courses: Sequence[Course]) -> list[View]:
    """By days always; by weeks and months where some course has two whole ones."""
    found = [View("day", tuple(_shown("day", days_table(course)) for course in courses))]
    for kind, stretches, table in [("week", weeks, weeks_table), ("month", months, months_table)]:
        made = tuple(_whole_only(kind, stretches(course), table(course)) for course in courses)
        if max(sum(map(math.isfinite, shown.columns["cost"])) for shown in made) >= 2:
            found.append(View(kind, made))
    return found
