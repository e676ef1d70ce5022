"""A course by weeks and months: seven days each from the first, and months of the calendar where the first day is
given, else thirty days each.

  weeks, months               the stretches of days
  costs                       what each stretch costs, of each run
  weeks_table, months_table   a row a week, a row a month
"""

from calendar import monthrange
from collections.abc import Sequence
from dataclasses import dataclass
from datetime import date, timedelta

from .course import STANDING, Columns, Course, Table, of_columns, values_table

WEEK, MONTH = 7, 30


@dataclass(frozen=True)
class Stretch:
    """Some days in a row: a week by its number from 1, a month by its number or as Nov 2026."""

    name: str
    days: range
    is_whole: bool


def _blocks(span: int, length: int) -> list[Stretch]:
    starts = range(0, span, length)
    return [Stretch(str(number), range(start, min(start + length, span)), start + length <= span)
            for number, start in enumerate(starts, start=1)]


def weeks(course: Course) -> list[Stretch]:
    """The last may have fewer days."""
    return _blocks(course.span, WEEK)


def _length(day: date) -> int:
    """How many days the day's month has."""
    _, days = monthrange(day.year, day.month)
    return days


def months(course: Course) -> list[Stretch]:
    """The last, and the first of the calendar's, may have fewer days."""
    first = course.first_day
    if first is None:
        return _blocks(course.span, MONTH)
    dates = [first + timedelta(day) for day in range(course.span)]
    starts = [day for day, each in enumerate(dates) if day == 0 or each.day == 1]
    spans = [range(start, end) for start, end in zip(starts, [*starts[1:], course.span])]
    return [Stretch(f"{dates[days.start]:%b %Y}", days, len(days) == _length(dates[days.start])) for days in spans]


def _sums(values: Sequence[float], stretches: Sequence[Stretch]) -> list[float]:
    return [sum(values[each.days.start : each.days.stop]) for each in stretches]


def costs(course: Course, stretches: Sequence[Stretch]) -> list[list[float]]:
    """Seconds of each stretch, of each run."""
    return [_sums(run["cost"], stretches) for run in course.runs]


def _by(stretches: Sequence[Stretch], columns: Columns) -> Columns:
    """A value a stretch: what its days come to, or what stands at its end."""
    return {name: [values[each.days[-1]] for each in stretches] if name in STANDING else _sums(values, stretches)
            for name, values in columns.items()}


def _table(kind: str, course: Course, stretches: Sequence[Stretch]) -> Table:
    days = [each.days for each in stretches]
    lead = {kind: [each.name for each in stretches], "day": [each.start for each in days]}
    dates = {"date": [course.date(each.start) for each in days]} if course.first_day else {}
    summed = of_columns(course.name, [_by(stretches, run) for run in course.runs])
    return values_table(f"{course.name} by {kind}", {**lead, **dates, "days": list(map(len, days))}, summed)


def weeks_table(course: Course) -> Table:
    """A row a week: `day` is its first."""
    return _table("week", course, weeks(course))


def months_table(course: Course) -> Table:
    """A row a month: `day` is its first."""
    return _table("month", course, months(course))
