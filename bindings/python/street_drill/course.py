"""The course of a drill, day by day: what is written as rows, told as a summary and drawn on the page.

  Course      columns by name, with bands where there were several runs
  of_runs     from forecasts; of_columns: from the columns of each run
  opening     the day from which so many streets stay held; touch: the first that holds so many
  days_table  a row a day; as_csv: a table as CSV
  duration    seconds as a planner says them; days_told: days
"""

import ctypes
import math
from array import array
from collections.abc import Mapping, Sequence
from dataclasses import dataclass
from datetime import date, timedelta

from .decimals import shortest
from .files import csv_text
from .model import Forecast
from .origin import Origin

COLUMNS = ("learned", "reviewed", "correct", "introduced", "due", "cost", "memorized")
# What is so at a day's end; the others are that day's own.
STANDING = ("introduced", "memorized")

Columns = Mapping[str, Sequence[float]]


@dataclass(frozen=True)
class Band:
    """Of several runs, by day: the mean, and the tenth and the ninetieth percentile."""

    mean: tuple[float, ...]
    p10: tuple[float, ...]
    p90: tuple[float, ...]


@dataclass(frozen=True)
class Course:
    """A column has a value a day; a listing has no column `due`. There are no bands where there was one run.

    `columns` are the first run's, `each` those of every run where there are several. `first_day` is the date of day 0.
    `notes` are what else a planner is to be told, each with its label, and `origin` is what it was made from.
    """

    name: str
    columns: Columns
    bands: Mapping[str, Band]
    each: tuple[Columns, ...] = ()
    first_day: date | None = None
    notes: tuple[tuple[str, str], ...] = ()
    origin: Origin | None = None

    @property
    def span(self) -> int:
        """How many days it has."""
        return len(self.columns["cost"])

    @property
    def runs(self) -> tuple[Columns, ...]:
        """The columns of every run."""
        return self.each or (self.columns,)

    def date(self, day: int) -> str:
        """The day as a date, empty where no first day was given."""
        return (self.first_day + timedelta(day)).isoformat() if self.first_day else ""

    def day(self, day: int) -> str:
        """The day as a planner reads it."""
        return f"{self.date(day)} (day {day})" if self.first_day else f"day {day}"


def columns_of(forecast: Forecast) -> Columns:
    """They take much less room than the forecast's rows."""
    rows, span = forecast.rows, len(forecast.rows)
    counts = {name: array("I", [getattr(day, name) for day in rows])
              for name in ("learned", "reviewed", "correct", "introduced")}
    sums = {name: array("f", [getattr(day, name) for day in rows]) for name in ("cost", "memorized")}
    return {**counts, "due": array("I", forecast.due[:span]), **sums}


def percentile(values: Sequence[float], share: float) -> float:
    """Of sorted values: the one at that share of the way, between two by the straight line."""
    place = share * (len(values) - 1)
    low = math.floor(place)
    high = min(low + 1, len(values) - 1)
    # Without a step nothing is added: the difference of two infinities, and 0 of one, are no numbers.
    step = 0.0 if place == low or values[low] == values[high] else (place - low) * (values[high] - values[low])
    return values[low] + step


def spread(values: Sequence[float]) -> tuple[float, float, float]:
    """The mean, and the tenth and the ninetieth percentile."""
    mean = sum(values) / len(values)
    if math.isnan(mean):
        # What is no number has no place in an order.
        return mean, mean, mean
    in_order = sorted(values)
    return mean, percentile(in_order, 0.1), percentile(in_order, 0.9)


def _band(runs: Sequence[Sequence[float]]) -> Band:
    return Band(*zip(*map(spread, zip(*runs))))


def of_columns(name: str, runs: Sequence[Columns]) -> Course:
    """The first run's course, with bands where there are more."""
    columns = {column: tuple(values) for column, values in runs[0].items()}
    if len(runs) == 1:
        return Course(name, columns, {})
    bands = {column: _band([run[column] for run in runs]) for column in columns}
    return Course(name, columns, bands, tuple(runs))


def of_runs(name: str, forecasts: Sequence[Forecast]) -> Course:
    """The first forecast's course, with bands where there are more."""
    return of_columns(name, list(map(columns_of, forecasts)))


def touch(held: Sequence[float], streets: int) -> int | None:
    """The first day on which so many streets are held; they may be fewer again later."""
    return next((day for day, number in enumerate(held) if number >= streets), None)


def opening(held: Sequence[float], streets: int) -> int | None:
    """The day from which so many streets stay held to the end."""
    # What is no number is not held.
    short = [day for day, number in enumerate(held) if not number >= streets]
    first = short[-1] + 1 if short else 0
    return first if first < len(held) else None


def busiest(costs: Sequence[float]) -> int:
    """The first day that costs most."""
    return max(range(len(costs)), key=lambda day: (-math.inf if math.isnan(costs[day]) else costs[day], -day))


# A name, a head and rows.
Table = tuple[str, Sequence[str], Sequence[Sequence[float | str]]]


def values_table(name: str, lead: Mapping[str, Sequence[float | str]], course: Course) -> Table:
    """The leading columns, then the course's. Of several runs a column is the mean, and beside it stand the tenth and
    the ninetieth percentile and the first run."""
    columns: dict[str, Sequence[float | str]] = dict(lead)
    for column in COLUMNS:
        if column in course.bands:
            band = course.bands[column]
            columns |= {column: band.mean, f"{column}_p10": band.p10, f"{column}_p90": band.p90,
                        f"{column}_first": course.columns[column]}
        elif column in course.columns:
            columns[column] = course.columns[column]
    return name, list(columns), list(zip(*columns.values()))


def days_table(course: Course) -> Table:
    """A row a day."""
    days = range(course.span)
    dates = {"date": [course.date(day) for day in days]} if course.first_day else {}
    return values_table(course.name, {"day": days, **dates}, course)


def _text(value: float | str) -> str:
    """Means, percentiles and sums are no f32, and are rounded to one, which is more than they are worth."""
    return shortest(ctypes.c_float(value).value) if isinstance(value, float) else str(value)


def as_csv(table: Table) -> str:
    """A table without its name; floats by the fewest digits."""
    _, head, rows = table
    return csv_text([head, *([_text(value) for value in row] for row in rows)])


def duration(seconds: float) -> str:
    """As a planner says it: 40 s, 12 min, 1 h 05 min."""
    if not math.isfinite(seconds):
        return "no finite time"
    if seconds < 59.5:
        return f"{seconds:.0f} s"
    minutes = round(seconds / 60)
    return f"{minutes // 60:,} h {minutes % 60:02} min" if minutes >= 60 else f"{minutes} min"


def days_told(number: int) -> str:
    """So many days."""
    return "1 day" if number == 1 else f"{number:,} days"
