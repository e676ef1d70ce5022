"""A picture: one column of all courses over the days, weeks or months, as SVG.

  picture   the whole figure
  frame     a figure's svg, of any parts
  swatch    a course's line, for its name
"""

import math
from collections.abc import Iterable, Iterator, Sequence
from datetime import date

from .axes import BOTTOM, HEIGHT, LEFT, RIGHT, WIDTH, Scale, amount, axis, below, grid
from .course import STANDING, Course
from .opens import Milestone, in_runs, stays
from .series import smoothed, stretches, thinned, thinned_band, window
from .views import Shown, View

TITLES = {
    "cost": "Time",
    "memorized": "Streets held in memory",
    "learned": "Streets learned",
    "reviewed": "Streets reviewed",
    "due": "Streets due",
}
COLOURS = 8
_DASHES = ("", "7 4", "2 3", "9 3 2 3")
# More days than these would stand on each other's names.
_MOST_OPENINGS = 4

# ---- the axis below


def _short_date(text: str, days: int) -> str:
    shown = date.fromisoformat(text)
    return f"{shown.day} {shown:%b}" if days < 365 else f"{shown:%b %Y}"


def _named(view: View) -> Iterator[tuple[float, str]]:
    """Marks of the days, weeks or months, by their dates where there are any."""
    shown = view.longest
    # Long names need more room, also in a narrow window.
    marks = 5 if shown.dates or view.last >= 1000 else 8
    # Days count from 0, weeks and months from 1.
    offset = 1 if shown.names[0] == "1" else 0
    for place in (round(mark) - offset for mark in axis(view.last, marks=marks)):
        if 0 <= place < len(shown.names):
            by_date = shown.dates and view.kind != "month"
            yield place, _short_date(shown.dates[place], shown.first[-1]) if by_date else _grouped(shown.names[place])


def _grouped(name: str) -> str:
    return f"{int(name):,}" if name.isdigit() else name


# ---- lines and bands


def _points(scale: Scale, places: Iterable[tuple[float, float]]) -> str:
    return "L".join(f"{scale.x(place):.1f} {scale.y(value):.1f}" for place, value in places)


def _classes(kind: str, course: int) -> str:
    """By its colour, and by the course, whose line may be switched off."""
    return f"{kind} c{course % COLOURS} l{course}"


def _dash(course: int) -> str:
    return _DASHES[course // COLOURS % len(_DASHES)]


def _line(scale: Scale, values: Iterable[float], course: int, kind: str) -> Iterator[str]:
    for whole in stretches(zip(values)):
        stretch = thinned(whole)
        points = _points(scale, [(day, value) for day, (value,) in stretch])
        # A stretch of one day is a dot: a line to itself with round ends.
        lone = f"L{points}" if len(stretch) == 1 else ""
        yield f'<path class="{_classes(kind, course)}" stroke-dasharray="{_dash(course)}" d="M{points}{lone}"/>'


def _band(scale: Scale, lows: Iterable[float], highs: Iterable[float], course: int) -> Iterator[str]:
    for whole in stretches(zip(lows, highs)):
        stretch = thinned_band(whole)
        there = _points(scale, [(day, high) for day, (_, high) in stretch])
        back = _points(scale, [(day, low) for day, (low, _) in reversed(stretch)])
        yield f'<path class="{_classes("band", course)}" d="M{there}L{back}Z"/>'


def swatch(course: int) -> str:
    """A piece of a course's line, to stand before its name."""
    return (f'<svg class="swatch" viewBox="0 0 28 8" aria-hidden="true">'
            f'<path class="course c{course % COLOURS}" stroke-dasharray="{_dash(course)}" d="M2 4L26 4"/></svg>')


# ---- the days from which so many streets stay held


def _named_day(course: Course, milestone: Milestone) -> str:
    """As the summary has it: in doubt where the end is too near, and of several runs with how many are there."""
    day = course.date(milestone.day) or f"day {milestone.day}"
    return f"{day}{'?' if milestone.is_near else ''} {in_runs(course, milestone.runs)}".rstrip()


def _across(scale: Scale, streets: int, clear: float) -> Iterator[str]:
    """A line at so many streets. The place below its end is free where all is left of it, from `clear` on; else its
    name stands above its start."""
    y = scale.y(streets)
    yield f'<line class="open" x1="{LEFT}" x2="{RIGHT}" y1="{y:.1f}" y2="{y:.1f}"/>'
    is_free = scale.x(clear) < RIGHT - 110 and y < BOTTOM - 20
    end, under, side = (RIGHT - 5, 14, "end") if is_free else (LEFT + 5, -5, "start")
    yield f'<text class="over" x="{end}" y="{y + under:.1f}" text-anchor="{side}">{amount(streets)} streets</text>'


def _openings(view: View, scale: Scale, courses: Sequence[Course], streets: int) -> Iterator[str]:
    """A line across at so many streets, and at each day that the summary tells a dot, a line down and the day."""
    days = [stays(course, streets) for course in courses]
    marks = sorted(((shown.place(each.day), number, each) for number, shown in enumerate(view.courses)
                    for each in days[number]), key=lambda mark: mark[:2])
    ends = [shown.place(there[-1].day) if there else len(shown.names) - 1 for shown, there in zip(view.courses, days)]
    y = scale.y(streets)
    yield from _across(scale, streets, max(ends))
    for place, number, _ in marks:
        x = scale.x(place)
        yield f'<line class="open l{number}" x1="{x:.1f}" x2="{x:.1f}" y1="{y:.1f}" y2="{BOTTOM}"/>'
    for row, (place, number, each) in enumerate(marks):
        x = scale.x(place)
        yield f'<circle class="{_classes("dot", number)}" cx="{x:.1f}" cy="{y:.1f}" r="4"/>'
        if len(marks) <= _MOST_OPENINGS:
            side, gap = ("start", 5) if x < (LEFT + RIGHT) / 2 else ("end", -5)
            yield (f'<text class="{_classes("over", number)}" x="{x + gap:.1f}" y="{BOTTOM - 7 - 17 * row}" '
                   f'text-anchor="{side}">{_named_day(courses[number], each)}</text>')


# ---- the whole


def _most(shown: Shown, column: str) -> float:
    names = (column, f"{column}_p90", f"{column}_first")
    return max((value for name in names for value in shown.columns.get(name, ()) if math.isfinite(value)), default=0)


def _lines(view: View, scale: Scale, column: str, days: int) -> Iterator[str]:
    """Bands at the back; of several runs the first is a thin line, and the mean the strong one."""
    for number, shown in enumerate(view.courses):
        lows, highs = [shown.columns.get(f"{column}_{end}", ()) for end in ("p10", "p90")]
        yield from _band(scale, lows, highs, number)
    for number, shown in enumerate(view.courses):
        values = shown.columns.get(column, ())
        yield from _line(scale, shown.columns.get(f"{column}_first", ()), number, "first")
        yield from _line(scale, values, number, "course")
        yield from _line(scale, smoothed(values, days) if days else (), number, "smooth")


def frame(title: str, parts: Iterable[str]) -> str:
    """The parts as one svg."""
    return (f'<svg viewBox="0 0 {WIDTH} {HEIGHT}" role="img" aria-label="{title}" tabindex="0">'
            f'{"".join(parts)}<g class="pointer"></g></svg>')


def _title(view: View, column: str) -> str:
    if column in STANDING:
        return TITLES[column]
    return f"{TITLES[column]} a {view.kind}"


def picture(view: View, courses: Sequence[Course], column: str, streets: int | None, legend: str = "") -> str:
    """`streets` is what --open asks for; the legend stands below the title."""
    time = column == "cost"
    goal = streets if streets and column == "memorized" else 0
    most = max(_most(shown, column) for shown in view.courses)
    marks = axis(max(most, goal) or 1, time)
    scale = Scale(view.last, marks[-1])
    # What stands at a day's end does not jump, and smoothed it would come to so many streets on another day.
    days = window(view.last + 1) if view.kind == "day" and column not in STANDING else 0
    parts = [*grid(scale, marks, time), *below(scale, _named(view), view.kind), *_lines(view, scale, column, days)]
    if goal:
        parts += _openings(view, scale, courses, goal)
    title = _title(view, column)
    return (f'<figure class="{"jumps" if days else ""}" data-view="{view.kind}" data-column="{column}" '
            f'data-top="{marks[-1]:g}"><figcaption>{title}</figcaption>{legend}{frame(title, parts)}</figure>')
