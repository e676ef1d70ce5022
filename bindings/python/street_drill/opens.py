"""From when so many streets are held, as far as the span tells.

  stays, firsts   the days from which they stay held to its end, and those that first hold so many
  shares          of the runs' days those on which half, nine of ten and all are there
  told            both in words, each with its label; in_runs: in how many of the runs
"""

from bisect import bisect_right
from collections.abc import Sequence
from dataclasses import dataclass

from .course import Course, days_told, opening, touch

# What was held for fewer days, to the end of the span, may be forgotten right behind it.
LEAST = 28
# Of ten runs, so many are told by when.
_TENTHS = (5, 9, 10)


@dataclass(frozen=True)
class Milestone:
    """A day by which so many of the runs are there, and how many days it is to the end of the span."""

    day: int
    runs: int
    days: int

    @property
    def is_near(self) -> bool:
        """Whether it is too near the end to tell anything."""
        return self.days < LEAST


def shares(days: Sequence[int | None]) -> list[int | None]:
    """The days on which half of the runs, nine of ten and all are there; none where a run is never there."""
    there = sorted(day for day in days if day is not None)
    numbers = [-(-tenths * len(days) // 10) for tenths in _TENTHS]
    return [there[number - 1] if number <= len(there) else None for number in numbers]


def _milestones(course: Course, days: Sequence[int | None]) -> list[Milestone]:
    """The shares, and the last run that is ever there."""
    there = sorted(day for day in days if day is not None)
    wanted = sorted({*there[-1:], *(day for day in shares(days) if day is not None)})
    return [Milestone(day, bisect_right(there, day), course.span - day) for day in wanted]


def stays(course: Course, streets: int) -> list[Milestone]:
    """From when so many streets stay held to the end of the span."""
    return _milestones(course, [opening(run["memorized"], streets) for run in course.runs])


def firsts(course: Course, streets: int) -> list[Milestone]:
    """When so many streets are held first; they may be fewer again later."""
    return _milestones(course, [touch(run["memorized"], streets) for run in course.runs])


def in_runs(course: Course, number: int) -> str:
    """In how many of the runs; nothing where there is one."""
    runs = len(course.runs)
    if runs == 1:
        return ""
    return f"in all {runs} runs" if number == runs else f"in {number} of {runs} runs"


def _never(course: Course, there: Sequence[Milestone]) -> str:
    """What is told of the runs that are never there."""
    number = len(course.runs) - (there[-1].runs if there else 0)
    return f"{in_runs(course, number)} on no day".strip() if number else ""


def _stays_told(course: Course, streets: int) -> str:
    there = stays(course, streets)
    told = [f"{in_runs(course, each.runs)} from {course.day(each.day)}, seen for {days_told(each.days)}".strip()
            for each in there]
    sure = [text for text, each in zip(told, there) if not each.is_near]
    near = [text for text, each in zip(told, there) if each.is_near]
    doubt = f"too near the span's end to tell (run a longer span): {', '.join(near)}" if near else ""
    return "; ".join(filter(None, [", ".join(sure), doubt, _never(course, there)]))


def _firsts_told(course: Course, streets: int) -> str:
    there, by = firsts(course, streets), "by" if course.each else "on"
    told = [f"{in_runs(course, each.runs)} {by} {course.day(each.day)}".strip() for each in there]
    return ", ".join(filter(None, [*told, _never(course, there)]))


def told(course: Course, streets: int) -> list[tuple[str, str]]:
    """From when so many streets stay held, and when they are held first."""
    return [(f"{streets:,} streets held to the end", _stays_told(course, streets)),
            (f"{streets:,} streets first held", _firsts_told(course, streets))]
