"""What a planner asks first of a course, each with its label: the page's summary and the terminal's.

  facts     labels and what stands by them
  summary   the same as lines
"""

from collections import Counter
from collections.abc import Callable, Sequence

from . import opens, periods
from .course import Course, busiest, days_told, duration, spread
from .periods import Stretch

_ONE_RUN = "one; --runs tells how much is luck"
# So many weeks or months are told one by one.
_FIRST = 4


def _spread(values: Sequence[float], told: Callable[[float], str] = duration) -> str:
    """One value as it is; of several the mean, with the tenth and the ninetieth percentile."""
    mean, low, high = map(told, spread(values))
    return mean if len(values) == 1 else f"{mean} ({low} to {high})"


# ---- costs


def worst(costs: Sequence[Sequence[float]]) -> tuple[int, int, list[float]]:
    """Which day or week is most often the worst of a run, in how many of the runs, and what each run's costs."""
    places = [busiest(run) for run in costs]
    often, number = Counter(sorted(places)).most_common(1)[0]
    return often, number, [run[place] for run, place in zip(costs, places)]


def _worst(costs: Sequence[Sequence[float]], told: Callable[[int], str]) -> str:
    place, number, values = worst(costs)
    if len(values) == 1:
        return f"{told(place)}, {_spread(values)}"
    # What is so in one of the runs is luck.
    often = f", most often {told(place)}, in {number} of {len(values)} runs" if number > 1 else ""
    return f"{_spread(values)}{often}"


def _part(each: Stretch) -> str:
    """What stands before a stretch's cost: a month of the calendar has its name, and what is not whole its days."""
    days = "" if each.is_whole else days_told(len(each.days))
    if each.name.isdigit():
        return f"{days}: " if days else ""
    return f"{each.name} ({days}): " if days else f"{each.name}: "


def _by(course: Course, kind: str, stretches: Sequence[Stretch]) -> list[tuple[str, str]]:
    """By week or month: the first ones; and of whole ones the mean and the worst, where there are two. Half a week
    would make both too small."""
    if len(stretches) < 2:
        return []
    first = zip(stretches[:_FIRST], zip(*periods.costs(course, stretches)))
    told = [(f"first {kind}s", ", ".join(f"{_part(each)}{_spread(costs)}" for each, costs in first))]
    whole = [each for each in stretches if each.is_whole]
    if len(whole) < 2:
        return told
    costs = periods.costs(course, whole)
    mean = _spread([sum(run) / len(whole) for run in costs])
    of = "" if len(whole) == len(stretches) else f", of {len(whole)} whole {kind}s"
    names = [f"{kind} {each.name}" if each.name.isdigit() else each.name for each in whole]
    worst = _worst(costs, lambda place: f"{names[place]}, from {course.day(whole[place].days.start)}")
    return [*told, (f"mean {kind}", f"{mean}{of}"), (f"worst {kind}", worst)]


# ---- the whole


def _held(course: Course) -> str:
    held = _spread([run["memorized"][-1] for run in course.runs], lambda streets: f"{streets:,.1f}")
    introduced, _, _ = spread([run["introduced"][-1] for run in course.runs])
    return f"{held} of {introduced:,.{1 if introduced % 1 else 0}f} introduced"


def _span(course: Course) -> str:
    days = days_told(course.span)
    return f"{days}, {course.date(0)} to {course.date(course.span - 1)}" if course.first_day else days


def facts(course: Course, streets: int | None) -> list[tuple[str, str]]:
    """What a planner asks first; days count from 0. `streets` is what --open asks for."""
    runs = len(course.each)
    of_runs = f"{runs}: means, with the tenth and the ninetieth percentile" if runs else _ONE_RUN
    return [("span", _span(course)),
            ("runs", of_runs),
            *(opens.told(course, streets) if streets is not None else []),
            ("held on the last day", _held(course)),
            ("in all", _spread([sum(run["cost"]) for run in course.runs])),
            ("busiest day", _worst([run["cost"] for run in course.runs], course.day)),
            *_by(course, "week", periods.weeks(course)),
            *_by(course, "month", periods.months(course)),
            *course.notes]


def summary(course: Course, streets: int | None) -> str:
    """Some lines for the terminal."""
    return "".join([f"{course.name}\n", *(f"  {label}: {value}\n" for label, value in facts(course, streets))])
