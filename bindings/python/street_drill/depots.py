"""The depots of a region, a row each.

  table        for a file
  page_table   to be read; lines: the same for the terminal
"""

from collections.abc import Sequence

from . import course, facts, opens
from .course import Course, Table
from .region import total_of


def _cells(name: str, values: Sequence[float]) -> dict[str, float]:
    """One value, or of several runs the mean and the tenth and the ninetieth percentile."""
    return dict(zip((name, f"{name}_p10", f"{name}_p90"), course.spread(values) if len(values) > 1 else values))


def _days(depot: Course, days: dict[str, int | None]) -> dict[str, float | str]:
    """Days, and their dates where there are dates."""
    told: dict[str, float | str] = {}
    for name, day in days.items():
        told[name] = "" if day is None else day
        if depot.first_day:
            told[f"{name}_date"] = "" if day is None else depot.date(day)
    return told


def _seen(depot: Course, days: dict[str, int | None]) -> dict[str, float | str]:
    """How many days so many streets were seen to stay held, to the end of the span: few say little."""
    return {f"{name}_seen": "" if day is None else depot.span - day
            for name, day in days.items() if name.startswith("opens")}


def _openings(depot: Course, streets: int) -> dict[str, int | None]:
    """From when so many streets stay held, and when they are first; of several runs, half, nine of ten and all."""
    helds = [run["memorized"] for run in depot.runs]
    told: dict[str, int | None] = {}
    for name, of in [("opens", course.opening), ("first_held", course.touch)]:
        days = [of(held, streets) for held in helds]
        several = zip((f"{name}_half", f"{name}_most", f"{name}_all"), opens.shares(days))
        told |= dict(several) if depot.each else {name: days[0]}
    return told


def _row(depot: Course, streets: int | None) -> dict[str, float | str]:
    costs = [run["cost"] for run in depot.runs]
    busiest, times, worst = facts.worst(costs)
    seed = depot.origin.settings["seed"] if depot.origin else ""
    often = {"busiest_day_runs": times} if depot.each else {}
    openings = _openings(depot, streets) if streets else {}
    return {"depot": depot.name, "days": depot.span, "seed": seed, **_cells("seconds", list(map(total_of, costs))),
            **_days(depot, {"busiest_day": busiest}), **often, **_cells("busiest_seconds", worst),
            **_cells("introduced", [run["introduced"][-1] for run in depot.runs]),
            **_cells("memorized", [run["memorized"][-1] for run in depot.runs]),
            **_days(depot, openings), **_seen(depot, openings)}


def table(depots: Sequence[Course], streets: int | None) -> Table:
    """A row a depot, for a file; a day is empty where so many streets stay held on no day."""
    rows = [_row(depot, streets) for depot in depots]
    return "Depots", list(rows[0]), [list(row.values()) for row in rows]


def page_table(depots: Sequence[Course], streets: int | None) -> Table:
    """A row a depot, to be read."""
    opening = [label for depot in depots[:1] for label, _ in (opens.told(depot, streets) if streets else [])]
    wanted = ("span", *opening, "held on the last day", "in all", "busiest day", "overdue at the end", "streets")
    told = [{label: value for label, value in facts.facts(depot, streets) if label in wanted} for depot in depots]
    labels = list(dict.fromkeys(label for each in told for label in each))
    rows = [[depot.name, *(each.get(label, "") for label in labels)] for depot, each in zip(depots, told)]
    return "Depots", ["depot", *labels], rows


def lines(depots: Sequence[Course], streets: int | None) -> str:
    """A line a depot, for the terminal."""
    _, head, rows = page_table(depots, streets)
    widths = [max(map(len, column)) for column in zip(head, *rows)]
    padded = ["  ".join(cell.ljust(width) for cell, width in zip(row, widths)).rstrip() for row in [head, *rows]]
    return "\n".join(padded) + "\n"
