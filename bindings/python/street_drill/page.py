"""The page: courses as a summary, pictures and tables, one HTML file that needs no network.

  page        the whole text
  document    a page of any parts; pairs: labels and what stands by them
"""

import json
import math
from collections.abc import Iterable, Iterator, Sequence
from dataclasses import replace
from datetime import date
from html import escape
from pathlib import Path

from . import axes, head, picture
from .course import Course, Table, days_table, duration
from .facts import facts
from .periods import months_table, weeks_table
from .series import window
from .views import Shown, View, views

# A longer table's rows are laid out by the script, when it is opened.
_MOST_ROWS = 1000
# Two digits behind the point are enough to read; --rows and --summary write them all.
_DIGITS = 2
# What several runs add to a column.
_ADDED = ("p10", "p90", "first")

_DOUBT = "A day with ? is too near the span's end to tell whether the streets stay held."
_FIRST_DAYS = ("These forecasts begin on different days: in the pictures days count from each one's own first, and a "
               "month has 30 of them.")


def _few(courses: Sequence[Course]) -> bool:
    """Whether all names have room in a line."""
    return len(courses) <= 3


# ---- the head and the summary


def pairs(labelled: Sequence[tuple[str, str]]) -> str:
    """Labels and what stands by them."""
    told = "".join(f"<div><dt>{escape(label)}</dt><dd>{escape(value)}</dd></div>" for label, value in labelled)
    return f"<dl>{told}</dl>"


def _line(first: str, cells: Iterable[str], labels: Sequence[str]) -> str:
    """A narrow window shows each cell on a line of its own, with its column's label."""
    told = "".join(f'<td data-label="{escape(label)}">{escape(cell)}</td>' for label, cell in zip(labels, cells))
    return f"<tr><th>{first}</th>{told}</tr>"


def _of_each(courses: Sequence[Course], told: Sequence[tuple[str, Sequence[str]]]) -> str:
    """What is told of each course, with its line's swatch: a column where they are few, else a card."""
    names = [course.name for course in courses]
    shown = [f"{picture.swatch(number)}{escape(name)}" for number, name in enumerate(names)]
    labels = [label for label, _ in told]
    if _few(courses):
        first = shown
        lines = [_line(escape(label), values, names) for label, values in told]
    else:
        first = [escape(label) for label in labels]
        turned = zip(*(values for _, values in told))
        lines = [_line(name, values, labels) for name, values in zip(shown, turned)]
    heads = "".join(f"<th>{text}</th>" for text in ("", *first))
    kind = "facts" if _few(courses) else "facts cards"
    return f'<table class="{kind}"><thead><tr>{heads}</tr></thead><tbody>{"".join(lines)}</tbody></table>'


def _made(courses: Sequence[Course], day: date) -> str:
    """What the forecasts were made from, and in what they differ."""
    differing = head.differing(courses)
    table = _of_each(courses, differing) if differing else ""
    if not _few(courses) and differing:
        names = ", ".join(name for name, _ in differing)
        table = f"<details><summary>they differ in {escape(names)}</summary>{table}</details>"
    return f'<section class="made">{pairs(head.common(courses, day))}{table}</section>'


def _facts_of_each(courses: Sequence[Course], streets: int | None) -> str:
    told = [dict(facts(course, streets)) for course in courses]
    labels = dict.fromkeys(label for each in told for label in each)
    # What a course does not tell is left empty.
    return _of_each(courses, [(label, [each.get(label, "") for each in told]) for label in labels])


def _switches(shown: Sequence[View], days: int) -> str:
    """By days, weeks or months, and smoothed."""
    kinds = "".join(f'<label><input type="radio" name="by" value="{view.kind}"{" checked" if number == 0 else ""}> '
                    f"by {view.kind}</label>" for number, view in enumerate(shown))
    smooth = f'<label><input type="checkbox" name="smooth"> mean of {days} days</label>' if days else ""
    return f'<form class="switches">{kinds if len(shown) > 1 else ""}{smooth}</form>'


def _summary(courses: Sequence[Course], streets: int | None, shown: Sequence[View]) -> str:
    inside = pairs(facts(courses[0], streets)) if len(courses) == 1 else _facts_of_each(courses, streets)
    return f'<section class="summary">{inside}{_switches(shown, window(shown[0].last + 1))}</section>'


def _legend(courses: Sequence[Course]) -> str:
    """Each line by its name, which switches it off; and what the lines of several runs are."""
    names = [f'<label><input type="checkbox" data-line="{number}" checked>{picture.swatch(number)}'
             f"{escape(course.name)}</label>" for number, course in enumerate(courses)]
    parts = names if len(names) > 1 else []
    if any(course.bands for course in courses):
        parts.append("<span>line: mean of the runs; thin: the first run; band: tenth to ninetieth percentile</span>")
    return f'<div class="legend">{"".join(parts)}</div>' if parts else ""


def _off(courses: Sequence[Course]) -> str:
    """The rules by which a line that is switched off is not shown."""
    rules = (f'body:has([data-line="{number}"]:not(:checked)) .l{number} {{ display: none }}'
             for number in range(len(courses)))
    return "\n".join(rules) if len(courses) > 1 else ""


# ---- tables


def _is_time(name: str) -> bool:
    """`cost_p10` is of the column `cost`."""
    return name.partition("_")[0] == "cost"


def _text(value: float | str) -> str:
    if isinstance(value, float):
        return f"{value:.{_DIGITS}f}"
    return escape(str(value))


def _cell(name: str, value: float | str) -> str:
    """Time is read in hours and minutes, and copied in seconds."""
    if isinstance(value, float) and _is_time(name):
        return f'<td data-seconds="{_text(value)}">{duration(value)}</td>'
    return f"<td>{_text(value)}</td>"


def _heads(names: Sequence[str], row: Sequence[float | str]) -> Iterator[str]:
    """The names of the columns; what several runs add to a column stands below its name."""
    for name, value in zip(names, row):
        own, _, added = name.rpartition("_")
        kind, text = (' class="added"', added) if added in _ADDED and own in names else ("", name)
        digits = f' data-digits="{_DIGITS}"' if isinstance(value, float) else ""
        time = " data-time" if _is_time(name) else ""
        yield f"<th{kind}{digits}{time}>{text}</th>"


def _body(names: Sequence[str], rows: Sequence[Sequence[float | str]]) -> str:
    return "\n".join("<tr>" + "".join(map(_cell, names, row)) + "</tr>" for row in rows)


def _is_long(table: Table) -> bool:
    _, _, rows = table
    return len(rows) > _MOST_ROWS


def _table(number: int, table: Table, is_open: bool) -> str:
    """The rows of a long one are the script's."""
    name, names, rows = table
    own, body = (f' data-table="{number}"', "") if _is_long(table) else ("", f"\n{_body(names, rows)}\n")
    kind = "days" if names[0] in ("day", "week", "month") else "named"
    state = f"{own}{' open' if is_open else ''}"
    return (f'<details class="rows{" many" if len(names) > 12 else ""}"{state}><summary>{escape(name)}</summary>\n'
            f'<div class="scroll"><table class="{kind}"><thead><tr>{"".join(_heads(names, rows[0]))}</tr></thead>\n'
            f"<tbody>{body}</tbody></table></div></details>")


# ---- what the script tells


def _short(value: float | str) -> float | str | None:
    """As the tables have it; JSON has no infinity."""
    if isinstance(value, float):
        return round(value, _DIGITS) if math.isfinite(value) else None
    return value


def _columns(kind: str, shown: Shown) -> dict[str, Sequence[object]]:
    names = {} if kind == "day" else {kind: shown.names}
    dates = {"date": shown.dates} if shown.dates else {}
    values = {name: list(map(_short, column)) for name, column in shown.columns.items()}
    return {**names, "day": shown.first, **dates, **values}


def _values(courses: Sequence[Course], shown: Sequence[View], tables: Sequence[Table]) -> str:
    """The columns of every view, for the pointer, and those of long tables."""
    told = {
        "left": axes.LEFT, "right": axes.RIGHT, "top": axes.TOP, "bottom": axes.BOTTOM,
        "colours": picture.COLOURS,
        "names": [course.name for course in courses],
        "views": {view.kind: {"last": view.last, "courses": [_columns(view.kind, each) for each in view.courses]}
                  for view in shown},
        "tables": {number: [list(map(_short, column)) for column in zip(*table[2])]
                   for number, table in enumerate(tables) if _is_long(table)},
    }
    # A name must not end the script element.
    return json.dumps(told, separators=(",", ":")).replace("<", "\\u003c")


# ---- the page


def _is_one_day(courses: Sequence[Course]) -> bool:
    """Whether all begin on the same day, or on none."""
    return len({course.first_day for course in courses}) == 1


def _numbered(courses: Sequence[Course]) -> Sequence[Course]:
    """For the pictures: where courses begin on different days, a place on the axis is a day's number and no date."""
    return courses if _is_one_day(courses) else [replace(course, first_day=None) for course in courses]


def _notes(courses: Sequence[Course], streets: int | None) -> str:
    """What the numbers mean."""
    told = ["Days count from 0; cost is copied in seconds; memorized is the number of streets held in memory; a street "
            "put off is due on the day that it was put off to."]
    told += [_DOUBT] if streets else []
    told += [] if _is_one_day(courses) else [_FIRST_DAYS]
    return f"<p>{' '.join(told)}</p>"


def _beside(name: str) -> str:
    return Path(__file__).with_name(name).read_text(encoding="utf-8")


def _title(courses: Sequence[Course]) -> str:
    names = [course.name for course in courses]
    return ", ".join(names) if _few(courses) else f"{names[0]} and {len(names) - 1} others"


def document(title: str, parts: Sequence[str], rules: str = "", values: str = "{}") -> str:
    """A page of these parts, with the values that its script tells."""
    return "\n".join([
        '<!DOCTYPE html>\n<html lang="en">\n<head>\n<meta charset="utf-8">',
        '<meta name="viewport" content="width=device-width, initial-scale=1">',
        f"<title>Street drill forecast: {escape(title)}</title>\n<style>\n{_beside('page.css')}{rules}</style>",
        f"</head>\n<body>\n<h1><span>Street drill forecast</span> {escape(title)}</h1>",
        *parts,
        f'<script id="values" type="application/json">{values}</script>',
        f"<script>\n{_beside('page.js')}</script>\n</body>\n</html>\n",
    ])


def page(given: Sequence[Course], streets: int | None = None, tables: Sequence[Table] = (),
         made: date | None = None) -> str:
    """The page of courses: `streets` is what --open asks for, and `made` the day, today where it is None. The given
    tables stand open; behind them are those of the courses' weeks, months and days."""
    courses = head.told_apart(given)
    drawn = _numbered(courses)
    shown = views(drawn)
    columns = [column for column in picture.TITLES if any(column in course.columns for course in courses)]
    legend = _legend(courses)
    pictures = [picture.picture(view, drawn, column, streets, legend) for column in columns for view in shown]
    own = [table(course) for course in courses for table in (weeks_table, months_table, days_table)]
    listed = [*tables, *own]
    return document(_title(courses), [
        _made(courses, made or date.today()),
        f"<main>\n{_summary(courses, streets, shown)}", *pictures, "</main>",
        _notes(courses, streets),
        *(_table(number, table, number < len(tables)) for number, table in enumerate(listed)),
    ], _off(courses), _values(courses, shown, listed))
