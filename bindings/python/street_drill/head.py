"""What stands at the page's head: the day it was made, and what each course was made from.

  told_apart   the courses with names that differ
  common       what all courses have alike; differing: what they have not, a value a course
  of_search    what a search was made from
"""

import os
from collections import Counter
from collections.abc import Sequence
from dataclasses import replace
from datetime import date
from pathlib import Path

from . import __version__
from .course import Course
from .origin import DEFAULTS, Origin

# ---- names


def _paths(courses: Sequence[Course]) -> list[Path | None]:
    """Of each course whose name is another's too, and whose file is known."""
    counts = Counter(course.name for course in courses)
    return [Path(course.origin.path).absolute() if course.origin and counts[course.name] > 1 else None
            for course in courses]


def _with_folders(courses: Sequence[Course]) -> list[str]:
    """Equal names with the folders that are not the same for all of them."""
    paths = _paths(courses)
    alike = os.path.commonpath([path.parent for path in paths if path] or [Path("/")])
    return [str(path.relative_to(alike).with_suffix("")) if path else course.name
            for path, course in zip(paths, courses)]


def told_apart(courses: Sequence[Course]) -> list[Course]:
    """Equal names are told with their folders, and by a number where even these are alike."""
    names = _with_folders(courses)
    counts, seen = Counter(names), Counter[str]()
    for place, name in enumerate(names):
        if counts[name] > 1:
            seen[name] += 1
            names[place] = f"{name} ({seen[name]})"
    return [replace(course, name=name) for course, name in zip(courses, names)]


# ---- what is alike, and what is not


def _own(origin: Origin) -> dict[str, str]:
    """The deck, and of the settings those that are not the default."""
    own = {name: text for name, text in origin.settings.items() if name != "seed" and text != DEFAULTS.get(name)}
    return {"deck": origin.deck, **own}


def _made_from(course: Course) -> dict[str, str]:
    if course.origin is None:
        return {}
    first, runs = course.origin.settings["seed"], len(course.runs)
    return {"seed": first if runs == 1 else f"{first} to {int(first) + runs - 1}", **_own(course.origin)}


def _texts(courses: Sequence[Course]) -> dict[str, list[str]]:
    made = [_made_from(course) for course in courses]
    names = dict.fromkeys(name for each in made for name in each)
    return {name: [each.get(name, DEFAULTS.get(name, "")) for each in made] for name in names}


def _made(day: date) -> tuple[str, str]:
    return "made", f"{day.isoformat()}, by street_drill {__version__}"


def common(courses: Sequence[Course], made: date) -> list[tuple[str, str]]:
    """The day it was made, and what is alike; parameters would fill the page."""
    alike = [(name, texts[0]) for name, texts in _texts(courses).items()
             if len(set(texts)) == 1 and name != "parameters"]
    return [_made(made), *alike]


def of_search(origin: Origin, made: date) -> list[tuple[str, str]]:
    """The same of a search, which has seeds and retentions of its own."""
    own = _own(origin)
    return [_made(made), *((name, text) for name, text in own.items()
                           if name not in ("parameters", "desired_retention"))]


def differing(courses: Sequence[Course]) -> list[tuple[str, list[str]]]:
    """What is not alike."""
    return [(name, texts) for name, texts in _texts(courses).items() if len(set(texts)) > 1]
