"""A region: a folder with a settings file for each depot, NAME.toml, and its deck NAME.csv where there is one.

  read      the folder's files; notes: what of the folder is left out; alike: the depots that draw alike;
  uneven    and whose spans differ
  courses   the forecast of each, on several processes; seed_of: the seed of several runs of a depot
  total     all depots as one course
"""

import hashlib
import math
import os
from collections import Counter
from collections.abc import Callable, Iterable, Sequence
from dataclasses import dataclass, replace
from functools import partial
from pathlib import Path
from typing import Any

from . import course, deck, files, runs, settings, streets
from .course import COLUMNS, STANDING, Columns, Course
from .deck import Deck
from .errors import Mistake, Mistakes, each_of
from .settings import Settings, Source


@dataclass(frozen=True)
class Depot:
    """Its settings, or what is wrong with them, and its deck as a text: a worker needs none of the files itself."""

    path: str
    given: Settings | Mistake
    deck_path: str
    deck: str | None


# ---- the folder


def _check_cases(folder: str, names: Iterable[str]) -> None:
    """North.toml and north.csv are no pair, and on another machine two such names may be one file."""
    seen: dict[str, str] = {}
    for name in sorted(names):
        stem, kind = os.path.splitext(name)
        other = seen.setdefault(stem.casefold(), stem)
        if (other, kind) != (stem, kind.lower()):
            like = f"{other}{kind.lower()}" if other == stem else f"{other}, the name of another file,"
            raise Mistake(str(Path(folder) / name), f"differs from {like} in capital and small letters alone")


def _settings(path: str, options: Sequence[Source]) -> Settings | Mistake:
    try:
        return settings.read(path, options)
    except Mistake as mistake:
        return mistake


def _names(folder: str) -> list[str]:
    """The settings and decks of the folder."""
    try:
        return [name for name in os.listdir(folder) if name.lower().endswith((".toml", ".csv"))]
    except OSError as error:
        raise Mistake(folder, error.strerror or str(error)) from error


def read(folder: str, options: Sequence[Source] = ()) -> list[Depot]:
    """The depots in the order of their names."""
    _check_cases(folder, _names(folder))
    depots = []
    for path in sorted(Path(folder).glob("*.toml")):
        beside = path.with_suffix(".csv")
        known = files.read(str(beside)) if beside.exists() else None
        depots.append(Depot(str(path), _settings(str(path), options), str(beside), known))
    if not depots:
        raise Mistake(folder, "has no settings file, NAME.toml")
    return depots


def notes(folder: str, depots: Sequence[Depot], outputs: Iterable[str]) -> list[str]:
    """Decks without settings, which are left out. The summary of an earlier call is none."""
    used = {depot.deck_path for depot in depots}
    written = set(map(os.path.realpath, outputs))
    decks = sorted(str(Path(folder) / name) for name in _names(folder) if name.endswith(".csv"))
    return [f"{path}: has no settings, {Path(path).stem}.toml, and is left out" for path in decks
            if path not in used and os.path.realpath(path) not in written]


def alike(folder: str, depots: Sequence[Depot]) -> list[str]:
    """Depots that draw alike in a single run, which is that of `forecast`."""
    seeds = Counter(depot.given.seed for depot in depots if isinstance(depot.given, Settings))
    return [f"{folder}: {number} depots have the seed {seed} and draw alike, so that their sum multiplies one luck; "
            "with --runs each has its own" for seed, number in seeds.items() if number > 1]


def uneven(folder: str, depots: Sequence[Depot]) -> list[str]:
    """Depots whose spans end on different days: the sums have each with its last day's streets from then on."""
    spans = {depot.given.config.learn_span for depot in depots if isinstance(depot.given, Settings)}
    if len(spans) < 2:
        return []
    return [f"{folder}: the depots' spans differ, from {min(spans)} to {max(spans)} days; in the sums a depot costs nothing "
            "after its last day and keeps that day's streets, so from the shortest span on they are too low"]


def sources(depots: Sequence[Depot]) -> list[str]:
    """The files that were read."""
    own = [path for depot in depots if isinstance(depot.given, Settings) for path in depot.given.sources]
    return [*own, *(depot.deck_path for depot in depots)]


# ---- forecasts


def seed_of(name: str, seed: int) -> int:
    """The first of a depot's several runs: depots of one seed would all be lucky in the same run.

    It has at most fifteen digits, since a spreadsheet that reads the summary keeps no more.
    """
    return int.from_bytes(hashlib.sha256(f"{seed} {name}".encode(errors="surrogateescape")).digest()[:6], "big")


def _known(depot: Depot, given: Settings) -> Deck:
    day = given.first_day
    known = deck.no_deck(day) if depot.deck is None else deck.of_text(depot.deck_path, depot.deck, day)
    return streets.prepared(given, known)


def _course(depot: Depot, number: int) -> tuple[Course, list[str]] | Mistake:
    """With what is told beside it. A mistake is given back and not raised, so that none hides another depot's."""
    given = depot.given
    if isinstance(given, Mistake):
        return given
    try:
        known = _known(depot, given)
        if number > 1:
            given = replace(given, seed=seed_of(given.name, given.seed))
        drawn, _ = runs.drilled(given, known, number, 1)
        return drawn, streets.warnings(given, known)
    except Mistake as mistake:
        return mistake


def _check_first_days(folder: str, depots: Sequence[Depot]) -> None:
    days = {depot.given.first_day for depot in depots if isinstance(depot.given, Settings)}
    if len(days) > 1:
        told = " and ".join(sorted("none" if day is None else str(day) for day in days))
        raise Mistake(folder, f"the depots must have one first_day, and have {told}")


def courses(folder: str, depots: Sequence[Depot], number: int, mapped: Callable[..., Iterable[Any]],
            done: Callable[[], None] = lambda: None) -> tuple[list[Course], list[str]]:
    """The forecasts of each depot, so many runs each, in their order, and what is told beside them.

    `mapped` calls side by side, as `map` does.
    """
    _check_first_days(folder, depots)
    made: list[Course] = []
    warnings: list[str] = []
    mistakes: list[Mistake] = []
    for each in mapped(partial(_course, number=number), depots):
        done()
        if isinstance(each, Mistake):
            mistakes += each_of(each)
        else:
            made.append(each[0])
            warnings += each[1]
    if mistakes:
        raise Mistakes(mistakes)
    return made, warnings


# ---- all depots as one


def _on_days(run: Columns, column: str, days: int) -> list[float]:
    """A depot whose span is over costs nothing, and keeps its streets."""
    values = list(run[column])
    return values + [values[-1] if column in STANDING else 0] * (days - len(values))


def total_of(values: Sequence[float]) -> float:
    """Counts stay whole numbers; fsum rounds once, whatever the order."""
    if all(isinstance(value, int) for value in values):
        return sum(values)
    return math.fsum(values) if all(map(math.isfinite, values)) else sum(values)


def total(depots: Sequence[Course]) -> Course:
    """Each day's sum over the depots, of each run."""
    days = max(depot.span for depot in depots)
    sums = [{column: tuple(map(total_of, zip(*(_on_days(run, column, days) for run in together))))
             for column in COLUMNS} for together in zip(*(depot.runs for depot in depots))]
    return replace(course.of_columns(f"region of {len(depots)} depots", sums), first_day=depots[0].first_day)
