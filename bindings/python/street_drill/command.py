"""The planner's command: `python3 -m street_drill forecast|cheapest|page|region|text ..`.

Exit status: 0, or 2 with a line for each thing that is wrong, and where.
"""

import argparse
import math
import os
import sys
from collections.abc import Callable, Iterable, Sequence
from datetime import date
from functools import partial
from pathlib import Path

from . import cheapest, cluster, course, curve, deck, depots, facts, files, head, listing, next_deck, options
from . import periods, places, region, runs, settings, streets, text
from .course import Course
from .deck import Deck
from .errors import Mistake, Refusal, each_of, gathered
from .library import LibraryMissing
from .origin import origin
from .page import page
from .progress import progress
from .search import Trial, optimal_retention, trial
from .settings import Settings
from .threads import NoWorker

# Options that name a file.
_FILES = ("deck", "rows", "weeks", "cards", "page", "summary")


# ---- files


def _add(texts: dict[str, str], path: str, text: str) -> None:
    if path in texts:
        raise Mistake(path, "is named for two files")
    texts[path] = text


def _write(texts: dict[str, str], sources: Iterable[str], summary: str) -> None:
    """The summary makes room where a file goes to standard output."""
    shown = texts.pop("-", None)
    files.write_all(texts, sources)
    print(summary if shown is None else shown, end="")
    if shown is not None:
        print(summary, end="", file=sys.stderr)


def _warn(warnings: Iterable[str]) -> None:
    """What is not refused and likely not meant; each once, of several settings files too."""
    for warning in dict.fromkeys(warnings):
        print(f"street_drill: note: {warning}", file=sys.stderr)


def _named(path: str, given: Settings, asked: Sequence[Settings]) -> str:
    """One settings file's output has the name itself, those of several lie in the folder of that name."""
    if len(asked) == 1:
        return path
    if not os.path.isdir(path):
        raise Mistake(path, "is no folder, where the outputs of several settings files would lie")
    return str(Path(path) / f"{given.name}.csv")


# ---- forecast


def _deck(path: str | None, given: Settings) -> Deck:
    known = deck.read(path, given.first_day) if path else deck.no_deck(given.first_day)
    return streets.prepared(given, known)


def _drill(asked: argparse.Namespace, given: Settings, known: Deck,
           done: Callable[[], None]) -> tuple[Course, dict[str, str]]:
    """The course of one settings file, and the texts of its own files by their options."""
    drawn, cards = runs.drilled(given, known, asked.runs, asked.workers, done)
    texts = {}
    if asked.rows:
        texts["rows"] = course.as_csv(course.days_table(drawn))
    if asked.weeks:
        texts["weeks"] = course.as_csv(periods.weeks_table(drawn))
    if asked.cards:
        texts["cards"] = next_deck.updated(known, cards, given.config.learn_span)
    return drawn, texts


def _forecast(asked: argparse.Namespace) -> None:
    given = gathered(partial(settings.read, path, options.sources(asked)) for path in asked.settings)
    named = [{option: _named(getattr(asked, option), each, given) for option in ("rows", "weeks", "cards")
              if getattr(asked, option)} for each in given]
    courses: list[Course] = []
    texts: dict[str, str] = {}
    warnings: list[str] = []
    with progress("forecast", asked.runs * len(given), asked.quiet) as told:
        for each, paths in zip(given, named):
            known = _deck(asked.deck, each)
            warnings += streets.warnings(each, known)
            drawn, own = _drill(asked, each, known, told.done)
            courses.append(drawn)
            for option, written in own.items():
                _add(texts, paths[option], written)
        if asked.page:
            _add(texts, asked.page, page(courses, asked.open))
    _warn(warnings)
    # The deck may be followed by its next one under the same name.
    sources = [path for each in given for path in each.sources]
    sources += [asked.deck] if asked.deck and asked.deck != asked.cards else []
    _write(texts, sources, "".join(facts.summary(each, asked.open) for each in courses))


# ---- the other commands


def _search(asked: argparse.Namespace, given: Settings, known: Deck) -> tuple[list[Trial], Trial]:
    """The trials of the search, and one of the present setting."""
    tried: list[Trial] = []
    with progress("cheapest", quiet=asked.quiet) as told:

        def show(each: Trial) -> None:
            tried.append(each)
            told.say(f"trial {each.number}: retention {cheapest.short(each.retention)}, mean {each.mean:.2f}, "
                     f"{each.seconds:.1f} s")

        try:
            inputs = given.config, given.parameters, known.cards
            optimal_retention(*inputs, workers=asked.workers, progress=show)
            return tried, trial(*inputs, retention=given.desired_retention, workers=asked.workers)
        except Refusal as refusal:
            raise places.placed(given, known, refusal) from refusal


def _streets(given: Settings, known: Deck) -> str:
    return f"  streets: {streets.told(given, known)}\n" if known.path else ""


def _cheapest(asked: argparse.Namespace) -> None:
    given = settings.read(asked.settings, options.sources(asked))
    known = _deck(asked.deck, given)
    _warn(streets.warnings(given, known))
    tried, present = _search(asked, given, known)
    trials = cheapest.in_order(given.path, tried, present)
    advice = cheapest.advice(trials, present, streets.counts(given, known))
    texts: dict[str, str] = {}
    if asked.page:
        drawn = [each for each in trials if math.isfinite(each.mean)]
        made_from = head.of_search(origin(given, known), date.today())
        texts[asked.page] = curve.page(given.name, drawn, present, advice, made_from)
    told = "".join(f"  {line}\n" for line in advice)
    _write(texts, [*given.sources, *([asked.deck] if asked.deck else [])],
           f"{given.name}\n{_streets(given, known)}{cheapest.curve(trials, present)}{told}")


def _page(asked: argparse.Namespace) -> None:
    path = asked.page or str(Path(asked.listings[0]).with_suffix(".html"))
    with progress("page", quiet=asked.quiet):
        courses = gathered(partial(listing.read, path) for path in asked.listings)
        drawn = page(courses, asked.open)
    _write({path: drawn}, asked.listings, "".join(facts.summary(each, asked.open) for each in courses))


def _new_file(option: str, path: str) -> str:
    """Where no name is asked for; a planner's file of that name is not written over."""
    if os.path.lexists(path):
        raise Mistake(path, f"is there already; {option} {path} writes over it")
    return path


def _region(asked: argparse.Namespace) -> None:
    listed = region.read(asked.folder, options.sources(asked))
    summary = asked.summary or _new_file("--summary", "region.csv")
    page_path = asked.page or _new_file("--page", "region.html")
    _warn(region.notes(asked.folder, listed, [summary, page_path]))
    with (progress("region", len(listed), asked.quiet) as told,
          cluster.mapping(asked.scheduler, min(asked.workers, len(listed))) as mapped):
        courses, warnings = region.courses(asked.folder, listed, asked.runs, mapped, told.done)
        whole = region.total(courses)
        texts = {summary: course.as_csv(depots.table(courses, asked.open))}
        _add(texts, page_path, page([whole], tables=[depots.page_table(courses, asked.open)]))
    _warn([*warnings, *region.uneven(asked.folder, listed),
           *(region.alike(asked.folder, listed) if asked.runs == 1 else [])])
    _write(texts, region.sources(listed), facts.summary(whole, None) + depots.lines(courses, asked.open))


def _text(asked: argparse.Namespace) -> None:
    print(text.answer(asked.program), end="")


_COMMANDS = {"forecast": _forecast, "cheapest": _cheapest, "page": _page, "region": _region, "text": _text}


# ---- the whole


def _check_names(asked: argparse.Namespace) -> None:
    for name in _FILES:
        if getattr(asked, name, None) == "":
            raise Mistake(f"--{name}", "needs the name of a file")


def main(arguments: Sequence[str] | None = None) -> int:
    """Does what the arguments ask, and gives the exit status."""
    asked = options.parser().parse_args(arguments)
    told: Sequence[object]
    try:
        _check_names(asked)
        _COMMANDS[asked.command](asked)
    except Mistake as mistake:
        told = each_of(mistake)
    except LibraryMissing as error:
        told = [error]
    except NoWorker as error:
        told = [f"--workers: {error}; 1 needs no other thread or process"]
    except MemoryError:
        told = ["there is not enough memory"]
    else:
        return 0
    # What an option sets wrongly is wrong for each settings file, and told once.
    for each in dict.fromkeys(map(str, told)):
        print(f"street_drill: {each}", file=sys.stderr)
    return 2
