"""Forecasts of settings and a deck for one or more seeds, as a course."""

from collections.abc import Callable, Sequence
from dataclasses import replace

from . import backlog, course, streets
from .course import Columns, Course
from .deck import Deck
from .errors import Refusal
from .model import Card, Runner
from .origin import origin
from .places import placed
from .settings import Settings
from .threads import mapping


def _runs(given: Settings, known: Deck, runs: int, workers: int | None,
          done: Callable[[], None]) -> tuple[list[Columns], Sequence[Card]]:
    runner = Runner(given.config, given.parameters, known.cards)

    def run(number: int) -> tuple[Columns, Sequence[Card]]:
        made = runner.forecast(given.desired_retention, (given.seed + number) % 2**64, with_cards=number == 0)
        done()
        return course.columns_of(made), made.cards

    # A refusal at the entry is the same for every seed, so the first run goes before the threads.
    first, cards = run(0)
    with mapping(workers) as mapped:
        return [first, *(columns for columns, _ in mapped(run, range(1, runs)))], cards


def drilled(given: Settings, known: Deck, runs: int, workers: int | None,
            done: Callable[[], None] = lambda: None) -> tuple[Course, Sequence[Card]]:
    """The course of so many seeds from the given one on, and the cards that the first run leaves.

    `done` is called after each run.
    """
    try:
        columns, cards = _runs(given, known, runs, workers, done)
    except Refusal as refusal:
        raise placed(given, known, refusal) from refusal
    drawn = course.of_columns(given.name, columns)
    notes = [*backlog.notes(cards, known.kept, given.config.learn_span, runs), *streets.notes(given, known)]
    return replace(drawn, first_day=given.first_day, notes=tuple(notes), origin=origin(given, known)), cards
