"""The configuration, cards and forecasts by the names of their fields, and a run.

  SimulatorConfig, Card, Cards   what a run reads
  Day, Forecast                  what it gives
  simulate, forecasts            a run, and those of many seeds
  Runner                         runs of the same inputs, for many seeds and retentions
"""

import math
from array import array
from collections.abc import Iterable, Iterator, Mapping
from dataclasses import dataclass, fields
from typing import Any

from . import given, library, rules
from .errors import Refusal
from .given import CARD_COUNTS as CARD_COUNTS
from .given import CARD_FLOATS as CARD_FLOATS
from .threads import mapping

NO_LIMIT = 4_294_967_295
SEED = 42
DESIRED_RETENTION = 0.9

# Enough for most runs; where it is not, the run is made again with four times as many places.
FIRST_TABLE = 16_384
MOST_TABLE = 2**26

Row = tuple[float, float, float, float]
Table = tuple[Row, Row, Row]


# What None stands for.
_NONE = {"learn_limit": NO_LIMIT, "review_limit": NO_LIMIT, "suspend_after_lapses": NO_LIMIT,
         "max_cost_perday": math.inf}


@dataclass(frozen=True, repr=False)
class SimulatorConfig:
    """How the drill goes, by the Rust's names and defaults. Floats are rounded to f32.

    Rows of weights and costs are by rating: again, hard, good, easy (of a review: hard, good, easy). The rows of the
    transitions are by the rating before, those of the costs by learning, review and relearning. A limit of None or
    `NO_LIMIT` is none; `suspend_after_lapses` 0 retires every card at once, and `learn_limit` 0 makes no new card.
    """

    deck_size: int = 10_000
    learn_span: int = 365
    max_cost_perday: float | None = 1800.0
    max_ivl: float = 36_500.0
    first_rating_prob: Row = (0.24, 0.094, 0.495, 0.171)
    review_rating_prob: tuple[float, float, float] = (0.224, 0.631, 0.145)
    learn_limit: int | None = NO_LIMIT
    review_limit: int | None = NO_LIMIT
    new_cards_ignore_review_limit: bool = True
    suspend_after_lapses: int | None = NO_LIMIT
    learning_step_transitions: Table = (
        (0.3686, 0.0628, 0.5108, 0.0577), (0.0442, 0.4553, 0.4457, 0.0549), (0.0519, 0.047, 0.8462, 0.055))
    relearning_step_transitions: Table = (
        (0.2157, 0.0643, 0.6595, 0.0604), (0.05, 0.4638, 0.4475, 0.0387), (0.1057, 0.1434, 0.7266, 0.0244))
    state_rating_costs: Table = (
        (19.58, 18.79, 13.78, 10.71), (19.38, 17.59, 12.38, 8.94), (16.44, 15.25, 12.32, 8.03))
    learning_step_count: int = 2
    relearning_step_count: int = 1

    def __repr__(self) -> str:
        """What is not the default."""
        told = [(field.name, repr(getattr(self, field.name)), repr(field.default)) for field in fields(self)]
        own = ", ".join(f"{name}={value}" for name, value, default in told if value != default)
        return f"SimulatorConfig({own})"


@dataclass(frozen=True, slots=True)
class Card:
    """A street. Days count from the forecast's first, which is 0; `last_date` is -inf before the first drill."""

    difficulty: float
    stability: float
    last_date: float
    due: float
    interval: float
    desired_retention: float
    reps: int
    lapses: int


# `Card`s or mappings of their fields; or columns by name, as a mapping or a data frame has them.
Cards = Iterable[Any]


@dataclass(frozen=True, slots=True)
class Day:
    """A day's row: counts, seconds, and the cards held in memory. `introduced` are the existing cards that were kept and
    have a last date, be it a later day, and all cards learned so far."""

    learned: int
    reviewed: int
    correct: int
    introduced: int
    cost: float
    memorized: float


def _as_numpy(column: "array[Any]") -> Any:
    try:
        import numpy
    except ImportError:
        return column
    return numpy.asarray(column)


def _columns(rows: Iterable[Any], kinds: Mapping[str, str]) -> dict[str, Any]:
    listed = list(rows)
    return {name: _as_numpy(array(kind, [getattr(row, name) for row in listed])) for name, kind in kinds.items()}


_DAY_KINDS = {"learned": "I", "reviewed": "I", "correct": "I", "introduced": "I", "cost": "f", "memorized": "f"}
_CARD_KINDS = {**dict.fromkeys(CARD_FLOATS, "f"), **dict.fromkeys(CARD_COUNTS, "I")}


@dataclass(frozen=True, repr=False)
class Forecast:
    """A run that ended. `draws` is the draws' state.

    `due` has a place for each day, to half a span beyond. It begins with the existing cards that were kept, each on the
    day it is due; an event adds one on the day for which it schedules the card; a card with a last date that is put off
    moves to the next day.
    """

    rows: tuple[Day, ...]
    due: tuple[int, ...]
    cards: tuple[Card, ...]
    turns: int
    draws: int

    def columns(self) -> dict[str, Any]:
        """The rows by columns, and what is due on their days: numpy's arrays where numpy is there, else Python's."""
        due = _as_numpy(array("I", self.due[: len(self.rows)]))
        return {**_columns(self.rows, _DAY_KINDS), "due": due}

    def card_columns(self) -> dict[str, Any]:
        """The cards by columns, which `simulate` takes again as cards."""
        return _columns(self.cards, _CARD_KINDS)

    def __repr__(self) -> str:
        seconds, last = math.fsum(day.cost for day in self.rows), self.rows[-1]
        return (f"<Forecast of {len(self.rows)} days: {seconds:.0f} s in all, {last.memorized:.1f} of "
                f"{last.introduced} cards held in the end>")


def _inputs(config: SimulatorConfig, parameters: Iterable[float], cards: Cards) -> library.Inputs:
    if not isinstance(config, SimulatorConfig):
        raise TypeError(f"config must be a SimulatorConfig, and is {config!r}")
    settings = {}
    for field in fields(config):
        value = getattr(config, field.name)
        value = _NONE.get(field.name) if value is None else value
        settings[field.name] = given.like(field.name, value, field.default)
    floats, counts = given.cards(cards)
    return library.Inputs(given.numbers("parameters", parameters), floats, counts, library.Config(**settings))


def _rows(flat: "array[Any]", width: int, count: int) -> Iterator["array[Any]"]:
    return (flat[place : place + width] for place in range(0, width * count, width))


def _forecast(span: int, answer: library.Answer, lists: library.Lists, cards: int) -> Forecast:
    rows = zip(_rows(lists.days, 4, span), zip(lists.costs, lists.memorized))
    kept = zip(_rows(lists.cards, 6, cards), _rows(lists.counts, 2, cards))
    return Forecast(
        rows=tuple(Day(*(*counts, *sums)) for counts, sums in rows),
        due=tuple(lists.due),
        cards=tuple(Card(*floats, *counts) for floats, counts in kept),
        turns=answer.turns,
        draws=answer.draws,
    )


class Runner:
    """Runs of the same configuration, parameters and existing cards. Threads may share one."""

    def __init__(self, config: SimulatorConfig, parameters: Iterable[float], cards: Cards = (),
                 table: int = FIRST_TABLE) -> None:
        self.inputs = _inputs(config, parameters, cards)
        self._table = table

    def _run(self, desired_retention: float, seed: int) -> tuple[library.Answer, library.Lists]:
        retention, first = given.number("desired_retention", desired_retention), given.whole("seed", seed, 64)
        # Whichever length of the table ends Ok, the forecast is the same: docs/RULES.md, D6.
        table = self._table
        while True:
            lists = library.Lists(self.inputs, table)
            answer = library.simulate(self.inputs, retention, first, lists)
            if answer.refusal != 8 or table >= MOST_TABLE:
                break
            table = min(max(4 * table, FIRST_TABLE), MOST_TABLE)
            self._table = max(self._table, table)
        if answer.refusal != 0:
            raise self._refused(answer.refusal, answer.second, retention)
        return answer, lists

    def _refused(self, number: int, second: int, desired_retention: float) -> Refusal:
        wrong = None
        if number == 4:
            wrong = rules.wrong_setting(self.inputs.config, desired_retention)
        elif number == 5 and (found := rules.wrong_field(Card(*self.inputs.card(second)))):
            wrong = f"card {second}: {found[0]}", found[1]
        return Refusal(number, second, *(wrong or ()))

    def forecast(self, desired_retention: float, seed: int, with_cards: bool = True) -> Forecast:
        """Without its cards where they are not asked for: while Python makes them, other threads wait."""
        answer, lists = self._run(desired_retention, seed)
        return _forecast(self.inputs.learn_span, answer, lists, answer.cards if with_cards else 0)

    def forecasts(self, desired_retention: float, seeds: Iterable[int], workers: int | None = None,
                  with_cards: bool = True) -> list[Forecast]:
        """Of each seed, in their order, on so many threads (all cores where it is None)."""
        listed = given.listed("seeds", seeds)
        with mapping(workers) as mapped:
            return list(mapped(lambda seed: self.forecast(desired_retention, seed, with_cards), listed))

    def outcome(self, desired_retention: float, seed: int) -> tuple[float, float]:
        """What the run costs for each card memorized on its last day, and how many these are."""
        _, lists = self._run(desired_retention, seed)
        span = self.inputs.learn_span
        return library.target(span, lists), lists.memorized[span - 1]


def simulate(config: SimulatorConfig, parameters: Iterable[float], cards: Cards = (), *,
             desired_retention: float = DESIRED_RETENTION, seed: int = SEED, table: int = FIRST_TABLE) -> Forecast:
    """The forecast of a drill, from 34 parameters of FSRS-7 and the streets known already.

    `cards` may be any iterable of `Card`s or of mappings, or columns by name, as a mapping or a data frame. `table` is
    the interval table's first length; where it is full the run is made again with a longer one. Raises `Refusal` where
    the library turns the call away, and `ValueError` or `TypeError` with the field where a value does not fit its type.
    """
    return Runner(config, parameters, cards, table).forecast(desired_retention, seed)


def forecasts(config: SimulatorConfig, parameters: Iterable[float], cards: Cards = (), *, seeds: Iterable[int],
              desired_retention: float = DESIRED_RETENTION, workers: int | None = None,
              with_cards: bool = True) -> list[Forecast]:
    """The forecasts of many seeds, in their order, on `workers` threads (all cores where it is None).

    Many cards of many forecasts take much room: `with_cards=False` leaves them out.
    """
    return Runner(config, parameters, cards).forecasts(desired_retention, seeds, workers, with_cards)
