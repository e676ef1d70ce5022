"""The search for the retention, from 0.70 to 0.95, at which a drill costs least for each street held at its end."""

import math
import statistics
import time
from collections.abc import Callable, Iterable, Sequence
from dataclasses import dataclass, field
from typing import Any

from . import given, library, rules
from .errors import Refusal
from .model import DESIRED_RETENTION, FIRST_TABLE, Cards, Runner, SimulatorConfig
from .threads import mapping

MOST_ROUNDS = 64
FIRST_SEED = 42


@dataclass(frozen=True)
class Optimum:
    """The retention found, its mean cost for each street held, and the rounds that it took.

    Look at the mean: a NaN, an infinity or a number below 0 says that some trial held nothing or less, or that its cost
    or what it held is no finite number, and then the retention means nothing.
    """

    retention: float
    mean: float
    rounds: int


@dataclass(frozen=True)
class Trial:
    """A retention that was tried: its number from 1, the mean of its runs, and the seconds that they took.

    `held` is how many streets the runs hold on their last day, on the mean; `costs` are what each run costs for each
    street held, in the order of their seeds, which all trials have alike.
    """

    number: int
    retention: float
    mean: float
    seconds: float
    held: float
    costs: tuple[float, ...] = field(default=(), repr=False)

    @property
    def error(self) -> float:
        """The standard error of the mean."""
        return standard_error(self.costs)


def standard_error(values: Sequence[float]) -> float:
    """By how much the mean of such values is off, as their spread tells; no number where they tell none."""
    if len(values) < 2 or not all(map(math.isfinite, values)):
        return math.nan
    return statistics.stdev(values) / math.sqrt(len(values))


def _tried(runner: Runner, number: int, retention: float, mapped: Callable[..., Any]) -> Trial:
    begun = time.monotonic()
    seeds = range(FIRST_SEED, FIRST_SEED + library.sample_size(runner.inputs.learn_span))
    # They come, and the first refusal, in the order of the seeds, as one thread would.
    outcomes = list(mapped(lambda seed: runner.outcome(retention, seed), seeds))
    costs = tuple(target for target, _ in outcomes)
    held = sum(streets for _, streets in outcomes) / len(outcomes)
    return Trial(number, retention, library.mean(list(costs)), time.monotonic() - begun, held, costs)


def trial(config: SimulatorConfig, parameters: Iterable[float], cards: Cards = (), *, retention: float,
          workers: int | None = None) -> Trial:
    """What a retention costs by the runs that the search would make for it; its number is 0."""
    with mapping(workers) as mapped:
        return _tried(Runner(config, parameters, cards), 0, retention, mapped)


def _optimum(found: library.Found, *wrong: str) -> Optimum:
    if found.refusal != 0:
        raise Refusal(found.refusal, found.second, *wrong)
    return Optimum(found.retention, found.mean, found.rounds)


def _of_whole_search(runner: Runner, rounds: int, table: int) -> Optimum:
    """By the library's own entry, which refuses rounds that are not 1 to 64 in the order of its table."""
    asked = min(max(rounds, 0), MOST_ROUNDS + 1)
    found = library.optimal_retention(runner.inputs, asked, library.Lists(runner.inputs, table))
    if found.refusal != 4:
        return _optimum(found)
    wrong = rules.wrong_setting(runner.inputs.config, DESIRED_RETENTION)
    return _optimum(found, *(wrong or ("rounds", f"must be 1 to {MOST_ROUNDS}")))


def optimal_retention(config: SimulatorConfig, parameters: Iterable[float], cards: Cards = (), *,
                      rounds: int = MOST_ROUNDS, workers: int | None = None,
                      progress: Callable[[Trial], None] | None = None, table: int = FIRST_TABLE) -> Optimum:
    """The cheapest retention, each trial's runs on `workers` threads (all cores where it is None).

    `progress` is told each trial; what it raises ends the search. Raises `Refusal` as `simulate` does, 10 where the
    rounds were not enough.
    """
    runner = Runner(config, parameters, cards, table)
    if not 1 <= given.index("rounds", rounds) <= MOST_ROUNDS:
        return _of_whole_search(runner, rounds, table)
    search = library.Search(rounds)
    with mapping(workers) as mapped:
        number = 0
        while not math.isnan(retention := search.next_retention()):
            number += 1
            tried = _tried(runner, number, retention, mapped)
            search.take_mean(tried.mean)
            if progress:
                progress(tried)
    return _optimum(search.answer())
