"""The C functions of include/street_drill.h, called through ctypes: the only file that knows their arguments.

A foreign call lets Python's other threads run, so runs with lists of their own may be made side by side.

  Config      the configuration
  Inputs      what a run only reads
  Lists       what a run writes, sized for its inputs
  Answer      what a run answers; Found: what a search does
  simulate    a run; optimal_retention: a whole search
  Search      a search one trial at a time; sample_size, target, mean: what a trial is made of
"""

import ctypes
import functools
import os
from array import array
from collections.abc import Sequence
from pathlib import Path
from typing import Any

MOST_CARDS = 65_536
MOST_DAYS = 36_500

_ROWS = ctypes.c_float * 4 * 3


class Config(ctypes.Structure):
    """`struct drill_config`."""

    _fields_ = [
        ("deck_size", ctypes.c_uint32),
        ("learn_span", ctypes.c_uint32),
        ("max_cost_perday", ctypes.c_float),
        ("max_ivl", ctypes.c_float),
        ("first_rating_prob", ctypes.c_float * 4),
        ("review_rating_prob", ctypes.c_float * 3),
        ("learn_limit", ctypes.c_uint32),
        ("review_limit", ctypes.c_uint32),
        ("new_cards_ignore_review_limit", ctypes.c_bool),
        ("suspend_after_lapses", ctypes.c_uint32),
        ("learning_step_transitions", _ROWS),
        ("relearning_step_transitions", _ROWS),
        ("state_rating_costs", _ROWS),
        ("learning_step_count", ctypes.c_uint32),
        ("relearning_step_count", ctypes.c_uint32),
    ]


class Answer(ctypes.Structure):
    """`struct drill_answer`: the refusal is 0 where the run ended."""

    _fields_ = [*((name, ctypes.c_uint32) for name in ("refusal", "second", "list", "turns", "cards", "queued")),
                ("draws", ctypes.c_uint64)]


class Found(ctypes.Structure):
    """`struct drill_found`: the refusal is 0 where a retention was found."""

    _fields_ = [*((name, ctypes.c_uint32) for name in ("refusal", "second", "list", "rounds")),
                ("retention", ctypes.c_float), ("mean", ctypes.c_float)]


class _Brent(ctypes.Structure):
    """`struct drill_brent`: x is the best retention so far, fx its mean."""

    _fields_ = [*((name, ctypes.c_float) for name in ("a", "b", "x", "v", "w", "fx", "fv", "fw", "deltax", "rat")),
                ("done", ctypes.c_uint32)]


class _Search(ctypes.Structure):
    """`struct drill_search`."""

    _fields_ = [("begun", ctypes.c_bool), ("rounds", ctypes.c_uint32), ("state", _Brent)]


_LIST = [ctypes.c_void_p, ctypes.c_size_t]
_READ = [*_LIST * 3, Config]
_WRITTEN = _LIST * 9
_SIGNATURES = {
    "drill_simulate": (Answer, [*_READ, ctypes.c_float, ctypes.c_uint64, *_WRITTEN]),
    "drill_optimal_retention": (Found, [*_READ, ctypes.c_uint32, *_WRITTEN]),
    "drill_search_start": (_Search, [ctypes.c_uint32]),
    "drill_search_next": (ctypes.c_float, [_Search]),
    "drill_search_take": (_Search, [_Search, ctypes.c_float]),
    "drill_search_answer": (ctypes.c_uint32, [_Search]),
    "drill_sample_size": (ctypes.c_uint32, [ctypes.c_uint32]),
    "drill_target": (ctypes.c_float, [ctypes.c_uint32, *_LIST, *_LIST]),
    "drill_mean": (ctypes.c_float, [*_LIST, ctypes.c_uint32]),
}


class LibraryMissing(Exception):
    """The shared library is not there, or is not one of this package's."""


@functools.cache
def _library() -> ctypes.CDLL:
    path = os.environ.get("STREET_DRILL_LIBRARY") or str(Path(__file__).with_name("libstreet_drill.so"))
    try:
        library = ctypes.CDLL(path)
        for name, (result, arguments) in _SIGNATURES.items():
            function = getattr(library, name)
            function.restype, function.argtypes = result, arguments
    except (OSError, AttributeError) as error:
        raise LibraryMissing(f"{error}; bindings/python/build links the library") from error
    return library


def check_float_modes() -> None:
    """The library's promises are for a thread that rounds to nearest and keeps subnormals; others raise RuntimeError.

    An extension that was built with -ffast-math may have changed its thread's modes.
    """
    one, half_step, least, small = 1.0, 2.0**-53, 5e-324, 2.0**-1022
    to_nearest = one + half_step == one and one + 3 * half_step == one + 4 * half_step
    if not (to_nearest and least * one > 0 and small / 2 > 0):
        raise RuntimeError("this thread's float modes are not the default ones")


def _zeros(kind: str, places: int) -> "array[Any]":
    return array(kind, bytes(array(kind).itemsize * places))


def _lent(places: "array[Any]", row: int = 1) -> tuple[int, int]:
    """A list's pointer and its number of rows."""
    return places.buffer_info()[0], len(places) // row


class Inputs:
    """What a run only reads; floats are rounded to f32 here. Cards are six floats each, counts two numbers."""

    def __init__(self, parameters: Sequence[float], cards: Sequence[float], counts: Sequence[int],
                 config: Config) -> None:
        self._parameters = array("f", parameters)
        self._cards = array("f", cards)
        self._counts = array("I", counts)
        self.config = config
        self.deck_size, self.learn_span = config.deck_size, config.learn_span

    def card(self, place: int) -> Sequence[float]:
        """Its floats and counts."""
        return [*self._cards[6 * place : 6 * place + 6], *self._counts[2 * place : 2 * place + 2]]

    def _arguments(self) -> list[Any]:
        return [*_lent(self._parameters), *_lent(self._cards, 6), *_lent(self._counts, 2), self.config]


class Lists:
    """What a run writes. A deck or a span above the limits is refused before a list is looked at, so it has no room."""

    def __init__(self, inputs: Inputs, table: int) -> None:
        deck, span = min(inputs.deck_size, MOST_CARDS), min(inputs.learn_span, MOST_DAYS)
        self.cards = _zeros("f", deck * 6)
        self.counts = _zeros("I", deck * 2)
        self._queue = _zeros("Q", deck * 2)
        self.days = _zeros("I", span * 4)
        self.costs = _zeros("f", span)
        self.memorized = _zeros("f", span)
        self.due = _zeros("I", span + span // 2)
        self._keys = _zeros("I", table * 2)
        self._intervals = _zeros("f", table)

    def _arguments(self) -> list[int]:
        return [*_lent(self.cards, 6), *_lent(self.counts, 2), *_lent(self._queue, 2), *_lent(self.days, 4),
                *_lent(self.costs), *_lent(self.memorized), *_lent(self.due), *_lent(self._keys, 2),
                *_lent(self._intervals)]


def simulate(inputs: Inputs, desired_retention: float, seed: int, lists: Lists) -> Answer:
    """A run, which leaves its forecast in the lists."""
    check_float_modes()
    answer: Answer = _library().drill_simulate(*inputs._arguments(), desired_retention, seed, *lists._arguments())
    return answer


def optimal_retention(inputs: Inputs, rounds: int, lists: Lists) -> Found:
    """The whole search in one call, on one thread."""
    check_float_modes()
    found: Found = _library().drill_optimal_retention(*inputs._arguments(), rounds, *lists._arguments())
    return found


class Search:
    """A search's state between its trials."""

    def __init__(self, rounds: int) -> None:
        self._search: _Search = _library().drill_search_start(rounds)

    def next_retention(self) -> float:
        """The retention to try, a NaN where there is none."""
        retention: float = _library().drill_search_next(self._search)
        return retention

    def take_mean(self, mean: float) -> None:
        """Of the retention that was to try."""
        self._search = _library().drill_search_take(self._search, mean)

    def answer(self) -> Found:
        """Of a search that has nothing more to try."""
        state = self._search.state
        refusal = _library().drill_search_answer(self._search)
        return Found(refusal, state.done, 0, state.done, state.x, state.fx)


def sample_size(span: int) -> int:
    """How many runs a trial has."""
    runs: int = _library().drill_sample_size(span)
    return runs


def target(span: int, lists: Lists) -> float:
    """What a run costs for each card memorized on its last day."""
    cost: float = _library().drill_target(span, *_lent(lists.costs), *_lent(lists.memorized))
    return cost


def mean(targets: Sequence[float]) -> float:
    """The mean of a trial's targets, added in their order."""
    lent = array("f", targets)
    found: float = _library().drill_mean(*_lent(lent), len(lent))
    return found
