"""What is wrong with a row of a deck, cell by cell.

  is_kept       whether the run keeps a card, since somebody has drilled its street
  makes_sense   whether nothing is to be told of a card
  wrong_cells   what is to be told, by the cells' names
"""

import ctypes
import math
from collections.abc import Iterator, Mapping, Sequence

from .cells import FIELDS, STATE, Reader
from .model import Card

# The run keeps an existing card only where its stability is above this f32; the others' streets are new ones.
_KEPT_ABOVE = ctypes.c_float(1e-9).value

_EMPTY = f"is empty; of a street not yet drilled {', '.join(STATE)} are empty, all of them"
_DROPPED = ("says that nobody has drilled the street, and last_date or reps say that somebody has; of a street not yet "
            f"drilled {', '.join(STATE)} are empty")


def _is_above(stability: float) -> bool:
    return stability > _KEPT_ABOVE


def is_kept(card: Card) -> bool:
    """Whether somebody has drilled it."""
    return _is_above(card.stability)


def makes_sense(card: Card) -> bool:
    """The next function tells what does not, this one is soon done."""
    if _is_above(card.stability):
        return 1 <= card.difficulty <= 10 and card.last_date <= 0 and 0 < card.desired_retention < 1
    return card.stability == -math.inf or not (math.isfinite(card.last_date) or card.reps)


def _odd_values(values: Mapping[str, float]) -> Iterator[tuple[str, str]]:
    """What the library takes and makes no sense; of a drilled street what is not finite is for the library to tell."""
    last = values.get("last_date", math.nan)
    stability = values.get("stability", math.inf)
    if not _is_above(stability):
        if stability != -math.inf and (math.isfinite(last) or values.get("reps")):
            yield "stability", _DROPPED
        return
    rules = {
        "difficulty": (lambda value: 1 <= value <= 10 or last == -math.inf, "is not within 1 and 10"),
        "last_date": (lambda value: value <= 0, "is after the forecast's first day"),
        "desired_retention": (lambda value: 0 < value < 1, "is not between 0 and 1; 90 % is written 0.9"),
    }
    for name, (holds, sentence) in rules.items():
        value = values.get(name, math.nan)
        if math.isfinite(value) and not holds(value):
            yield name, sentence


def wrong_cells(readers: Mapping[str, Reader], texts: Sequence[str]) -> list[tuple[str, str]]:
    """Those that say nothing, and of the others those that make no sense; in the order of the fields."""
    values: dict[str, float] = {}
    wrong: dict[str, str] = {}
    for name, text in zip(FIELDS, texts):
        try:
            values[name] = readers[name](text)
        except ValueError as error:
            wrong[name] = str(error) if text else _EMPTY
    wrong |= _odd_values(values)
    cells = dict(zip(FIELDS, texts))
    return [(name, f"{cells[name][:40]!r} {wrong[name]}" if cells[name] else wrong[name])
            for name in FIELDS if name in wrong]
