"""Streets whose review was put off beyond the span: what a limit leaves undone.

  overdue   how many there are
  notes     what a planner is told of them
"""

import math
from collections.abc import Iterable, Sequence
from itertools import chain, repeat

from .model import Card


def _asked(card: Card, before: Card | None) -> float:
    """The day for which its last event scheduled it, or the deck where the run had none: putting off moves `due`."""
    if before and (card.last_date, card.reps) == (before.last_date, before.reps):
        return before.due
    return card.last_date + card.interval


def overdue(cards: Iterable[Card], kept: Sequence[Card], span: int) -> int:
    """Of the cards that a run leaves, the kept ones first as they were before it: those that the last day put off to
    the day after it. One that was never drilled is not overdue."""
    pairs = zip(cards, chain[Card | None](kept, repeat(None)))
    return sum(card.due == span and math.isfinite(card.last_date) and _asked(card, before) < span
               for card, before in pairs)


def notes(cards: Iterable[Card], kept: Sequence[Card], span: int, runs: int) -> list[tuple[str, str]]:
    """Cards are those of the first run."""
    number = overdue(cards, kept, span)
    told = f"{number:,} street{'' if number == 1 else 's'}" if number else "no street"
    return [("overdue at the end", f"{told}{' in the first run' if runs > 1 else ''}")]
