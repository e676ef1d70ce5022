"""The deck after a forecast, written as the next one's."""

import math
from collections.abc import Sequence
from datetime import date
from itertools import zip_longest
from operator import attrgetter

from . import files
from .cells import DAYS, FIELDS
from .deck import Deck, is_kept
from .decimals import shortest, to_f32
from .model import CARD_COUNTS, Card


def _day(deck: Deck, day: float, span: int) -> str:
    """A date where there are dates, else a number that counts from the day after the span."""
    if deck.first_day and math.isfinite(day) and day == int(day):
        ordinal = deck.first_day.toordinal() + int(day)
        if 1 <= ordinal <= date.max.toordinal():
            return date.fromordinal(ordinal).isoformat()
    return shortest(to_f32(day - span) if math.isfinite(day) else day)


def _column(deck: Deck, name: str, cards: Sequence[Card], span: int) -> list[str]:
    values = map(attrgetter(name), cards)
    if name in CARD_COUNTS:
        return list(map(str, values))
    texts = [_day(deck, day, span) for day in values] if name in DAYS else list(map(shortest, values))
    return texts if deck.point == "." else [text.replace(".", deck.point) for text in texts]


def updated(deck: Deck, cards: Sequence[Card], span: int) -> str:
    """The deck after a forecast, as the next one's: its day 0 is the day after the span.

    The run's cards are the kept ones in their order and then the new ones, which take the other columns of the rows
    that were not kept, in their order; rows that no new card came for stay as they were. It is written as it was read.
    """
    order = sorted(range(len(deck.cards)), key=lambda place: not is_kept(deck.cards[place]))
    rows = [deck.rows[place] for place in order]
    columns = [_column(deck, name, cards, span) if name in FIELDS else [row[place] for row in rows[: len(cards)]]
               for place, name in enumerate(deck.names)]
    written = zip_longest(*columns, fillvalue="")
    return files.csv_text([deck.head, *written, *rows[len(cards) :]], deck.delimiter)
