"""A deck as CSV: its head names the fields of `Card`, in any order, and other columns, which are carried through.

  read, of_text     a deck from a file, from a text
  with_retention    a deck whose streets are all reviewed at one retention
"""

import math
from collections.abc import Iterator, Sequence
from dataclasses import dataclass, replace
from datetime import date
from operator import itemgetter
from typing import Any

from . import files, names, sheet
from .cells import FIELDS, is_blank, readers
from .errors import Mistake, raise_all
from .model import CARD_FLOATS, Card
from .rows import is_kept as is_kept
from .rows import makes_sense, wrong_cells
from .sheet import Sheet

_NOT_DRILLED = Card(*[-math.inf] * 3, 0.0, *[-math.inf] * 2, 0, 0)


@dataclass(frozen=True, repr=False)
class Deck:
    """The cards of a file with their rows as written, and the line on which each row begins.

    `names` are the head's as the fields are called, `first_day` is the date of day 0; `delimiter` and `point` are how
    the file is written; `notes` are told beside the forecast.
    """

    path: str
    head: Sequence[str]
    rows: Sequence[Sequence[str]]
    lines: Sequence[int]
    cards: tuple[Card, ...]
    names: Sequence[str] = FIELDS
    first_day: date | None = None
    delimiter: str = ","
    point: str = "."
    notes: tuple[str, ...] = ()

    @property
    def kept(self) -> list[Card]:
        """The streets that somebody has drilled; the run has new cards in the others' place."""
        return [card for card in self.cards if is_kept(card)]

    def __repr__(self) -> str:
        return f"<Deck of {self.path or 'no file'}: {len(self.cards):,} streets, {len(self.kept):,} of them known>"


NO_DECK = Deck("", FIELDS, (), (), ())


def no_deck(first_day: date | None) -> Deck:
    """Of no street; the next one is written with dates where there is a first day."""
    return replace(NO_DECK, first_day=first_day)


# ---- rows


class _Reading:
    """The rows of a table as cards, and all that is wrong with them."""

    def __init__(self, table: Sheet, columns: Sequence[str], first_day: date | None) -> None:
        self._table, self._names = table, columns
        self._readers = readers(table.delimiter, first_day)
        self._columns = [[row[place].strip() for row in table.rows] for place in map(columns.index, FIELDS)]
        stabilities = self._columns[FIELDS.index("stability")]
        self._blank = {row for row, text in enumerate(stabilities) if not text and is_blank(self._texts(row))}
        self._mistakes: list[tuple[int, Mistake]] = []

    def _texts(self, row: int) -> list[str]:
        """In the order of the fields."""
        return [column[row] for column in self._columns]

    def _tell(self, row: int, name: str, sentence: str) -> None:
        line = self._table.lines[row]
        place = f"{self._table.path}: line {line}, column {self._names.index(name) + 1} ({name})"
        self._mistakes.append((line, Mistake(place, sentence)))

    def _cards(self) -> list[Card]:
        """A column at a time, each text once: ValueError where a cell is not as it must be."""
        columns = []
        for name, column in zip(FIELDS, self._columns):
            texts = [text for row, text in enumerate(column) if row not in self._blank] if self._blank else column
            values = {text: self._readers[name](text) for text in set(texts)}
            columns.append([values[text] for text in texts])
        cards: Iterator[Any] = map(Card, *columns)
        if not self._blank:
            return list(cards)
        return [_NOT_DRILLED if row in self._blank else next(cards) for row in range(len(self._table.rows))]

    def _check_twice(self) -> tuple[str, ...]:
        """What is to be told of the names where it is no mistake."""
        place = names.column(self._table, self._names)
        groups = [] if place is None else names.again(self._table, place)
        if place is None or not groups:
            return ()
        twice = list(names.twice(self._table, self._names, place, groups))
        for number, other in twice:
            written = self._table.rows[number][place][:40]
            self._tell(number, self._names[place], f"{written!r} stands on line {self._table.lines[other]} already")
        return () if twice else (names.note(self._table, self._names, place, groups),)

    def _check_points(self) -> str:
        """A file with decimal commas has no points: they might stand between thousands there."""
        if self._table.delimiter == ",":
            return "."
        seen: dict[str, int] = {}
        for column in self._columns[: len(CARD_FLOATS)]:
            for line, text in zip(self._table.lines, column):
                for mark in ",.":
                    if mark in text:
                        seen[mark] = min(line, seen.get(mark, line))
        if len(seen) > 1:
            line = max(seen.values())
            sentence = f"a file has decimal commas (line {seen[',']}) or points (line {seen['.']}), not both"
            self._mistakes.append((line, Mistake(f"{self._table.path}: line {line}", sentence)))
        return "." if "." in seen or self._table.delimiter == "\t" and not seen else ","

    def cards(self) -> tuple[tuple[Card, ...], str, tuple[str, ...]]:
        """The cards, the mark before a number's fraction, and notes."""
        cards: list[Card] = []
        try:
            cards = self._cards()
            odd = [row for row, card in enumerate(cards) if not makes_sense(card)]
        except ValueError:
            odd = [row for row in range(len(self._table.rows)) if row not in self._blank]
        for row in odd:
            for name, sentence in wrong_cells(self._readers, self._texts(row)):
                self._tell(row, name, sentence)
        notes = self._check_twice()
        point = self._check_points()
        raise_all(self._table.path, [mistake for _, mistake in sorted(self._mistakes, key=itemgetter(0))])
        return tuple(cards), point, notes


# ---- the whole


def _check_head(table: Sheet, names: Sequence[str]) -> None:
    place = f"{table.path}: line {table.head_line}"
    missing = [name for name in FIELDS if name not in names]
    if len(missing) == len(FIELDS):
        raise Mistake(place, f"column {missing[0]} is missing in the head, as are all others: is this line the head?")
    twice = [name for name in FIELDS if names.count(name) > 1]
    raise_all(table.path, [Mistake(place, f"column {name} {how} in the head") for group, how in
                           [(missing, "is missing"), (twice, "stands twice")] for name in group])


def of_text(path: str, text: str, first_day: date | None = None) -> Deck:
    """A deck from a text; `path` is for the errors, `first_day` the date of day 0 where days are written as dates."""
    table = sheet.read(path, text)
    columns = table.names()
    _check_head(table, columns)
    cards, point, notes = _Reading(table, columns, first_day).cards()
    return Deck(path, table.head, table.rows, table.lines, cards, columns, first_day, table.delimiter, point, notes)


def read(path: str, first_day: date | None = None) -> Deck:
    """A deck from a file."""
    return of_text(path, files.read(path), first_day)


def with_retention(known: Deck, retention: float) -> Deck:
    """All its streets at one retention, from their next review on."""
    return replace(known, cards=tuple(replace(card, desired_retention=retention) for card in known.cards))
