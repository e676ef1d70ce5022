"""The cells of a deck: what they say, and why one says nothing.

  FIELDS     those of `Card`; DAYS: those that may be dates; STATE: those that a street has once it is drilled
  readers    how each field's cell is read
  is_blank   whether the cells are those of a street that nobody has drilled yet
"""

import re
from collections.abc import Callable, Sequence
from datetime import date
from functools import partial

from .causes import cause
from .decimals import rounded
from .model import CARD_COUNTS, CARD_FLOATS

FIELDS = CARD_FLOATS + CARD_COUNTS
DAYS = ("last_date", "due")
STATE = ("difficulty", "stability", "last_date", "due", "interval")

Reader = Callable[[str], float]

# Spreadsheets write a date with its midnight, too.
_DATE = re.compile(r"(\d{4}-\d\d-\d\d)([ T]00:00(:00)?)?", re.ASCII)
_COUNT = re.compile(r"(\d+)([.,]0*)?", re.ASCII)


def _number(text: str) -> float:
    try:
        return rounded(text)
    except ValueError as error:
        raise ValueError(cause(text) or str(error)) from error


def _point_number(text: str) -> float:
    """Where commas stand between the cells a comma is no decimal one."""
    try:
        return _number(text)
    except ValueError as error:
        more = ", or have semicolons or tabs between the cells" if str(error).endswith("write a point") else ""
        raise ValueError(f"{error}{more}") from error


def _comma_number(text: str) -> float:
    """With a decimal comma or a point."""
    return _number(text if "." in text else text.replace(",", ".", 1))


def _day(text: str, number: Reader, first_day: date | None) -> float:
    """Days count from the forecast's first."""
    found = _DATE.fullmatch(text)
    if not found:
        return number(text)
    if first_day is None:
        raise ValueError("is a date, and the settings have no first_day")
    try:
        return float((date.fromisoformat(found[1]) - first_day).days)
    except ValueError:
        raise ValueError("is no date of the calendar") from None


def _count(text: str) -> int:
    """Some write 4 as 4.0."""
    found = _COUNT.fullmatch(text)
    if not found:
        raise ValueError("is no whole number")
    digits = found[1].lstrip("0") or "0"
    # Ten digits hold every number that fits, and int refuses very long ones with a sentence of its own.
    if len(digits) > 10 or int(digits) >= 2**32:
        raise ValueError("is above 4294967295")
    return int(digits)


def readers(delimiter: str, first_day: date | None) -> dict[str, Reader]:
    """A wrong cell raises ValueError."""
    number = _point_number if delimiter == "," else _comma_number
    day = partial(_day, number=number, first_day=first_day)
    return {**dict.fromkeys(CARD_FLOATS, number), **dict.fromkeys(DAYS, day), **dict.fromkeys(CARD_COUNTS, _count)}


def is_blank(texts: Sequence[str]) -> bool:
    """Of cells in the order of the fields; the retention may be there, and counts of 0."""
    cells = dict(zip(FIELDS, texts))
    return not any(cells[name] for name in STATE) and all(cells[name].strip("0") == "" for name in CARD_COUNTS)
