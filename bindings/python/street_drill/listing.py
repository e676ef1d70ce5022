"""What the program `forecast` printed, read as a course: its first line, and a line a day."""

import re
import struct
from pathlib import Path

from . import files
from .course import Course
from .errors import Mistake, Refusal
from .library import MOST_DAYS

_COUNT = r"(\d{1,10})"
_FIRST = re.compile(rf"\(forecast {_COUNT} \(turns {_COUNT}\) \(cards {_COUNT}\)\)", re.ASCII)
_REFUSED = re.compile(rf"\(refused {_COUNT} {_COUNT}\)", re.ASCII)
# The programs have limits of their own.
_SMALLER = {2: "the deck is 0 or above 512", 3: "the span is not 1 to 730",
            8: "more than 4,096 different intervals are needed"}
_DAY = re.compile(
    rf"\(day {_COUNT} \(learn {_COUNT}\) \(review {_COUNT}\) \(correct {_COUNT}\) \(introduced {_COUNT}\) "
    r"\(cost ([0-9A-F]{8})\) \(held ([0-9A-F]{8})\)\)", re.ASCII)


def float_of(bits: str) -> float:
    """By its eight hex digits."""
    value: float = struct.unpack(">f", bytes.fromhex(bits))[0]
    return value


def refused(line: str) -> str | None:
    """What a refusal's line says, None where it is none."""
    found = _REFUSED.fullmatch(line)
    if not found:
        return None
    refusal = Refusal(int(found[1]), int(found[2]))
    return f"refused {found[1]} {found[2]}: {_SMALLER.get(refusal.number, refusal.sentence)}"


def _span(path: str, line: str) -> int:
    if told := refused(line):
        raise Mistake(f"{path}: line 1", told)
    first = _FIRST.fullmatch(line)
    if not first or not 1 <= int(first[1]) <= MOST_DAYS:
        raise Mistake(f"{path}: line 1", "is not the first line of a forecast")
    return int(first[1])


def _day(path: str, number: int, line: str) -> tuple[float, ...]:
    day = _DAY.fullmatch(line)
    if not day or int(day[1]) != number:
        raise Mistake(f"{path}: line {number + 2}", f"is not the line of day {number}")
    return *map(int, day.groups()[1:5]), float_of(day[6]), float_of(day[7])


def of_text(path: str, text: str) -> Course:
    """A course from a text; `path` is for the errors. A listing tells no due counts."""
    first, *days = text.replace("\r\n", "\n").removesuffix("\n").split("\n")
    span = _span(path, first)
    if len(days) != span:
        line = min(len(days), span) + 2
        raise Mistake(f"{path}: line {line}", f"{span} days were forecast, and {len(days)} lines follow")
    rows = [_day(path, number, line) for number, line in enumerate(days)]
    names = ("learned", "reviewed", "correct", "introduced", "cost", "memorized")
    return Course(Path(path).stem, dict(zip(names, zip(*rows))), {})


def read(path: str) -> Course:
    """A course from a file."""
    return of_text(path, files.read(path))
