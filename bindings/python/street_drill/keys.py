"""How the value of each key of the settings is read.

  READERS   by key; CONFIG: those of the fields of `SimulatorConfig`
  Written   a decimal number as it stands in the file
  Wrong     what is wrong with a value
"""

from collections.abc import Callable
from dataclasses import dataclass, fields
from datetime import date
from typing import Any

from .decimals import rounded
from .model import SimulatorConfig


@dataclass(frozen=True)
class Written:
    """A float as it stands in the file, so that it is rounded once and an error can name its key."""

    text: str


class Wrong(Exception):
    """A value that is not as it must be: its place below the key, and what is wrong."""


_KINDS = {bool: "true or false", str: "a text", int: "a whole number", Written: "a decimal number", list: "a list",
          dict: "a table"}


def _is(value: Any) -> str:
    return _KINDS.get(type(value), "a date or a time")


def _float(value: Any, place: str) -> float:
    if type(value) is int:
        value = Written(str(value))
    if type(value) is not Written:
        raise Wrong(place, f"must be a number and is {_is(value)}")
    try:
        return rounded(value.text.replace("_", ""))
    except ValueError as error:
        raise Wrong(place, str(error)) from error


def _whole(bits: int) -> Callable[[Any, str], int]:
    def read(value: Any, place: str) -> int:
        if type(value) is not int:
            raise Wrong(place, f"must be a whole number and is {_is(value)}")
        if not 0 <= value < 2**bits:
            raise Wrong(place, f"must be 0 to {2**bits - 1}")
        return value

    return read


def _bool(value: Any, place: str) -> bool:
    if type(value) is not bool:
        raise Wrong(place, f"must be true or false and is {_is(value)}")
    return value


def _retention(value: Any, place: str) -> float:
    retention = _float(value, place)
    if not 0 < retention < 1:
        raise Wrong(place, "must be above 0 and below 1; 90 % is written 0.9")
    return retention


def _cost_limit(value: Any, place: str) -> float:
    limit = _float(value, place)
    if limit < 0:
        raise Wrong(place, "must be 0 or more; inf is no limit")
    return limit


def _date(value: Any, place: str) -> date:
    if type(value) is not date:
        raise Wrong(place, f"must be a date such as 2026-11-23 and is {_is(value)}")
    return value


def _list(value: Any, place: str, read: Callable[[Any, str], Any], length: int | None = None) -> tuple[Any, ...]:
    if type(value) is not list:
        raise Wrong(place, f"must be a list and is {_is(value)}")
    if length is not None and len(value) != length:
        raise Wrong(place, f"must have {length} entries and has {len(value)}")
    return tuple(read(entry, f"{place}[{index}]") for index, entry in enumerate(value))


def _reader(default: Any) -> Callable[[Any, str], Any]:
    """How a key is read, by its default: a list must have its length and the like entries."""
    if type(default) is tuple:
        return lambda value, place: _list(value, place, _reader(default[0]), len(default))
    return {bool: _bool, int: _whole(32), float: _float}[type(default)]


CONFIG = {each.name: _reader(each.default) for each in fields(SimulatorConfig)}
READERS = {
    **CONFIG,
    "max_cost_perday": _cost_limit,
    "parameters": lambda value, place: _list(value, place, _float),
    "desired_retention": _retention,
    "desired_retention_for_deck": _retention,
    "first_day": _date,
    "seed": _whole(64),
}
