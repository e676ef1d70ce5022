"""What a caller gives, as the library takes it; an error names the field.

  number, index, whole   one value, one that is whole, and one of so many bits
  like                   a setting
  listed, numbers        a list, and one of numbers, such as the parameters
  workers                how many
  cards                  cards of any kind, as floats and counts
"""

import operator
from array import array
from collections.abc import Callable, Iterable, Iterator, Mapping, Sequence
from typing import Any

CARD_FLOATS = ("difficulty", "stability", "last_date", "due", "interval", "desired_retention")
CARD_COUNTS = ("reps", "lapses")


def number(name: str, value: Any) -> float:
    """Rounded to f32. A text is no number, whatever it says."""
    try:
        rounded: float = array("f", (value,))[0]
    except TypeError:
        raise TypeError(f"{name} must be a number, and is {value!r}") from None
    except OverflowError:
        raise ValueError(f"{name} is too large") from None
    return rounded


def index(name: str, value: Any) -> int:
    """A whole number of any size."""
    try:
        return operator.index(value)
    except TypeError:
        raise TypeError(f"{name} must be a whole number, and is {value!r}") from None


def whole(name: str, value: Any, bits: int) -> int:
    """A whole number of so many bits."""
    given = index(name, value)
    if not 0 <= given < 2**bits:
        raise ValueError(f"{name} is {given}, and must be 0 to {2**bits - 1}")
    return given


def listed(name: str, value: Any) -> list[Any]:
    try:
        return list(value)
    except TypeError:
        raise TypeError(f"{name} must be a list, and is {value!r}") from None


def workers(value: Any) -> int | None:
    """None is all cores."""
    if value is not None and index("workers", value) < 1:
        raise ValueError(f"workers is {value}, and must be 1 or more")
    return None if value is None else index("workers", value)


def like(name: str, value: Any, default: Any) -> Any:
    """A setting of the kind of its default: a list has as many entries."""
    if isinstance(default, tuple):
        entries = listed(name, value)
        if len(entries) != len(default):
            raise ValueError(f"{name} has {len(entries)} entries, and must have {len(default)}")
        return tuple(like(f"{name}[{place}]", entry, default[0]) for place, entry in enumerate(entries))
    if isinstance(default, bool):
        if value not in (True, False):
            raise TypeError(f"{name} must be True or False, and is {value!r}")
        return bool(value)
    return whole(name, value, 32) if isinstance(default, int) else number(name, value)


def _packed(kind: str, values: Sequence[Any], check: Callable[[int, Any], object]) -> "array[Any]":
    """All values at once; where one does not fit, `check` is shown each with its place, and tells which."""
    try:
        return array(kind, values)
    except (TypeError, OverflowError):
        for place, value in enumerate(values):
            check(place, value)
        raise


def numbers(name: str, values: Iterable[Any]) -> "array[Any]":
    """A list of numbers."""
    return _packed("f", listed(name, values), lambda place, value: number(f"{name}[{place}]", value))


# ---- cards


def _columns(given: Any) -> Iterator[tuple[Any, ...]]:
    """The rows of columns by name."""
    columns = []
    for name in CARD_FLOATS + CARD_COUNTS:
        try:
            column = given[name]
        except KeyError:
            raise ValueError(f"the cards have no column {name}") from None
        if not isinstance(column, Iterable):
            raise TypeError(f"column {name} must be a list, and is {column!r}; a single card stands in a list")
        columns.append(list(column))
        if len(columns[-1]) != len(columns[0]):
            raise ValueError(f"column {name} has {len(columns[-1])} cards, and {CARD_FLOATS[0]} has {len(columns[0])}")
    return zip(*columns)


def _row(place: int, card: Any) -> tuple[Any, ...]:
    get = operator.itemgetter if isinstance(card, Mapping) else operator.attrgetter
    try:
        row: tuple[Any, ...] = get(*CARD_FLOATS, *CARD_COUNTS)(card)
    except (KeyError, AttributeError) as error:
        missing = error.args[0] if isinstance(error, KeyError) else error.name
        raise TypeError(f"card {place} has no {missing}: {card!r}") from None
    return row


def cards(given: Any) -> tuple["array[Any]", "array[Any]"]:
    """Of cards or mappings, or of columns by name, as a data frame has them: the floats of all, and their counts."""
    by_name = isinstance(given, Mapping) or (hasattr(given, "columns") and hasattr(given, "__getitem__"))
    rows = list(_columns(given)) if by_name else [_row(*each) for each in enumerate(listed("cards", given))]
    width = len(CARD_FLOATS)

    def float_at(place: int, value: Any) -> float:
        return number(f"card {place // width}: {CARD_FLOATS[place % width]}", value)

    def count_at(place: int, value: Any) -> int:
        return whole(f"card {place // 2}: {CARD_COUNTS[place % 2]}", value, 32)

    floats = _packed("f", [value for row in rows for value in row[:width]], float_at)
    return floats, _packed("I", [value for row in rows for value in row[width:]], count_at)
