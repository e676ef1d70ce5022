"""Streets that stand twice in a deck, by their names.

  column   where the names stand
  again    the rows of each name that stands on several
  twice    of these the rows that are another's again: of a street's column, and nothing else tells the two apart
  note     what is told of the others
"""

import re
from collections.abc import Iterator, Sequence

from .cells import FIELDS
from .sheet import Sheet

_STREET = re.compile(r"(streets?|roads?|stra(ß|ss)en?|rues?|calles?|straat)(_?names?)?")
_NAME = re.compile(r"(.*_)?names?")
_NUMBER = re.compile(r"[\d\s.,/+-]*")


def _is_text(table: Sheet, place: int) -> bool:
    return any(not _NUMBER.fullmatch(row[place]) for row in table.rows)


def column(table: Sheet, names: Sequence[str]) -> int | None:
    """The first that is called so, else the only one with texts."""
    carried = [place for place, name in enumerate(names) if name not in FIELDS]
    for called in (_STREET, _NAME):
        for place in carried:
            if called.fullmatch(names[place]):
                return place
    texts = [place for place in carried if _is_text(table, place)]
    return texts[0] if len(texts) == 1 else None


def again(table: Sheet, place: int) -> list[list[int]]:
    """The rows of each name that stands on several."""
    streets = [row[place].strip().casefold() for row in table.rows]
    if len(set(streets)) == len(streets):
        return []
    rows: dict[str, list[int]] = {}
    for number, street in enumerate(streets):
        rows.setdefault(street, []).append(number)
    return [found for street, found in rows.items() if street and len(found) > 1]


def twice(table: Sheet, names: Sequence[str], place: int, groups: Sequence[Sequence[int]]) -> Iterator[tuple[int, int]]:
    """Each row with the one that it is again; none of a column that is only called a name, perhaps another's."""
    if not _STREET.fullmatch(names[place]):
        return
    carried = [other for other, name in enumerate(names) if name not in FIELDS]
    for rows in groups:
        first: dict[tuple[str, ...], int] = {}
        for number in rows:
            street = tuple(table.rows[number][other].strip().casefold() for other in carried)
            other = first.setdefault(street, number)
            if other != number:
                yield number, other


def note(table: Sheet, names: Sequence[str], place: int, groups: Sequence[Sequence[int]]) -> str:
    """Of the first name that stands on several rows."""
    first, second = groups[0][:2]
    where = f"{table.path}: line {table.lines[second]}, column {place + 1} ({names[place]})"
    others = f", and {len(groups) - 1:,} more names stand on several" if len(groups) > 1 else ""
    return (f"{where}: {table.rows[first][place].strip()[:40]!r} stands on line {table.lines[first]} already{others}; "
            "a street that stands twice is drilled and counted twice")
