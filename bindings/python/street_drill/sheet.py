"""A table as spreadsheets write it: commas, semicolons or tabs between the cells, blanks and capitals in the head, rows
that are empty.

  read    the head and the rows of a text
"""

import csv
import io
import re
from collections.abc import Sequence
from dataclasses import dataclass

from .errors import Mistake, raise_all

_DELIMITERS = ",;\t"
# Spreadsheets may tell in a line of its own, before the head, what stands between the cells.
_TOLD = re.compile(r"\"?sep=([,;\t])\"?[ \t,;]*\r?(?=\n)", re.IGNORECASE)


@dataclass(frozen=True)
class Sheet:
    """The head as it is written, and the rows below it, each with the line on which it begins."""

    path: str
    delimiter: str
    head: Sequence[str]
    head_line: int
    rows: Sequence[Sequence[str]]
    lines: Sequence[int]

    def names(self) -> list[str]:
        """The head in small letters, with _ for blanks."""
        return [re.sub(r"[\s_-]+", "_", name.strip()).lower() for name in self.head]


def _delimiter(text: str) -> str:
    """What is told, else what stands most often in the first line that is not blank."""
    if told := _TOLD.match(text):
        return told[1]
    first = text.lstrip().partition("\n")[0]
    return max(_DELIMITERS, key=first.count)


def _records(path: str, text: str, delimiter: str) -> tuple[list[int], list[list[str]]]:
    """The rows that have something in them, and the line on which each begins."""
    lines, records = [], []
    reader = csv.reader(io.StringIO(text, newline=""), strict=True, delimiter=delimiter)
    line = 1
    try:
        for record in reader:
            if any(map(str.strip, record)):
                lines.append(line)
                records.append(record)
            line = reader.line_num + 1
    except csv.Error as error:
        raise Mistake(f"{path}: line {line}", str(error)) from error
    return lines, records


def _length_mistake(path: str, delimiter: str, line: int, cells: int, head: int) -> Mistake:
    sentence = f"has {cells} columns, and the head has {head}"
    if cells > head and delimiter == ",":
        sentence += "; a decimal comma ends a cell here: write a point, or have semicolons between the cells"
    return Mistake(f"{path}: line {line}", sentence)


def read(path: str, text: str) -> Sheet:
    """Of a text; `path` is for the errors. Empty cells beyond the head are left out."""
    delimiter = _delimiter(text)
    lines, records = _records(path, _TOLD.sub("", text, count=1) if _TOLD.match(text) else text, delimiter)
    head_line, head = (lines.pop(0), records.pop(0)) if records else (1, [])
    while head and not head[-1].strip():
        head.pop()
    width, mistakes = len(head), []
    for number, record in enumerate(records):
        if len(record) != width:
            if len(record) < width or any(map(str.strip, record[width:])):
                mistakes.append(_length_mistake(path, delimiter, lines[number], len(record), width))
            records[number] = record[:width]
    raise_all(path, mistakes)
    return Sheet(path, delimiter, head, head_line, records, lines)
