"""Settings from a TOML file: the fields of `SimulatorConfig`, and parameters, retentions, seed and the first day.

A missing key takes its default; parameters have none, which the library refuses. Each error names its key, and all of
a file's are told at once. What the command line sets goes before what the file says.
"""

import difflib
import itertools
import re
import tomllib
from collections.abc import Callable, Mapping, Sequence
from dataclasses import dataclass, field
from datetime import date
from pathlib import Path
from typing import Any

from . import causes, files
from .decimals import rounded
from .errors import Mistake, raise_all
from .keys import CONFIG, READERS, Written, Wrong
from .model import DESIRED_RETENTION, SEED, SimulatorConfig

PARAMETERS = 34

# Where something is set, a file or an option, and its text.
Source = tuple[str, str]
# Tells the place of a key by its source's place and text.
Finder = Callable[[str, str, str], str]


@dataclass(frozen=True, repr=False)
class Settings:
    """What one file says. `path` is its name as the planner wrote it.

    `first_day` is the date of day 0. `desired_retention` is for new streets; `desired_retention_for_deck` for the
    deck's, which keep their own where it is None. `places` are where the keys are set, `sources` the files read.
    """

    path: str
    config: SimulatorConfig
    parameters: tuple[float, ...]
    desired_retention: float
    seed: int
    desired_retention_for_deck: float | None = None
    first_day: date | None = None
    places: Mapping[str, str] = field(default_factory=dict)
    sources: tuple[str, ...] = ()

    @property
    def name(self) -> str:
        """What the file is called, for a head or a row."""
        return Path(self.path).stem

    def __repr__(self) -> str:
        return (f"<Settings of {self.path}: {self.config!r}, {len(self.parameters)} parameters, "
                f"desired_retention={self.desired_retention:.6g}, seed={self.seed}>")

    def place(self, key: str) -> str:
        """Where a key is set, or would be; it may have an index."""
        return f"{self.places.get(key.partition('[')[0], self.path)} ({key})"


# ---- parameters from a file of their own


def _numbers(path: str) -> tuple[float, ...]:
    """Between the numbers stand blanks, commas, semicolons, brackets or the ends of lines; # begins a comment."""
    text = re.sub("#.*", "", files.read(path))
    numbers, mistakes = [], []
    for word in re.finditer(r"[^\s,;\[\]]+", text):
        try:
            numbers.append(rounded(word[0]))
        except ValueError as error:
            mistakes.append(Mistake(f"{path}: {_line(text, word.start())}", f"{word[0][:40]!r} {error}"))
    raise_all(path, mistakes)
    return tuple(numbers)


def _parameters(value: Any, folder: Path) -> tuple[float, ...]:
    numbers = _numbers(str(folder / value)) if type(value) is str else READERS["parameters"](value, "parameters")
    # The library reads the first ones, and asks nothing of more.
    if len(numbers) > PARAMETERS:
        raise Wrong("parameters", f"has {len(numbers)} numbers, and must have {PARAMETERS}")
    return tuple(numbers)


# ---- the whole


def _line(text: str, place: int) -> str:
    return f"line {text.count(chr(10), 0, place) + 1}"


def _line_of(text: str, place: str) -> str:
    """That of a place as tomllib tells it."""
    number = re.match(r"line (\d+)", place)
    lines = text.split("\n")
    return lines[int(number[1]) - 1 if number else -1]


def _parsed(path: str, text: str, find: Finder) -> dict[str, Any]:
    try:
        return tomllib.loads(text, parse_float=Written)
    except tomllib.TOMLDecodeError as error:
        sentence, _, place = str(error).rpartition(" (at ")
        if seen := causes.of_setting(_line_of(text, place)):
            key, sentence = seen
            raise Mistake(f"{find(path, text, key)} ({key})", sentence) from error
        raise Mistake(f"{path}: {place.rstrip(')')}", sentence) from error
    except ValueError as error:
        # tomllib tells no place of a whole number of more digits than Python reads.
        long = re.search(r"[\d_]{4301}", text)
        raise Mistake(f"{path}: {_line(text, long.start())}" if long else path, "a number is too long") from error
    except RecursionError as error:
        depths = list(itertools.accumulate((char in "[{") - (char in "]}") for char in text))
        raise Mistake(f"{path}: {_line(text, depths.index(max(depths)))}", "lists lie too deep") from error


def _value(key: str, value: Any, folder: Path) -> Any:
    if key not in READERS:
        near = difflib.get_close_matches(key, READERS, n=1)
        others = f"is {near[0]} meant?" if near else "the settings are " + ", ".join(READERS)
        raise Wrong(_shown(key), f"is no setting; {others}")
    return _parameters(value, folder) if key == "parameters" else READERS[key](value, key)


def _shown(key: str) -> str:
    """A key may be any text: it is shown so that it stays on one line."""
    return key if re.fullmatch(r"[\w-]{1,80}", key) else repr(key[:80])


def _found(path: str, text: str, key: str) -> str:
    """Where the key's value begins in a file; tomllib does not tell it."""
    value = re.search(rf"""^[ \t]*["']?{re.escape(key)}["']?[ \t]*=[ \t]*""", text, re.MULTILINE)
    if value is None:
        return path
    return f"{path}: {_line(text, value.end())}, column {value.end() - text.rfind(chr(10), 0, value.end())}"


def _option(option: str, text: str, key: str) -> str:
    """An option is short: it is its own place."""
    return option


class _Reading:
    """What the sources set, where, and all that is wrong with them."""

    def __init__(self) -> None:
        self.values: dict[str, Any] = {}
        self.places: dict[str, str] = {}
        self.options: dict[str, str] = {}
        self.files: list[str] = []
        self.mistakes: list[Mistake] = []

    def add(self, source: Source, folder: Path = Path(), is_option: bool = False) -> None:
        """What an option sets goes before what the file says."""
        place, text = source
        find = _option if is_option else _found
        try:
            parsed = _parsed(place, text, find)
        except Mistake as mistake:
            self.mistakes.append(mistake)
            return
        for key, value in parsed.items():
            if is_option:
                self._check_once(key, place)
            self.places[key] = find(place, text, key)
            self._add(key, value, folder)

    def _check_once(self, key: str, option: str) -> None:
        """The planner cannot mean both of two options."""
        if key in self.options:
            self.mistakes.append(Mistake(f"{option} ({_shown(key)})", f"is set by {self.options[key]} already"))
        self.options[key] = option

    def _add(self, key: str, value: Any, folder: Path) -> None:
        if key == "parameters" and type(value) is str:
            self.files.append(str(folder / value))
        try:
            self.values[key] = _value(key, value, folder)
        except Wrong as wrong:
            below, sentence = wrong.args
            self.mistakes.append(Mistake(f"{self.places[key]} ({below})", sentence))
        except Mistake as mistake:
            self.mistakes.append(mistake)


def _check_calendar(given: Settings) -> None:
    """The forecast, and what is due half a span later, must lie in it."""
    if given.first_day and given.first_day.toordinal() + 2 * given.config.learn_span > date.max.toordinal():
        raise Mistake(given.place("first_day"), "the span does not end before the year 9999")


def of_text(path: str, text: str, options: Sequence[Source] = ()) -> Settings:
    """Settings from a text, and from what options of the command line set; `path` is for the errors."""
    told = _Reading()
    told.add((path, text), Path(path).parent)
    for option in options:
        told.add(option, is_option=True)
    raise_all(path, told.mistakes)
    values = told.values
    given = Settings(
        path=path,
        config=SimulatorConfig(**{key: value for key, value in values.items() if key in CONFIG}),
        parameters=values.get("parameters", ()),
        desired_retention=values.get("desired_retention", DESIRED_RETENTION),
        seed=values.get("seed", SEED),
        desired_retention_for_deck=values.get("desired_retention_for_deck"),
        first_day=values.get("first_day"),
        places=told.places,
        sources=(path, *told.files),
    )
    _check_calendar(given)
    return given


def read(path: str, options: Sequence[Source] = ()) -> Settings:
    """Settings from a file."""
    return of_text(path, files.read(path), options)
