"""What a course was made from: its settings file and its deck, as the page tells them."""

import ctypes
from collections.abc import Mapping
from dataclasses import dataclass, fields
from pathlib import Path
from typing import Any

from .decimals import shortest
from .deck import Deck
from .model import DESIRED_RETENTION, NO_LIMIT, SimulatorConfig
from .settings import Settings


@dataclass(frozen=True)
class Origin:
    """`settings` are texts by the names of the keys, `deck` the file's name and how many streets it has."""

    path: str
    settings: Mapping[str, str]
    deck: str


def _text(value: Any) -> str:
    if isinstance(value, bool):
        return "true" if value else "false"
    if value in (NO_LIMIT, float("inf")):
        return "no limit"
    if isinstance(value, float):
        return shortest(ctypes.c_float(value).value)
    if isinstance(value, (tuple, list)):
        return ", ".join(f"[{_text(entry)}]" if isinstance(entry, (tuple, list)) else _text(entry) for entry in value)
    return str(value)


# What a setting says that no file gives.
DEFAULTS = {**{field.name: _text(field.default) for field in fields(SimulatorConfig)},
            "desired_retention": _text(DESIRED_RETENTION)}


def origin(given: Settings, known: Deck) -> Origin:
    """Of a settings file and the deck that it was run with."""
    names = [field.name for field in fields(given) if field.name not in ("path", "config", "places", "sources")]
    others = {name: getattr(given, name) for name in names}
    config = {field.name: getattr(given.config, field.name) for field in fields(given.config)}
    texts = {name: _text(value) for name, value in {**others, **config}.items() if value is not None}
    # A seed may be any number.
    texts["seed"] = str(given.seed)
    cards = len(known.cards)
    deck = f"{Path(known.path).name}, {cards:,} street{'s' if cards != 1 else ''}" if known.path else "none"
    return Origin(given.path, texts, deck)
