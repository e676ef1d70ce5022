"""Where a refusal is in the planner's files: the library tells numbers, a planner wants the key, or line and column.

  placed   a refusal as a mistake with its place
"""

from .deck import Deck
from .errors import Mistake, Refusal
from .rules import Rule, wrong_field, wrong_setting
from .settings import PARAMETERS, Settings

def _sentence(given: Settings, known: Deck, refusal: Refusal) -> str:
    """With the numbers that the library was not asked for."""
    if (refusal.number, refusal.second) == (1, PARAMETERS):
        return f"there are {len(given.parameters)} parameters, and {PARAMETERS} are needed"
    if (refusal.number, refusal.second) == (2, 1):
        return f"the deck has {len(known.cards):,} streets, and deck_size is {given.config.deck_size:,}"
    return refusal.sentence


def _place_in_settings(given: Settings, known: Deck, refusal: Refusal) -> Rule:
    keys = {1: "parameters", 2: "deck_size", 3: "learn_span"}
    wrong = wrong_setting(given.config, given.desired_retention) if refusal.number == 4 else None
    key, rule = wrong or (keys.get(refusal.number), _sentence(given, known, refusal))
    return given.place(key) if key else given.path, rule


def _place_in_deck(known: Deck, refusal: Refusal) -> Rule:
    line = f"{known.path}: line {known.lines[refusal.second]}"
    if wrong := wrong_field(known.cards[refusal.second]):
        name, rule = wrong
        return f"{line}, column {known.names.index(name) + 1} ({name})", rule
    return line, refusal.sentence


def placed(given: Settings, known: Deck, refusal: Refusal) -> Mistake:
    """Of a card in its deck, of all else in the settings."""
    found = _place_in_deck(known, refusal) if refusal.number == 5 else _place_in_settings(given, known, refusal)
    place, rule = found
    return Mistake(place, f"refused {refusal.number} {refusal.second}: {rule}")
