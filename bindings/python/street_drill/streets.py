"""Which streets are known and which are new, and which of them a retention is for: `desired_retention` is for new ones,
and those of a deck keep their own.

  prepared   the deck at the retention that the settings have for it
  counts     how many are known, and how many new; told: in words
  notes      what is told beside a forecast; warnings: what is likely not meant
"""

from dataclasses import dataclass

from .deck import Deck, with_retention
from .decimals import shortest, to_f32
from .settings import Settings


@dataclass(frozen=True)
class Streets:
    """How many somebody has drilled already, and how many the run makes."""

    known: int
    new: int


def prepared(given: Settings, known: Deck) -> Deck:
    """The deck with the retention that the settings have for it."""
    retention = given.desired_retention_for_deck
    return known if retention is None else with_retention(known, retention)


def counts(given: Settings, known: Deck) -> Streets:
    """Of a forecast's streets."""
    kept = len(known.kept)
    return Streets(kept, max(0, given.config.deck_size - kept) if given.config.learn_limit else 0)


def told(given: Settings, known: Deck) -> str:
    """So that a planner sees where a deck's streets are not taken for known ones."""
    streets = counts(given, known)
    return f"{streets.known:,} known by the deck, {streets.new:,} new"


def notes(given: Settings, known: Deck) -> list[tuple[str, str]]:
    """What a planner is told where there is a deck: its streets, and the retentions where it has some."""
    if not known.path:
        return []
    return [("streets", told(given, known)), *_retentions(given, known)]


def _retentions(given: Settings, known: Deck) -> list[tuple[str, str]]:
    streets = counts(given, known)
    if not streets.known:
        return []
    own = sorted({card.desired_retention for card in known.kept})
    theirs = shortest(own[0]) if len(own) == 1 else f"{shortest(own[0])} to {shortest(own[-1])}"
    keep = "keep their own," if given.desired_retention_for_deck is None else "are reviewed at"
    new = f"{shortest(to_f32(given.desired_retention))} for {streets.new:,} new streets; " if streets.new else ""
    return [("retention", f"{new}the deck's {streets.known:,} {keep} {theirs}")]


def warnings(given: Settings, known: Deck) -> list[str]:
    """What is likely not meant, each with its place."""
    return [*known.notes, *(f"{given.place(key)}: {sentence}" for key, holds, sentence in [
        ("desired_retention_for_deck", given.desired_retention_for_deck is not None and not known.kept,
         f"changes nothing for {given.name}, which has no street that is known"),
        ("suspend_after_lapses", given.config.suspend_after_lapses == 0,
         "is 0: every street retires at its first turn; without the key there is no limit"),
    ] if holds)]
