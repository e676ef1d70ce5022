"""The street drill forecast: what a drill costs each day and how many streets it holds in memory, by the FSRS-7 model.

    from street_drill import SimulatorConfig, simulate
    forecast = simulate(SimulatorConfig(deck_size=120, learn_span=30), parameters)

`street-drill --help`, or `python3 -m street_drill --help`, is the planner's command.
"""

from .deck import Deck
from .deck import read as read_deck
from .errors import Mistake, Refusal
from .library import LibraryMissing
from .model import NO_LIMIT, Card, Cards, Day, Forecast, SimulatorConfig, forecasts, simulate
from .search import Optimum, Trial, optimal_retention
from .settings import Settings
from .settings import read as read_settings

__version__ = "0.1.0"

__all__ = ["NO_LIMIT", "Card", "Cards", "Day", "Deck", "Forecast", "LibraryMissing", "Mistake", "Optimum", "Refusal",
           "Settings", "SimulatorConfig", "Trial", "forecasts", "optimal_retention", "read_deck", "read_settings",
           "simulate"]
