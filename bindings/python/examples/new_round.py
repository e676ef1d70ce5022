"""Prints what the program `forecast` prints for examples/new_round.txt of the repository."""

import struct
import sys
from pathlib import Path

sys.path.insert(0, str(Path(__file__).parents[1]))
from street_drill import settings, simulate

bits = lambda value: struct.pack(">f", value).hex().upper()
given = settings.read(str(Path(__file__).with_suffix(".toml")))
forecast = simulate(given.config, given.parameters, desired_retention=given.desired_retention, seed=given.seed)
print(f"(forecast {len(forecast.rows)} (turns {forecast.turns}) (cards {len(forecast.cards)}))")
for number, day in enumerate(forecast.rows):
    print(f"(day {number} (learn {day.learned}) (review {day.reviewed}) (correct {day.correct}) "
          f"(introduced {day.introduced}) (cost {bits(day.cost)}) (held {bits(day.memorized)}))")
