"""Settings and cards that refusals 4 and 5 are about: one is named just where the library refuses."""

import ctypes
import math
import random
import unittest
from dataclasses import fields, replace

from street_drill import Card, Refusal, SimulatorConfig, simulate
from street_drill.model import CARD_FLOATS
from street_drill.rules import wrong_field, wrong_setting

from .common import PARAMETERS

ODD = [-1.0, -0.0, 0.0, 1.0, 1e38, 3e38, math.inf, -math.inf, math.nan, 36_500.0, 36_501.0, 0.5, 1e-45]


def spoiled(draw: random.Random, value):
    if isinstance(value, tuple):
        place = draw.randrange(len(value))
        return tuple(spoiled(draw, entry) if number == place or draw.random() < 0.3 else entry
                     for number, entry in enumerate(value))
    return ctypes.c_float(draw.choice(ODD)).value


def refusal_of(config: SimulatorConfig, cards: list[Card], retention: float) -> int:
    try:
        simulate(config, PARAMETERS, cards, desired_retention=retention)
    except Refusal as refusal:
        return refusal.number
    return 0


class WrongSetting(unittest.TestCase):
    def test_as_the_library(self) -> None:
        draw = random.Random(4)
        names = [field.name for field in fields(SimulatorConfig) if isinstance(field.default, (float, tuple))]
        refused = 0
        for _ in range(2000):
            config, retention = SimulatorConfig(deck_size=2, learn_span=2), 0.9
            for _ in range(draw.choice([1, 1, 2])):
                name = draw.choice([*names, "desired_retention"])
                if name == "desired_retention":
                    retention = spoiled(draw, 0.9)
                else:
                    config = replace(config, **{name: spoiled(draw, getattr(config, name))})
            number = refusal_of(config, [], retention)
            self.assertEqual(number == 4, wrong_setting(config, retention) is not None, (config, retention))
            refused += number == 4
        self.assertTrue(500 < refused < 1900, refused)


class WrongField(unittest.TestCase):
    def test_as_the_library(self) -> None:
        draw = random.Random(5)
        odd = [*ODD, 16_777_216.0, -16_777_216.0, 16_777_218.0, -16_777_218.0]
        refused = 0
        for _ in range(2000):
            lapses = draw.choice([1, 1, 1, 4_000_000_000, 4_000_000_001])
            card = Card(5.0, 3.0, draw.choice([-2.0, -math.inf]), 1.0, 3.0, 0.9, 4, lapses)
            for _ in range(draw.choice([1, 1, 2, 3])):
                card = replace(card, **{draw.choice(CARD_FLOATS): ctypes.c_float(draw.choice(odd)).value})
            kept = card.stability > ctypes.c_float(1e-9).value
            number = refusal_of(SimulatorConfig(deck_size=1, learn_span=1), [card], 0.9)
            self.assertEqual(number == 5, kept and wrong_field(card) is not None, card)
            refused += number == 5
        self.assertTrue(500 < refused < 1900, refused)
