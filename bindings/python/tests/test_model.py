"""Runs and searches by names, beside the proved programs."""

import ctypes
import math
import re
import unittest
from dataclasses import astuple, replace

from street_drill import Card, Refusal, SimulatorConfig, library, optimal_retention, simulate
from street_drill.model import Runner

from .common import LISTING, PARAMETERS, bits_of, printed

ROUND = SimulatorConfig(deck_size=120, learn_span=30, learn_limit=8, review_limit=60)
SMALL = SimulatorConfig(deck_size=20, learn_span=10)
KNOWN = Card(5.0, 3.0, -2.0, 1.0, 3.0, 0.9, 4, 1)


def refusal_of(call) -> tuple[int, int]:
    try:
        call()
    except Refusal as refusal:
        assert refusal.sentence
        return refusal.number, refusal.second
    return 0, 0


class Runs(unittest.TestCase):
    def test_as_the_program(self) -> None:
        lines = printed("forecast", LISTING).splitlines()
        forecast = simulate(ROUND, PARAMETERS, seed=7)
        self.assertEqual(lines[0], f"(forecast 30 (turns {forecast.turns}) (cards {len(forecast.cards)}))")
        for number, (line, day) in enumerate(zip(lines[1:], forecast.rows, strict=True)):
            learned, reviewed, correct, introduced, cost, memorized = astuple(day)
            words = [*map(str, [learned, reviewed, correct, introduced]), bits_of(cost), bits_of(memorized)]
            self.assertEqual(re.findall(r" (\w+)\)", line), words, f"day {number}")

    def test_lengths(self) -> None:
        forecast = simulate(ROUND, PARAMETERS, [KNOWN])
        self.assertEqual([len(forecast.rows), len(forecast.due), len(forecast.cards)], [30, 45, 120])
        self.assertGreater(forecast.cards[0].reps, KNOWN.reps)

    def test_longer_table(self) -> None:
        forecast = simulate(ROUND, PARAMETERS)
        self.assertEqual(simulate(ROUND, PARAMETERS, table=0), forecast)
        self.assertEqual(simulate(ROUND, PARAMETERS, table=3), forecast)

    def test_same_on_threads(self) -> None:
        found = [optimal_retention(SMALL, PARAMETERS, workers=workers) for workers in (1, 4)]
        self.assertEqual(found[0], found[1])


class Refusals(unittest.TestCase):
    def test_each(self) -> None:
        bad = [*PARAMETERS[:5], math.inf, *PARAMETERS[6:]]
        senseless = [*PARAMETERS[:30], 100.0, *PARAMETERS[31:]]
        calls = {
            (1, 34): lambda: simulate(SMALL, PARAMETERS[:33]),
            (1, 5): lambda: simulate(SMALL, bad),
            (2, 0): lambda: simulate(replace(SMALL, deck_size=65_537), PARAMETERS),
            (3, 0): lambda: simulate(replace(SMALL, learn_span=4_294_967_295), PARAMETERS),
            (4, 0): lambda: simulate(replace(SMALL, max_ivl=0.5), PARAMETERS),
            (2, 1): lambda: simulate(replace(SMALL, deck_size=1), PARAMETERS, [KNOWN, KNOWN]),
            (5, 1): lambda: simulate(SMALL, PARAMETERS, [KNOWN, replace(KNOWN, due=math.nan)]),
            (7, 2): lambda: simulate(SimulatorConfig(deck_size=5, learn_span=20), senseless),
            (10, 1): lambda: optimal_retention(SMALL, PARAMETERS, rounds=1),
        }
        for numbers, call in calls.items():
            self.assertEqual(refusal_of(call), numbers)

    def test_rounds_in_the_order_of_the_table(self) -> None:
        for rounds in [-1, 0, 65, 2**40]:
            self.assertEqual(refusal_of(lambda: optimal_retention(SMALL, PARAMETERS, rounds=rounds)), (4, 0))
            self.assertEqual(refusal_of(lambda: optimal_retention(SMALL, [], rounds=rounds)), (1, 34))

    def test_numbers_that_do_not_fit(self) -> None:
        for field, value in [("deck_size", -1), ("learn_limit", 2**32), ("first_rating_prob", (1.0,))]:
            with self.assertRaises(ValueError):
                simulate(replace(SMALL, **{field: value}), PARAMETERS)
        with self.assertRaises(ValueError):
            simulate(SMALL, PARAMETERS, seed=2**64)


class FloatModes(unittest.TestCase):
    def test_rounding(self) -> None:
        """To nearest is 0; down, up and towards zero are the others of x86-64's fenv.h."""
        modes = ctypes.CDLL(None)
        for mode in [0x400, 0x800, 0xC00]:
            modes.fesetround(mode)
            try:
                with self.assertRaises(RuntimeError):
                    simulate(SMALL, PARAMETERS)
            finally:
                modes.fesetround(0)
        simulate(SMALL, PARAMETERS)

    def test_subnormals(self) -> None:
        """In MXCSR, the last word of x86-64's fenv_t, bit 15 flushes results to 0, and bit 6 takes subnormals for 0."""
        modes, before = ctypes.CDLL(None), (ctypes.c_uint32 * 8)()
        modes.fegetenv(before)
        for bit in [15, 6]:
            modes.fesetenv((ctypes.c_uint32 * 8)(*before[:7], before[7] | 1 << bit))
            try:
                with self.assertRaises(RuntimeError):
                    simulate(SMALL, PARAMETERS)
            finally:
                modes.fesetenv(before)
        simulate(SMALL, PARAMETERS)


class Searches(unittest.TestCase):
    def test_as_the_whole_call(self) -> None:
        for config in [SMALL, ROUND]:
            inputs = Runner(config, PARAMETERS).inputs
            whole = library.optimal_retention(inputs, 64, library.Lists(inputs, 16_384))
            trials = []
            found = optimal_retention(config, PARAMETERS, workers=2, progress=trials.append, table=1)
            self.assertEqual((whole.retention, whole.mean, whole.rounds), (found.retention, found.mean, found.rounds))
            self.assertEqual(len(trials), found.rounds + 1)
            self.assertIn((found.retention, found.mean), [(trial.retention, trial.mean) for trial in trials])

    def test_as_the_program(self) -> None:
        found = optimal_retention(ROUND, PARAMETERS)
        line = f"(cheapest {bits_of(found.retention)} (rounds {found.rounds}) (mean {bits_of(found.mean)}))\n"
        self.assertEqual(printed("cheapest", LISTING), line)


if __name__ == "__main__":
    unittest.main()
