"""What a caller may give: cards of any kind, None for no limit, many seeds; and errors that name the field."""

import importlib.util
import math
import tempfile
import unittest
from array import array
from dataclasses import asdict, astuple, replace
from pathlib import Path

from street_drill import (Card, Refusal, SimulatorConfig, forecasts, optimal_retention, read_deck, read_settings,
                          simulate)
from street_drill.decimals import exact, nearest
from street_drill.given import CARD_COUNTS, CARD_FLOATS

from . import damage
from .common import PACKAGE, PARAMETERS
from .test_model import KNOWN, SMALL

CARDS = [KNOWN, replace(KNOWN, difficulty=7.5, reps=9)]
HAS_NUMPY = importlib.util.find_spec("numpy")
HAS_PANDAS = importlib.util.find_spec("pandas")


def by_columns(cards: list[Card]) -> dict[str, list[float]]:
    return {name: [getattr(card, name) for card in cards] for name in CARD_FLOATS + CARD_COUNTS}


class Frame:
    """What is known of any data frame: the names of its columns, and a column by its name."""

    def __init__(self, columns: dict[str, list[float]]) -> None:
        self._columns, self.columns = columns, list(columns)

    def __getitem__(self, name: str) -> list[float]:
        return self._columns[name]

    def __iter__(self):
        return iter(self._columns)


class Given(unittest.TestCase):
    def same(self, cards) -> None:
        self.assertEqual(simulate(SMALL, PARAMETERS, cards), simulate(SMALL, PARAMETERS, CARDS))

    def raises(self, told: str, call, kind: type = TypeError) -> None:
        with self.assertRaises(kind) as caught:
            call()
        self.assertIn(told, str(caught.exception))

    def test_kinds_of_cards(self) -> None:
        columns = by_columns(CARDS)
        named = [{"street": "Mill Lane", **asdict(card)} for card in CARDS]
        for cards in [tuple(CARDS), iter(CARDS), named, iter(named), [CARDS[0], named[1]], columns, Frame(columns)]:
            self.same(cards)
        self.assertEqual(simulate(SMALL, PARAMETERS, {name: [] for name in columns}), simulate(SMALL, PARAMETERS))

    def test_kinds_of_numbers(self) -> None:
        expected = simulate(SMALL, PARAMETERS, CARDS)
        self.assertEqual(simulate(SMALL, iter(PARAMETERS), CARDS), expected)
        self.assertEqual(simulate(SMALL, array("f", PARAMETERS), CARDS), expected)
        listed = replace(SMALL, first_rating_prob=[*SMALL.first_rating_prob], max_ivl=36_500)
        self.assertEqual(simulate(listed, PARAMETERS, CARDS), expected)

    @unittest.skipUnless(HAS_PANDAS, "there is no pandas")
    def test_pandas(self) -> None:
        import pandas

        self.same(pandas.DataFrame(by_columns(CARDS)))
        first = simulate(SMALL, PARAMETERS, CARDS)
        later = pandas.DataFrame(first.card_columns())
        self.assertEqual(simulate(SMALL, PARAMETERS, later), simulate(SMALL, PARAMETERS, first.cards))

    def test_a_card_is_named(self) -> None:
        for field, told in [("difficulty", "a number"), ("lapses", "a whole number")]:
            for value in ["5", None]:
                wrong = [KNOWN, replace(KNOWN, **{field: value})]
                for cards in [wrong, [asdict(card) for card in wrong], by_columns(wrong)]:
                    self.raises(f"card 1: {field} must be {told}, and is {value!r}",
                                lambda: simulate(SMALL, PARAMETERS, cards))
        self.raises("card 1: reps is 4294967296, and must be 0 to", lambda: simulate(
            SMALL, PARAMETERS, [KNOWN, replace(KNOWN, reps=2**32)]), ValueError)
        self.raises("card 1 has no reps", lambda: simulate(SMALL, PARAMETERS, [KNOWN, {
            name: value for name, value in asdict(KNOWN).items() if name != "reps"}]))
        self.raises("card 0 has no difficulty", lambda: simulate(SMALL, PARAMETERS, [3.5]))
        for wrong in [3, simulate(SMALL, PARAMETERS)]:
            self.raises("cards must be a list", lambda: simulate(SMALL, PARAMETERS, wrong))

    def test_a_column_is_named(self) -> None:
        columns = by_columns(CARDS)
        self.raises("no column due", lambda: simulate(
            SMALL, PARAMETERS, {name: column for name, column in columns.items() if name != "due"}), ValueError)
        self.raises("column due has 1 cards, and difficulty has 2", lambda: simulate(
            SMALL, PARAMETERS, {**columns, "due": [1.0]}), ValueError)

    def test_a_setting_is_named(self) -> None:
        for field, value, told in [
            ("deck_size", "20", "deck_size must be a whole number, and is '20'"),
            ("learn_limit", 8.0, "learn_limit must be a whole number, and is 8.0"),
            ("deck_size", None, "deck_size must be a whole number, and is None"),
            ("max_ivl", "long", "max_ivl must be a number, and is 'long'"),
            ("new_cards_ignore_review_limit", "yes", "new_cards_ignore_review_limit must be True or False"),
            ("first_rating_prob", 0.5, "first_rating_prob must be a list, and is 0.5"),
            ("first_rating_prob", (1, 2, "3", 4), "first_rating_prob[2] must be a number, and is '3'"),
            ("state_rating_costs", ((1,) * 4, (1,) * 4, (1, 1, None, 1)), "state_rating_costs[2][2] must be a number"),
        ]:
            self.raises(told, lambda: simulate(replace(SMALL, **{field: value}), PARAMETERS))
        self.raises("first_rating_prob has 1 entries, and must have 4", lambda: simulate(
            replace(SMALL, first_rating_prob=(1,)), PARAMETERS), ValueError)

    def test_an_argument_is_named(self) -> None:
        self.raises("parameters[3] must be a number, and is '4'", lambda: simulate(
            SMALL, [*PARAMETERS[:3], "4", *PARAMETERS[4:]]))
        self.raises("parameters must be a list, and is 0.5", lambda: simulate(SMALL, 0.5))
        self.raises("desired_retention must be a number", lambda: simulate(SMALL, PARAMETERS, desired_retention="0.9"))
        self.raises("seed must be a whole number, and is 1.5", lambda: simulate(SMALL, PARAMETERS, seed=1.5))
        self.raises("rounds must be a whole number", lambda: optimal_retention(SMALL, PARAMETERS, rounds="64"))

    def test_what_is_none(self) -> None:
        for config in [None, {}, {"deck_size": 20}]:
            self.raises(f"config must be a SimulatorConfig, and is {config!r}", lambda: simulate(config, PARAMETERS))
        self.raises("seeds must be a list, and is 5", lambda: forecasts(SMALL, PARAMETERS, seeds=5))
        self.raises("column difficulty must be a list, and is 5.0; a single card stands in a list",
                    lambda: simulate(SMALL, PARAMETERS, asdict(KNOWN)))
        for call in [lambda workers: forecasts(SMALL, PARAMETERS, seeds=[1, 2], workers=workers),
                     lambda workers: optimal_retention(SMALL, PARAMETERS, workers=workers)]:
            self.raises("workers must be a whole number, and is 'x'", lambda: call("x"))
            for number in [0, -1]:
                self.raises(f"workers is {number}, and must be 1 or more", lambda: call(number), ValueError)

    def test_a_refused_field_is_named(self) -> None:
        """By the number of the table and by its name."""
        for settings, told in [
            ({"max_ivl": 0.5}, "refused 4 0: max_ivl must be 1 to 36,500"),
            ({"max_cost_perday": math.nan}, "refused 4 0: max_cost_perday must be a number"),
            ({"first_rating_prob": (0, 0, 0, 0)}, "refused 4 0: first_rating_prob: a weight is below 0 or not finite"),
            ({"state_rating_costs": ((1,) * 4, (1, -1, 1, 1), (1,) * 4)}, "4 0: state_rating_costs[1]: a cost is"),
            ({"deck_size": 0}, "refused 2 0: deck_size is 0"), ({"learn_span": 0}, "refused 3 0: learn_span is not 1"),
        ]:
            for call in [lambda config: simulate(config, PARAMETERS),
                         lambda config: optimal_retention(config, PARAMETERS),
                         lambda config: optimal_retention(config, PARAMETERS, rounds=0)]:
                self.raises(told, lambda: call(replace(SMALL, **settings)), Refusal)
        self.raises("refused 4 0: desired_retention must be finite",
                    lambda: simulate(SMALL, PARAMETERS, desired_retention=math.nan), Refusal)
        self.raises("refused 4 0: rounds must be 1 to 64",
                    lambda: optimal_retention(SMALL, PARAMETERS, rounds=0), Refusal)
        for field, told in [("due", "must be within 16,777,216 days"), ("stability", "must be finite"),
                            ("desired_retention", "must be finite")]:
            cards = [KNOWN, replace(KNOWN, **{field: math.inf})]
            self.raises(f"refused 5 1: card 1: {field} {told}", lambda: simulate(SMALL, PARAMETERS, cards), Refusal)

    def test_none_is_no_limit(self) -> None:
        limited = replace(SMALL, learn_limit=2, review_limit=1, suspend_after_lapses=1, max_cost_perday=60.0)
        none = dict.fromkeys(["learn_limit", "review_limit", "suspend_after_lapses"])
        free = simulate(replace(limited, **none, max_cost_perday=None), PARAMETERS)
        self.assertEqual(free, simulate(replace(SMALL, max_cost_perday=math.inf), PARAMETERS))
        self.assertNotEqual(free, simulate(limited, PARAMETERS))


class Answers(unittest.TestCase):
    def test_many_seeds(self) -> None:
        made = forecasts(SMALL, PARAMETERS, CARDS, seeds=range(7, 12), desired_retention=0.85, workers=3)
        alone = [simulate(SMALL, PARAMETERS, CARDS, desired_retention=0.85, seed=seed) for seed in range(7, 12)]
        self.assertEqual(made, alone)
        without = forecasts(SMALL, PARAMETERS, CARDS, seeds=iter([7]), desired_retention=0.85, with_cards=False)
        self.assertEqual(without, [replace(alone[0], cards=())])

    def test_columns(self) -> None:
        forecast = simulate(SMALL, PARAMETERS, CARDS)
        columns = forecast.columns()
        self.assertEqual(list(zip(*list(columns.values())[:6])), [astuple(day) for day in forecast.rows])
        self.assertEqual(tuple(columns["due"]), forecast.due[:10])
        later = simulate(SMALL, PARAMETERS, forecast.card_columns())
        self.assertEqual(later, simulate(SMALL, PARAMETERS, forecast.cards))

    @unittest.skipUnless(HAS_NUMPY, "there is no numpy")
    def test_numpy(self) -> None:
        import numpy

        forecast = simulate(SMALL, numpy.array(PARAMETERS, dtype="float32"), CARDS, seed=numpy.int64(42))
        self.assertEqual(forecast, simulate(SMALL, PARAMETERS, CARDS))
        kinds = {name: column.dtype.name for name, column in forecast.columns().items()}
        self.assertEqual(kinds, {**dict.fromkeys(["learned", "reviewed", "correct", "introduced", "due"], "uint32"),
                                 "cost": "float32", "memorized": "float32"})
        self.assertEqual(forecast.columns()["cost"].sum(dtype="float64"), sum(day.cost for day in forecast.rows))

    def test_short_repr(self) -> None:
        self.assertEqual(repr(SimulatorConfig()), "SimulatorConfig()")
        self.assertEqual(repr(replace(SMALL, learn_limit=None)),
                         "SimulatorConfig(deck_size=20, learn_span=10, learn_limit=None)")
        forecast = simulate(SMALL, PARAMETERS)
        self.assertRegex(repr(forecast), r"^<Forecast of 10 days: \d+ s in all, \d+\.\d of 20 cards held in the end>$")

    def test_readers(self) -> None:
        given = read_settings(str(PACKAGE / "examples" / "new_round.toml"))
        self.assertEqual((given.config.deck_size, given.seed, len(given.parameters)), (120, 7, 34))
        with tempfile.TemporaryDirectory() as folder:
            path = Path(folder, "deck.csv")
            path.write_bytes(damage.DECK)
            deck = read_deck(str(path))
        cards = deck.cards
        self.assertEqual(repr(deck), f"<Deck of {path}: 3 streets, 2 of them known>")
        self.assertRegex(repr(given), r"^<Settings of .*new_round\.toml: SimulatorConfig\(deck_size=120, .*\), "
                                      r"34 parameters, desired_retention=0\.9, seed=7>$")
        self.assertEqual((len(cards), cards[0]), (3, Card(5.25, 3.5, -2, 1, 3, nearest(exact("0.9")), 4, 1)))
