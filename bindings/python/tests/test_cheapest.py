"""The cheapest retention: the curve that was tried, and what is advised of it."""

import contextlib
import io
import math
import re
import tempfile
import unittest
from datetime import date
from pathlib import Path
from statistics import fmean, stdev

from street_drill import Mistake, optimal_retention, settings
from street_drill.cheapest import advice, in_order
from street_drill.command import main
from street_drill.model import Runner
from street_drill.search import Trial
from street_drill.streets import Streets

from .common import PACKAGE, Terminal
from .test_command import EXAMPLE, run

LONG = ["--set", "learn_span=730"]
NINE = PACKAGE / "examples" / "nine_a_day.toml"


def trials(means: dict[float, float]) -> list[Trial]:
    return [Trial(number, retention, mean, 0.1, 100 * retention)
            for number, (retention, mean) in enumerate(means.items(), start=1)]


def answered(present: float, means: dict[float, float], streets: Streets = Streets(0, 120)) -> str:
    tried = trials(means)
    own = next(each for each in tried if each.retention == present)
    return "".join(f"{line}\n" for line in advice(in_order("s.toml", tried, own), own, streets))


class Advice(unittest.TestCase):
    def test_within(self) -> None:
        said = answered(0.9, {0.7: 12.0, 0.8: 10.0, 0.85: 11.0, 0.9: 15.0})
        self.assertIn("retention 0.8 costs least\n", said)
        self.assertIn("the present 0.9 costs 5.00 seconds a street more (50%), and holds 10.0 streets more\n", said)

    def test_present_is_best(self) -> None:
        said = answered(0.8, {0.7: 12.0, 0.8: 10.0, 0.9: 15.0})
        self.assertIn("retention 0.8 costs least\n", said)
        self.assertNotIn("the present 0.8 costs", said)

    def test_ends(self) -> None:
        for means, told in [({0.7: 1.0, 0.8: 2.0, 0.9: 3.0}, "0.7 costs least, and is the lowest that was tried"),
                            ({0.7: 3.0, 0.8: 2.0, 0.946: 1.0}, "0.946 costs least, and is the highest")]:
            self.assertIn(f"no retention is advised: {told}", answered(0.8, means))

    def test_alike(self) -> None:
        same = {0.7: 2.0, 0.8: 2.0, 0.9: 2.0}
        self.assertEqual("no retention is advised: all that were tried cost the same\n", answered(0.9, same))
        self.assertIn("the same, since no street is new: a deck's streets keep their own retention\n",
                      answered(0.9, same, Streets(120, 0)))

    def test_no_number(self) -> None:
        for wrong in [math.nan, math.inf, -1.0]:
            with self.assertRaises(Mistake):
                answered(0.7, dict.fromkeys([0.7, 0.8], wrong))
        with self.assertRaises(Mistake):
            answered(0.7, {0.7: 1.0, 0.8: math.nan, 0.9: 2.0})

    def test_some_known(self) -> None:
        said = answered(0.8, {0.7: 12.0, 0.8: 10.0, 0.9: 15.0}, Streets(100, 20))
        self.assertIn("desired_retention is for the 20 new streets; the deck's 100 keep theirs\n", said)


class Doubt(unittest.TestCase):
    """Of runs that differ: what these tell, and what they do not."""

    def said(self, present: float, costs: dict[float, tuple[float, ...]]) -> str:
        tried = [Trial(1, retention, fmean(each), 0.1, 100 * retention, each) for retention, each in costs.items()]
        own = next(each for each in tried if each.retention == present)
        return "\n".join(advice(in_order("s.toml", tried, own), own, Streets(0, 120)))

    def test_error(self) -> None:
        self.assertEqual(Trial(1, 0.7, 3.0, 0.1, 1.0, (1.0, 3.0, 5.0)).error, 2 / math.sqrt(3))
        for costs in [(), (3.0,), (math.inf, 3.0)]:
            self.assertTrue(math.isnan(Trial(1, 0.7, 3.0, 0.1, 1.0, costs).error))

    def test_present_is_not_told_apart(self) -> None:
        """The present costs 3, 0 and 3 more in the three runs: 2, give or take 2."""
        said = self.said(0.85, {0.7: (30.0, 40.0, 50.0), 0.8: (10.0, 20.0, 30.0), 0.85: (13.0, 20.0, 33.0),
                                0.9: (30.0, 40.0, 50.0)})
        self.assertIn("no retention is advised: 0.8 costs least, but these runs can't tell it from 0.85, the present "
                      "setting: 2.00 seconds a street more, give or take 2.00", said)

    def test_ends_are_not_told_apart(self) -> None:
        for end, which in [(0.7, "lowest"), (0.95, "highest")]:
            costs = {0.7: (30.0, 40.0, 50.0), 0.8: (10.0, 20.0, 30.0), 0.9: (30.0, 40.0, 50.0),
                     0.95: (30.0, 40.0, 50.0)}
            said = self.said(0.9, costs | {end: (13.0, 20.0, 33.0)})
            self.assertIn(f"can't tell it from {end}, the {which} that was tried: 2.00 seconds", said)
            self.assertIn("the present 0.9 costs 20.00 seconds a street more, give or take 0.00 (100%)", said)

    def test_pairs(self) -> None:
        """What each run costs more is far from 0, though the runs themselves differ by more than that."""
        said = self.said(0.9, {0.7: (15.0, 25.0, 35.0), 0.8: (10.0, 20.0, 30.0), 0.9: (15.0, 26.0, 35.0)})
        self.assertTrue(said.startswith("retention 0.8 costs least\n"), said)


class Command(unittest.TestCase):
    def test_curve(self) -> None:
        """Each trial with its cost and what it holds, as the search and runs by hand have them."""
        given = settings.read(str(NINE), [("--set", "learn_span = 730")])
        tried: list[Trial] = []
        found = optimal_retention(given.config, given.parameters, progress=tried.append)
        runner = Runner(given.config, given.parameters)
        status, said, errors = run("cheapest", NINE, *LONG)
        self.assertEqual((status, errors), (0, ""))
        for each in tried:
            held = sum(runner.forecast(each.retention, seed).rows[-1].memorized for seed in range(42, 58)) / 16
            doubt = 2 * stdev(each.costs) / 4
            self.assertRegex(said, rf"\n  {each.retention:.4g}\d? +{each.mean:.2f} +{doubt:.2f} +{held:.1f}\n")
            self.assertEqual(each.costs, tuple(runner.outcome(each.retention, seed)[0] for seed in range(42, 58)))
        self.assertIn(f"{found.retention:.4f} costs least, but these runs can't tell it from 0.7, the lowest", said)
        self.assertRegex(said, r"\n  0.9 +258.35 +4.35 +760.2  the present setting\n")

    def test_within(self) -> None:
        said = run("cheapest", NINE, "--set", "learn_span=365", "--retention", "0.85")[1]
        self.assertRegex(said, r"\n  retention 0.7283 costs least\n"
                               r"  as cheap, as far as these runs tell: 0.7139, 0.7211\n"
                               r"  the present 0.85 costs [\d.]+ seconds")

    def test_no_seed(self) -> None:
        """The search has its own, so an option would promise what it does not do."""
        with self.assertRaises(SystemExit), contextlib.redirect_stderr(io.StringIO()):
            main(["cheapest", str(EXAMPLE), "--seed", "3"])

    def test_head_of_the_page(self) -> None:
        """The day made, the deck and the settings; seeds and the retention are the search's."""
        with tempfile.TemporaryDirectory() as folder:
            page = Path(folder, "page.html")
            self.assertEqual(run("cheapest", EXAMPLE, "--retention", "0.85", "--page", page)[0], 0)
            made = re.search('<section class="made">(.*?)</section>', page.read_text())[1]
        told = re.findall("<dt>(.*?)</dt><dd>(.*?)</dd>", made)
        self.assertRegex(told[0][1], rf"^{date.today()}, by street_drill \d")
        self.assertEqual(told[1:], [("deck", "none"), ("deck_size", "120"), ("learn_span", "30"), ("learn_limit", "8"),
                                    ("review_limit", "60")])

    def test_end(self) -> None:
        self.assertIn("no retention is advised: 0.7 costs least, and is the lowest", run("cheapest", EXAMPLE)[1])

    def test_present(self) -> None:
        self.assertIn("the present 0.85 costs", run("cheapest", EXAMPLE, "--retention", "0.85")[1])

    def test_all_known(self) -> None:
        with tempfile.TemporaryDirectory() as folder:
            deck = Path(folder, "deck.csv")
            self.assertEqual(run("forecast", EXAMPLE, "--cards", deck)[0], 0)
            status, said, _ = run("cheapest", EXAMPLE, "--deck", deck)
        self.assertEqual(status, 0)
        self.assertIn("no retention is advised: all that were tried cost the same, since no street is new", said)

    def test_no_street(self) -> None:
        status, said, errors = run("cheapest", EXAMPLE, "--set", "learn_limit=0")
        self.assertEqual((status, said), (2, ""))
        self.assertIn("no retention is the cheapest", errors)

    def test_terminal_sees_trials(self) -> None:
        for options, lines in [([], 4), (["--quiet"], 0)]:
            errors = Terminal()
            with contextlib.redirect_stdout(io.StringIO()), contextlib.redirect_stderr(errors):
                self.assertEqual(main(["cheapest", str(EXAMPLE), *options]), 0)
            told = r"^(trial \d: retention 0\.\d+, mean \d+\.\d\d, \d+\.\d s\n){%d}$" % lines
            self.assertRegex(errors.getvalue(), told)


if __name__ == "__main__":
    unittest.main()
