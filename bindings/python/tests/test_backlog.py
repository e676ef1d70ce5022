"""Streets that a limit leaves undone at the end of the span."""

import tempfile
import unittest
from dataclasses import replace
from pathlib import Path

from street_drill import SimulatorConfig, simulate
from street_drill.backlog import overdue

from .common import PARAMETERS
from .test_command import EXAMPLE, run
from .test_model import KNOWN

SPAN = 30
LIMITED = SimulatorConfig(deck_size=120, learn_span=SPAN, learn_limit=8, review_limit=6)


class Overdue(unittest.TestCase):
    def test_as_reviews_have_it(self) -> None:
        """With a limit as high as may be nobody waits; the streets that six reviews a day leave undone are those that
        were scheduled for the span and have had neither a review since nor another day."""
        free = simulate(SimulatorConfig(deck_size=120, learn_span=SPAN, learn_limit=8), PARAMETERS, seed=7)
        self.assertEqual(overdue(free.cards, [], SPAN), 0)
        self.assertGreater(sum(card.due == SPAN for card in free.cards), 0)
        limited = simulate(LIMITED, PARAMETERS, seed=7)
        asked = sum(card.last_date + card.interval < SPAN for card in limited.cards)
        self.assertEqual((overdue(limited.cards, [], SPAN), limited.rows[-1].reviewed), (asked, 6))
        self.assertGreater(asked, 20)

    def test_cards_of_the_deck(self) -> None:
        """Put off or not is told by the deck's own due day, whatever its interval says."""
        kept = [replace(KNOWN, due=float(due), interval=interval)
                for due, interval in [(3, 100.0), (3, 1.0), (SPAN, 1.0), (90, 1.0)]]
        left = simulate(SimulatorConfig(deck_size=4, learn_span=SPAN, review_limit=0), PARAMETERS, kept).cards
        self.assertEqual([card.due for card in left], [SPAN, SPAN, SPAN, 90])
        self.assertEqual(overdue(left, kept, SPAN), 2)

    def test_retired(self) -> None:
        """A street that is drilled no more is not waiting."""
        kept = [replace(KNOWN, due=3.0, lapses=5)]
        left = simulate(SimulatorConfig(deck_size=1, learn_span=SPAN, suspend_after_lapses=5), PARAMETERS, kept).cards
        self.assertEqual((left[0].due, overdue(left, kept, SPAN)), (3, 0))

    def test_due_is_no_backlog(self) -> None:
        """As README has it: what was reviewed, though 33 streets wait, and what was retired."""
        retiring = replace(LIMITED, suspend_after_lapses=1)
        for config in [LIMITED, retiring]:
            made = simulate(config, PARAMETERS, seed=7)
            retired = sum(card.lapses == 1 and card.due < SPAN for card in made.cards) if config is retiring else 0
            self.assertEqual(sum(made.due[:SPAN]), sum(day.reviewed for day in made.rows) + retired)
            self.assertGreater(overdue(made.cards, [], SPAN), 0)
        self.assertGreater(retired, 0)

    def test_told(self) -> None:
        limited = ["--set", "review_limit=6"]
        self.assertIn("\n  overdue at the end: 33 streets\n", run("forecast", EXAMPLE, *limited)[1])
        self.assertIn("\n  overdue at the end: 33 streets in the first run\n",
                      run("forecast", EXAMPLE, *limited, "--runs", 3)[1])
        self.assertIn("\n  overdue at the end: no street\n", run("forecast", EXAMPLE)[1])

    def test_region(self) -> None:
        with tempfile.TemporaryDirectory() as folder:
            Path(folder, "north.toml").write_text(EXAMPLE.read_text())
            outputs = ["--summary", Path(folder, "r.csv"), "--page", Path(folder, "r.html")]
            said = run("region", folder, *outputs, "--set", "review_limit=6")[1]
        self.assertRegex(said, r"\ndepot .*  overdue at the end\nnorth .*  33 streets\n")


if __name__ == "__main__":
    unittest.main()
