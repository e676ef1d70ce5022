"""The page of a search's trials."""

import re
import unittest
from dataclasses import replace

from street_drill import optimal_retention
from street_drill.curve import page
from street_drill.search import trial

from .common import PARAMETERS
from .test_model import ROUND
from .test_page import Elements

TRIED = []
FOUND = optimal_retention(ROUND, PARAMETERS, progress=TRIED.append)
PRESENT = trial(ROUND, PARAMETERS, retention=0.85)


class Curve(unittest.TestCase):
    def test_pictures(self) -> None:
        """Cost and streets held, each with a dot a retention, and the cheapest and the present named."""
        text = page("north", TRIED, PRESENT)
        elements = Elements(text)
        self.assertEqual((elements.wrong, elements.open), ([], []))
        pictures = re.findall(r"<figure>.*?</figure>", text)
        self.assertEqual(len(pictures), 2)
        retentions = {each.retention for each in [*TRIED, PRESENT]}
        for picture in pictures:
            self.assertEqual(len(re.findall("<title>", picture)), len(retentions))
            self.assertIn(">cheapest: 0.7<", picture)
            self.assertIn(">present: 0.85<", picture)
        self.assertIn(f"<title>retention 0.85: {PRESENT.held:,.2f}</title>", pictures[1])

    def test_places(self) -> None:
        """From 0.70 at the left to 0.95 at the right; half of the highest mark is half way up."""
        trials = [replace(PRESENT, retention=0.70, mean=100.0), replace(PRESENT, retention=0.95, mean=50.0)]
        cost = re.findall(r'<circle class="dot c0" cx="([\d.]+)" cy="([\d.]+)"', page("north", trials))[:2]
        self.assertEqual(cost, [("58.0", "14.0"), ("472.0", "115.0")])

    def test_table_and_words(self) -> None:
        text = page("north", TRIED, PRESENT, ["the present 0.85 costs <more>"])
        rows = re.findall(r"<tr><td>([\d.]+)</td><td>([\d.,]+)</td><td>([\d.,]+)</td><td>([\d.,]+)</td></tr>", text)
        told = sorted({(each.retention, each.mean, 2 * each.error) for each in [*TRIED, PRESENT]})
        self.assertEqual([(float(mean), float(doubt)) for _, mean, doubt, _ in rows],
                         [(round(mean, 2), round(doubt, 2)) for _, mean, doubt in told])
        self.assertIn("<p>the present 0.85 costs &lt;more&gt;</p>", text)
        self.assertAlmostEqual(min(float(mean) for _, mean, _, _ in rows), FOUND.mean, places=2)
