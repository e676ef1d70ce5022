"""The block at the page's head: what the courses were made from, and names that tell them apart."""

import re
import unittest
from dataclasses import replace
from datetime import date

from street_drill import settings
from street_drill.course import COLUMNS, Course
from street_drill.deck import NO_DECK, Deck
from street_drill.head import common, differing, told_apart
from street_drill.origin import origin
from street_drill.page import page

from .common import PACKAGE
from .test_model import KNOWN

EXAMPLE = settings.read(str(PACKAGE / "examples" / "new_round.toml"))
DECK = Deck("decks/north.csv", (), (), (), (KNOWN, KNOWN))
DAY = date(2026, 11, 27)


def course(path: str, runs: int = 1, deck: Deck = NO_DECK, **changes: object) -> Course:
    given = replace(EXAMPLE, path=path, config=replace(EXAMPLE.config, **changes))
    columns = {name: (1.0,) * 30 for name in COLUMNS}
    return Course(given.name, columns, {}, (columns,) * runs if runs > 1 else (), origin=origin(given, deck))


class Head(unittest.TestCase):
    def test_one_course(self) -> None:
        """What it was made from, without what is the default."""
        told = dict(common([course("round.toml", 5, DECK)], DAY))
        self.assertRegex(told.pop("made"), r"^2026-11-27, by street_drill \d")
        self.assertEqual(told, {"seed": "7 to 11", "deck": "north.csv, 2 streets", "deck_size": "120",
                                "learn_span": "30", "learn_limit": "8", "review_limit": "60"})

    def test_what_differs(self) -> None:
        courses = [course("a.toml"), course("b.toml", learn_limit=4_294_967_295, max_cost_perday=900.0),
                   course("c.toml", deck=DECK)]
        self.assertEqual(dict(differing(courses)), {
            "deck": ["none", "none", "north.csv, 2 streets"], "learn_limit": ["8", "no limit", "8"],
            "max_cost_perday": ["1800", "900", "1800"]})
        self.assertEqual(dict(common(courses, DAY))["seed"], "7")
        self.assertNotIn("learn_limit", dict(common(courses, DAY)))

    def test_parameters(self) -> None:
        """They are told only where they differ."""
        other = replace(EXAMPLE, path="b.toml", parameters=(0.5, *EXAMPLE.parameters[1:]))
        courses = [course("a.toml"), replace(course("b.toml"), origin=origin(other, NO_DECK))]
        self.assertRegex(dict(differing(courses))["parameters"][1], r"^0\.5, 2\.2395, ")
        self.assertNotIn("parameters", dict(common(courses[:1], DAY)))

    def test_a_seed_is_a_number(self) -> None:
        seeded = origin(replace(EXAMPLE, seed=4_294_967_295), NO_DECK)
        self.assertEqual(dict(common([replace(course("a.toml"), origin=seeded)], DAY))["seed"], "4294967295")

    def test_listing(self) -> None:
        """Of a listing only the day is known."""
        listed = replace(course("a.toml"), origin=None)
        self.assertEqual([name for name, _ in common([listed], DAY)], ["made"])
        self.assertEqual(differing([listed, listed]), [])

    def test_on_the_page(self) -> None:
        text = page([course("a.toml"), course("b.toml", learn_limit=9)], made=DAY)
        made = re.search('<section class="made">(.*?)</section>', text)[1]
        self.assertLess(text.index(made), text.index("<main>"))
        self.assertIn("<dt>made</dt><dd>2026-11-27, by", made)
        self.assertIn('<th>learn_limit</th><td data-label="a">8</td><td data-label="b">9</td>', made)
        many = page([course(f"{number}.toml", learn_limit=number) for number in range(5)], made=DAY)
        self.assertIn("<details><summary>they differ in learn_limit</summary>", many)


class Names(unittest.TestCase):
    def names(self, *paths: str) -> list[str]:
        return [each.name for each in told_apart([course(path) for path in paths])]

    def test_folders(self) -> None:
        self.assertEqual(self.names("plans/north/plan.toml", "plans/south/plan.toml", "plans/other.toml"),
                         ["north/plan", "south/plan", "other"])
        self.assertEqual(self.names("plan.toml", "old/plan.toml"), ["plan", "old/plan"])

    def test_numbers(self) -> None:
        self.assertEqual(self.names("a/plan.toml", "a/plan.toml"), ["plan (1)", "plan (2)"])
        listed = replace(course("plan.toml"), origin=None)
        self.assertEqual([each.name for each in told_apart([listed, listed])], ["plan (1)", "plan (2)"])

    def test_page_tells_them_apart(self) -> None:
        text = page([course("north/plan.toml"), course("south/plan.toml")])
        self.assertIn("<title>Street drill forecast: north/plan, south/plan</title>", text)
