"""The deck after a forecast."""

import unittest
from dataclasses import fields, replace

from street_drill import Card, SimulatorConfig, simulate
from street_drill.deck import NO_DECK, no_deck, of_text
from street_drill.next_deck import updated

from .common import PARAMETERS
from .test_deck import HEAD, MONDAY, ROW, UNKNOWN, Spreadsheets


class Updated(unittest.TestCase):
    def test_streets_are_carried(self) -> None:
        deck = of_text("d.csv", HEAD + UNKNOWN + ROW)
        forecast = simulate(SimulatorConfig(deck_size=4, learn_span=20), PARAMETERS, deck.cards)
        after = of_text("d.csv", updated(deck, forecast.cards, 20))
        self.assertEqual([row[0] for row in after.rows], ["Mill Lane", "New, Street", "", ""])
        for card, later in zip(forecast.cards, after.cards, strict=True):
            self.assertEqual(later, replace(card, last_date=card.last_date - 20, due=card.due - 20))

    def test_odd_names_come_back(self) -> None:
        """Quotes, blanks and ends of lines in a street's name, as any reader of CSV takes them."""
        names = ['Mill "Old" Lane', "a,b", "a\rb", "a\nb", "a\r\nb", " a ", '"', ""]
        rows = "".join('"' + name.replace('"', '""') + '"' + ROW[9:] for name in names)
        deck = of_text("d.csv", HEAD + rows)
        forecast = simulate(SimulatorConfig(deck_size=8, learn_span=5), PARAMETERS, deck.cards)
        after = of_text("d.csv", updated(deck, forecast.cards, 5))
        self.assertEqual([row[0] for row in after.rows], names)

    def test_no_new_card(self) -> None:
        deck = of_text("d.csv", HEAD + UNKNOWN + ROW)
        forecast = simulate(SimulatorConfig(deck_size=4, learn_span=20, learn_limit=0), PARAMETERS, deck.cards)
        self.assertEqual(len(forecast.cards), 1)
        text = updated(deck, forecast.cards, 20)
        self.assertEqual(text.splitlines()[2] + "\n", UNKNOWN)

    def test_without_a_deck(self) -> None:
        forecast = simulate(SimulatorConfig(deck_size=3, learn_span=5), PARAMETERS)
        text = updated(NO_DECK, forecast.cards, 5)
        self.assertEqual(text.splitlines()[0], ",".join(field.name for field in fields(Card)))
        self.assertEqual(len(of_text("d.csv", text).cards), 3)

    def test_as_it_was_read(self) -> None:
        """A spreadsheet's deck is written for the spreadsheet: its marks, its head and its columns."""
        deck = of_text("d.csv", Spreadsheets.SEMICOLONS.replace("Mill Lane", '"Mill Lane; upper"'))
        forecast = simulate(SimulatorConfig(deck_size=2, learn_span=20), PARAMETERS, deck.cards)
        text = updated(deck, forecast.cards, 20)
        self.assertEqual(text.splitlines()[0], "Street; Difficulty;STABILITY;Last Date;due;Interval;Desired retention;"
                                               "Reps;lapses")
        self.assertNotIn(".", text)
        after = of_text("d.csv", text)
        self.assertEqual([row[0] for row in after.rows], ["Mill Lane; upper", "High Street"])
        self.assertEqual([card.stability for card in after.cards], [card.stability for card in forecast.cards])

    def test_dates(self) -> None:
        """Days are dates where the first day is known: the next forecast begins on the day after the span."""
        forecast = simulate(SimulatorConfig(deck_size=3, learn_span=20), PARAMETERS)
        text = updated(no_deck(MONDAY), forecast.cards, 20)
        self.assertRegex(text.splitlines()[1], r"^[\d.]+,[\d.]+,2026-1\d-\d\d,202\d-\d\d-\d\d,")
        after = of_text("d.csv", text, MONDAY.replace(month=12, day=13))
        self.assertEqual([card.due for card in after.cards], [card.due - 20 for card in forecast.cards])

    def test_what_is_no_date(self) -> None:
        """A day with a fraction, and one beyond the calendar, are numbers from the day after the span."""
        card = Card(5.0, 3.5, -2.5, 9e6, 3.0, 0.5, 4, 1)
        self.assertEqual(updated(no_deck(MONDAY), [card], 20).splitlines()[1], "5,3.5,-22.5,8999980,3,0.5,4,1")


if __name__ == "__main__":
    unittest.main()
