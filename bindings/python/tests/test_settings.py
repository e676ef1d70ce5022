"""Settings from TOML."""

import tempfile
import unittest
from datetime import date
from pathlib import Path

from street_drill import Mistake, SimulatorConfig
from street_drill.settings import of_text, read

from .common import PACKAGE, PARAMETERS


def mistake_of(text: str, *options: tuple[str, str]) -> str:
    try:
        of_text("s.toml", text, options)
    except Mistake as mistake:
        return str(mistake)
    return ""


class Reading(unittest.TestCase):
    def test_defaults(self) -> None:
        given = of_text("s.toml", "")
        self.assertEqual((given.config, given.parameters), (SimulatorConfig(), ()))
        self.assertEqual((given.desired_retention, given.seed), (0.9, 42))

    def test_example(self) -> None:
        text = (PACKAGE / "examples" / "new_round.toml").read_text()
        self.assertEqual(list(of_text("s.toml", text).parameters), PARAMETERS)

    def test_numbers(self) -> None:
        lines = ["max_cost_perday = 600", "max_ivl = 1_000.5", f"seed = {2**64 - 1}", "desired_retention = 0.85"]
        given = of_text("s.toml", "\n".join(lines))
        self.assertEqual((given.config.max_cost_perday, given.config.max_ivl, given.seed), (600.0, 1000.5, 2**64 - 1))
        self.assertEqual(given.desired_retention, 14260634 / 2**24)

    def test_places(self) -> None:
        for text, place in {
            "deck = 5": "s.toml: line 1, column 8 (deck): is no setting",
            '"a\\nb" = 5': "s.toml ('a\\nb'): is no setting",
            "\n  deck_size =  5.0": "s.toml: line 2, column 16 (deck_size): must be a whole number and is a deci",
            "deck_size = true": "(deck_size): must be a whole number and is true or false",
            "deck_size = -1": "(deck_size): must be 0 to 4294967295",
            "new_cards_ignore_review_limit = 1": "(new_cards_ignore_review_limit): must be true or false",
            "max_ivl = '5'": "(max_ivl): must be a number and is a text",
            "max_ivl = 1e99999999999999999999": "(max_ivl): has an exponent",
            "max_ivl = 2020-01-01": "(max_ivl): must be a number and is a date",
            "first_rating_prob = [1, 2, 3]": "(first_rating_prob): must have 4 entries and has 3",
            "state_rating_costs = [[1, 2, 3, 4], [1, 2, 3, ''], [1, 2, 3, 4]]": "(state_rating_costs[1][3]): ",
            "seed = 1\n'parameters' = [0.5,\n []]": "s.toml: line 2, column 16 (parameters[1]): must be a number",
            "[deck_size]": "s.toml (deck_size): must be a whole number and is a table",
            "seed = 1\nseed = 2\nreps = 3": "s.toml: line 2, column",
            "seed == 1": "s.toml: line 1, column",
            "\nseed = " + "1" * 5000: "s.toml: line 2: a number is too long",
            "\nseed = [\n" + "[" * 5000: "s.toml: line 3: lists lie too deep",
            "seed = 2020-13-41": "s.toml: ",
            "first_day = '2026-11-23'": "(first_day): must be a date such as 2026-11-23 and is a text",
            "first_day = 2026-11-23T08:00:00": "(first_day): must be a date such as 2026-11-23 and is a date or a time",
            "first_day = 9999-01-01": "s.toml: line 1, column 13 (first_day): the span does not end before",
        }.items():
            self.assertIn(place, mistake_of(text))

    def test_senseless(self) -> None:
        """What the library takes and no planner means."""
        for text, told in {
            "desired_retention = 90": "21 (desired_retention): must be above 0 and below 1; 90 % is written 0.9",
            "desired_retention = 0": "21 (desired_retention): must be above 0 and below 1",
            "desired_retention = 1.0": "21 (desired_retention): must be above 0 and below 1",
            "desired_retention_for_deck = 85": "30 (desired_retention_for_deck): must be above 0 and below 1",
            "max_cost_perday = -1": "19 (max_cost_perday): must be 0 or more; inf is no limit",
            f"parameters = {[*PARAMETERS, 0.5]}": "14 (parameters): has 35 numbers, and must have 34",
        }.items():
            self.assertIn(f"s.toml: line 1, column {told}", mistake_of(text))
        for text in ["desired_retention = 0.999", "max_cost_perday = 0", "max_cost_perday = inf"]:
            self.assertEqual(mistake_of(text), "")

    def test_all_mistakes(self) -> None:
        told = mistake_of("deck = 5\nseed = -1\ndeck_size = 'x'\nlearn_span = 9")
        self.assertEqual([line.split(": ")[1] for line in told.splitlines()],
                         ["line 1, column 8 (deck)", "line 2, column 8 (seed)", "line 3, column 13 (deck_size)"])

    def test_causes(self) -> None:
        """What TOML cannot read is told by what it looks like."""
        for value, told in {
            "0,9": "'0,9' has a decimal comma: write a point", "90%": "'90%' is a percentage: 90% is written 0.9",
            "0,9  # high": "'0,9' has a decimal comma",
            "p.txt": "is a text, which stands in quotes: max_ivl = \"p.txt\"",
            "True": "'True' is written in small letters", "1'000": "\"1'000\" has marks between its thousands",
            "21.11.2026": "is a date, perhaps: dates are written as 2026-11-23",
            "2026-13-41": "'2026-13-41' is no date of the calendar",
        }.items():
            told_of_file = mistake_of(f"seed = 1\n  max_ivl = {value}\nlearn_span = 9\n")
            self.assertRegex(told_of_file, r"^s\.toml: line 2, column 13 \(max_ivl\): ")
            self.assertIn(told, told_of_file)
            self.assertRegex(mistake_of("", ("--set 'x'", f"max_ivl={value}")), r"^--set 'x' \(max_ivl\): ['\"]")

    def test_nearest_name(self) -> None:
        self.assertEqual(mistake_of("desired_retension = 0.8"),
                         "s.toml: line 1, column 21 (desired_retension): is no setting; is desired_retention meant?")
        self.assertIn("is no setting; the settings are deck_size, ", mistake_of("zzz = 0.8"))

    def test_first_day(self) -> None:
        self.assertEqual(of_text("s.toml", "first_day = 2026-11-23").first_day, date(2026, 11, 23))


class Options(unittest.TestCase):
    """What the command line sets goes before the file."""

    def test_before_the_file(self) -> None:
        given = of_text("s.toml", "seed = 3\ndeck_size = 9", [("--set 'a'", "deck_size = 7"), ("--seed", "seed = 4")])
        self.assertEqual((given.config.deck_size, given.seed), (7, 4))
        self.assertEqual((given.place("seed"), given.place("max_ivl")), ("--seed (seed)", "s.toml (max_ivl)"))
        self.assertEqual(of_text("s.toml", "max_ivl = 5").place("max_ivl[2]"), "s.toml: line 1, column 11 (max_ivl[2])")

    def test_set_twice(self) -> None:
        options = [("--set 'seed=2'", "seed=2"), ("--set 'seed=3'", "seed=3"), ("--seed", "seed = 3")]
        told = mistake_of("seed = 1", *options)
        self.assertEqual(told.splitlines(), ["--set 'seed=3' (seed): is set by --set 'seed=2' already",
                                             "--seed (seed): is set by --set 'seed=3' already"])

    def test_places(self) -> None:
        told = mistake_of("seed = -1", ("--retention", "desired_retention = 90"), ("--set 'x'", "x"))
        self.assertEqual([line.split(": ")[0] for line in told.splitlines()],
                         ["s.toml", "--retention (desired_retention)", "--set 'x'"])


class Parameters(unittest.TestCase):
    """From a file of their own."""

    def setUp(self) -> None:
        folder = tempfile.TemporaryDirectory()
        self.addCleanup(folder.cleanup)
        self.folder = Path(folder.name)
        (self.folder / "s.toml").write_text('parameters = "fsrs.txt"\n')

    def read(self, text: str) -> tuple[float, ...]:
        (self.folder / "fsrs.txt").write_text(text)
        return read(str(self.folder / "s.toml")).parameters

    def test_written_in_any_way(self) -> None:
        words = [repr(number) for number in PARAMETERS]
        for text in ["\n".join(words), f"[{', '.join(words)}]", ";".join(words) + "  # FSRS-7, of May\n"]:
            self.assertEqual(list(self.read(text)), PARAMETERS)
        given = read(str(self.folder / "s.toml"))
        self.assertEqual([Path(path).name for path in given.sources], ["s.toml", "fsrs.txt"])

    def test_mistakes(self) -> None:
        for text, told in {"1 2\n3 x\n": r"fsrs\.txt: line 2: 'x' is no decimal number$",
                           " ".join(["1"] * 35): r"s\.toml: line 1, column 14 \(parameters\): has 35 numbers"}.items():
            with self.assertRaisesRegex(Mistake, told):
                self.read(text)
        (self.folder / "fsrs.txt").unlink()
        with self.assertRaisesRegex(Mistake, r"fsrs\.txt: No such file"):
            read(str(self.folder / "s.toml"))


if __name__ == "__main__":
    unittest.main()
