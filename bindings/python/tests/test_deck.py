"""A deck from CSV, as programs and spreadsheets write it."""

import math
import re
import tempfile
import unittest
import zipfile
from dataclasses import replace
from datetime import date
from pathlib import Path

from street_drill import Card, Mistake, SimulatorConfig, simulate
from street_drill.deck import of_text, read, with_retention
from street_drill.decimals import exact, nearest

from .common import PACKAGE, PARAMETERS

HEAD = "street,difficulty,stability,last_date,due,interval,desired_retention,reps,lapses\n"
ROW = "Mill Lane,5,3.5,-2,1,3,0.9,4,1\n"
UNKNOWN = '"New, Street",-inf,-inf,-inf,0,-inf,-inf,0,0\n'
MILL_LANE = Card(5.0, 3.5, -2.0, 1.0, 3.0, nearest(exact("0.9")), 4, 1)
MONDAY = date(2026, 11, 23)


def mistake_of(text: str, first_day: date | None = None) -> str:
    try:
        of_text("d.csv", text, first_day)
    except Mistake as mistake:
        return str(mistake)
    return ""


class Reading(unittest.TestCase):
    def test_cards(self) -> None:
        deck = of_text("d.csv", HEAD + "\n" + UNKNOWN + ROW)
        self.assertEqual(deck.lines, [3, 4])
        self.assertEqual(deck.cards[1], MILL_LANE)
        self.assertEqual(deck.cards[0].stability, -math.inf)
        self.assertEqual(deck.kept, [MILL_LANE])

    def test_places(self) -> None:
        for text, place in {
            "": "d.csv: line 1: column difficulty is missing in the head, as are all others",
            HEAD.replace("due", "reps"): "d.csv: line 1: column due is missing in the head\nd.csv: line 1: column reps",
            HEAD.replace("street", "reps"): "d.csv: line 1: column reps stands twice",
            HEAD + ROW + ROW.replace("3.5", "3,5"): "d.csv: line 3: has 10 columns, and the head has 9; a decimal",
            HEAD + "Mill Lane,5\n": "d.csv: line 2: has 2 columns, and the head has 9",
            HEAD + ROW.replace("3.5", "x"): "d.csv: line 2, column 3 (stability): 'x' is no decimal number",
            HEAD + ROW.replace("4,1", "4,-1"): "d.csv: line 2, column 9 (lapses): '-1' is no whole number",
            HEAD + ROW.replace("4,1", "4294967296,1"): "d.csv: line 2, column 8 (reps): '4294967296' is above",
            HEAD + ROW.replace("4,1", "9" * 5000 + ",1"): "d.csv: line 2, column 8 (reps): ",
            HEAD + '"two\nlines",x' + ROW[11:]: "d.csv: line 2, column 2 (difficulty): 'x'",
            HEAD + ROW + '"Mill': "d.csv: line 3: ",
            HEAD + "x" * 200_000: "d.csv: line 2: field larger",
        }.items():
            self.assertIn(place, mistake_of(text))

    def test_all_mistakes(self) -> None:
        """In the order of their lines, and of many the first ones."""
        rows = [ROW.replace("3.5", "x").replace("0.9", "90%"), ROW, ROW.replace("0.9", "90"), ROW.replace("4,1", "y,1")]
        text = HEAD + "".join(row.replace("Mill", f"Mill {number}") for number, row in enumerate(rows))
        told = [line.split("): ")[0] for line in mistake_of(text).splitlines()]
        self.assertEqual(told, ["d.csv: line 2, column 3 (stability", "d.csv: line 2, column 7 (desired_retention",
                                "d.csv: line 4, column 7 (desired_retention", "d.csv: line 5, column 8 (reps"])
        # What stands at a street that nobody has drilled yet plays no part.
        for unknown in [UNKNOWN.replace("-inf,0,0", "90,0,0"), "High Street,,,,,,90,,\n"]:
            self.assertEqual(mistake_of(HEAD + unknown), "")
            self.assertEqual(mistake_of(HEAD + unknown + ROW.replace("3.5", "x")).count("\n"), 0)
        many = mistake_of(HEAD + "".join(f"{number}{ROW.replace('3.5', 'x')}" for number in range(1000))).splitlines()
        self.assertEqual((len(many), many[-1]), (21, "d.csv: has 980 more mistakes"))


class Sense(unittest.TestCase):
    def test_senseless(self) -> None:
        """What the library takes and no planner means."""
        for row, told in {
            ROW.replace("0.9", "90"): "column 7 (desired_retention): '90' is not between 0 and 1; 90 % is written 0.9",
            ROW.replace("0.9", "0"): "column 7 (desired_retention): '0' is not between 0 and 1",
            ROW.replace(",5,", ",0.5,"): "column 2 (difficulty): '0.5' is not within 1 and 10",
            ROW.replace(",5,", ",11,"): "column 2 (difficulty): '11' is not within 1 and 10",
            ROW.replace("-2,1", "1,2"): "column 4 (last_date): '1' is after the forecast's first day",
        }.items():
            self.assertIn(f"d.csv: line 3, {told}", mistake_of(HEAD + ROW.replace("Mill", "Hill") + row))

    def test_dropped(self) -> None:
        """A street that was drilled, and whose stability says that it was not, is not left out without a word."""
        for stability in ["0", "-3.5", "1e-9", "nan"]:
            self.assertRegex(mistake_of(HEAD + ROW.replace("3.5", stability)),
                             rf"^d.csv: line 2, column 3 \(stability\): '{stability}' says that nobody has drilled")
        for row in [ROW.replace("3.5", "-inf"), "High Street,0,0,-inf,0,0,0.9,0,0\n"]:
            self.assertEqual(mistake_of(HEAD + row), "")

    def test_all_cells_of_a_row(self) -> None:
        """Those that cannot be read, and beside them those that can and make no sense."""
        told = mistake_of(HEAD + "Mill Lane,11,x,5,y,3,90,4,z\n").splitlines()
        self.assertEqual([line.split("(")[1].split(")")[0] for line in told],
                         ["difficulty", "stability", "last_date", "due", "desired_retention", "lapses"])

    def test_ends(self) -> None:
        for row in [ROW.replace(",5,", ",1,"), ROW.replace(",5,", ",10,"), ROW.replace("-2,1", "0,1"), UNKNOWN]:
            self.assertEqual(mistake_of(HEAD + row), "")

    def test_twice(self) -> None:
        self.assertEqual(mistake_of(HEAD + ROW + UNKNOWN + ROW.replace("Mill Lane", " mill lane")),
                         "d.csv: line 4, column 1 (street): ' mill lane' stands on line 2 already")
        towns = [ROW.replace("Mill Lane", f"Mill Lane,{town}") for town in ("Leeds", "York")]
        self.assertEqual(mistake_of(HEAD.replace("street", "street,town") + "".join(towns)), "")
        self.assertIn("stands on line 2", mistake_of(HEAD.replace("street", "street,town") + towns[0] * 2))

    def test_names_twice(self) -> None:
        """What may be two streets is told: another column tells them apart, or the name is another's."""
        for head, first, second, column in [("Name", "Mill Lane", "mill lane ", "1 (name)"),
                                            ("Straße,Note", "Mill Lane,x", "Mill Lane,", "1 (straße)"),
                                            ("No,Street name", "1,Mill Lane", "2,Mill Lane", "2 (street_name)"),
                                            ("No,Label", "1,Mill Lane", "2,Mill Lane", "2 (label)")]:
            rows = [ROW.replace("Mill Lane", text) for text in (first, second)]
            head = HEAD.replace("street", head)
            notes = of_text("d.csv", head + "".join(rows)).notes
            told = rf"d.csv: line 3, column {re.escape(column)}: '[Mm]ill [Ll]ane' stands on line 2 already; "
            self.assertEqual((len(notes), bool(re.match(told, notes[0]))), (1, True), notes)
            self.assertEqual(of_text("d.csv", head + rows[0] + rows[1].replace("ane", "ake")).notes, ())
        many = HEAD.replace("street", "name") + ROW * 3 + ROW.replace("Mill", "Hill") * 2
        self.assertIn("on line 2 already, and 1 more names stand", of_text("d.csv", many).notes[0])
        self.assertIn("stands on line 2 already", mistake_of(HEAD.replace("street", "Straße") + ROW * 2))

    def test_no_wrong_refusal(self) -> None:
        town = HEAD.replace("street", "street,town") + ROW.replace("Mill Lane", ",Leeds") * 2
        self.assertEqual((mistake_of(town), of_text("d.csv", town).notes), ("", ()))
        self.assertEqual(mistake_of(HEAD.replace("street", "street type") + ROW.replace("Mill Lane", "Road") * 2), "")

    def test_streets_without_a_name(self) -> None:
        self.assertEqual(mistake_of(HEAD + UNKNOWN.replace('"New, Street"', "") * 2), "")
        self.assertEqual(mistake_of(HEAD.replace("street", "town") + ROW * 2), "")

    def test_one_retention(self) -> None:
        deck = with_retention(of_text("d.csv", HEAD + ROW), 0.75)
        self.assertEqual([card.desired_retention for card in deck.cards], [0.75])


class Spreadsheets(unittest.TestCase):
    """As they write it: a street drilled, rows of empty cells, and a street that nobody has drilled yet."""

    SEMICOLONS = ("Street; Difficulty;STABILITY;Last Date;due;Interval;Desired retention;Reps;lapses;\n"
                  ";;;;;;;;;\nMill Lane;5,0;3,5;-2;1;3;0,9;4;1;\n;;;;;;;;;\nHigh Street;;;;;;;;;\n")

    def check(self, text: str) -> None:
        deck = of_text("d.csv", text)
        self.assertEqual((deck.lines, deck.cards[0], len(deck.kept)), ([3, 5], MILL_LANE, 1))
        self.assertEqual([row[0] for row in deck.rows], ["Mill Lane", "High Street"])

    def test_as_the_readme_shows(self) -> None:
        readme = (PACKAGE / "README.md").read_text()
        deck = of_text("d.csv", re.search(r"(    Street;(.*\n)+?)\n", readme)[1].replace("    ", ""), MONDAY)
        self.assertEqual(deck.kept, [replace(MILL_LANE, difficulty=5.25)])
        self.assertEqual(len(deck.cards), 2)

    def test_semicolons(self) -> None:
        self.check(self.SEMICOLONS)
        self.check(self.SEMICOLONS.replace(",", "."))

    def test_tabs(self) -> None:
        self.check(self.SEMICOLONS.replace(";", "\t"))

    def test_commas(self) -> None:
        self.check(self.SEMICOLONS.replace(",", ".").replace(";", ","))

    def test_told_delimiter(self) -> None:
        text = "sep=;\r\n" + self.SEMICOLONS.replace("\n;;;;;;;;;\nM", "\nM")
        self.check(text)
        self.check(text.replace(";", "\t"))

    def test_counts_with_a_fraction(self) -> None:
        self.check(self.SEMICOLONS.replace(";4;1", ";4,0;1,"))

    def test_unicode_text(self) -> None:
        with tempfile.TemporaryDirectory() as folder:
            path = Path(folder, "d.csv")
            path.write_text(self.SEMICOLONS.replace(";", "\t"), encoding="utf-16")
            self.assertEqual(read(str(path)).cards[0], MILL_LANE)
            path.write_bytes((HEAD + ROW.replace("Mill", "Mühl")).encode("cp1252"))
            with self.assertRaisesRegex(Mistake, "line 2: is not UTF-8; a spreadsheet can save it"):
                read(str(path))

    def test_workbook(self) -> None:
        with tempfile.TemporaryDirectory() as folder:
            path = Path(folder, "d.xlsx")
            with zipfile.ZipFile(path, "w") as book:
                book.writestr("xl/workbook.xml", "")
            with self.assertRaisesRegex(Mistake, r"d\.xlsx: is a spreadsheet's own file, or an archive: save"):
                read(str(path))

    def test_not_yet_drilled(self) -> None:
        """A retention and counts of 0 may stand there; half a street is a mistake."""
        self.assertEqual(mistake_of(HEAD + "High Street,,,,,,0.9,0,0\n"), "")
        for row in ["High Street,,,-3,,,0.9,4,1\n", "High Street,,,,,,0.9,4,1\n"]:
            self.assertIn("d.csv: line 2, column 2 (difficulty): is empty; of a street not yet", mistake_of(HEAD + row))
        told = mistake_of(HEAD + ROW.replace(",1,3,", ",,3,"))
        self.assertRegex(told, r"^d.csv: line 2, column 5 \(due\): is empty.*$")

    def test_causes(self) -> None:
        semicolons = (HEAD + ROW).replace(",", ";")
        for text, told in {
            HEAD + ROW.replace("0.9", "90%"): "'90%' is a percentage: 90% is written 0.9",
            HEAD + ROW.replace("3.5", '"3,5"'): "'3,5' has a decimal comma: write a point, or have semicolons",
            semicolons.replace("3.5", "1.234,5"): "'1.234,5' has marks between its thousands",
            semicolons.replace("3.5", "1'234.5"): "\"1'234.5\" has marks between its thousands",
            semicolons.replace("-2", "21.11.2026"): "'21.11.2026' is a date, perhaps: dates are written as 2026-11-23",
            semicolons.replace("3.5", "3,5"): "a file has decimal commas (line 2) or points (line 2), not both",
        }.items():
            self.assertIn(told, mistake_of(text))


class Dates(unittest.TestCase):
    DATED = ROW.replace("-2,1", "2026-11-21,2026-11-24")

    def test_as_days(self) -> None:
        self.assertEqual(of_text("d.csv", HEAD + self.DATED, MONDAY).cards, (MILL_LANE,))

    def test_with_midnight(self) -> None:
        for midnight in [" 00:00:00", "T00:00"]:
            dated = self.DATED.replace("-21", f"-21{midnight}").replace("-24", f"-24{midnight}")
            self.assertEqual(of_text("d.csv", HEAD + dated, MONDAY).cards, (MILL_LANE,))
        self.assertIn("'2026-11-21 08:00:00' is a date with a time of day: write the date alone",
                      mistake_of(HEAD + self.DATED.replace("-21", "-21 08:00:00"), MONDAY))

    def test_mistakes(self) -> None:
        self.assertIn("column 4 (last_date): '2026-11-21' is a date, and the settings have no first_day",
                      mistake_of(HEAD + self.DATED))
        self.assertIn("'2026-02-30' is no date of the calendar",
                      mistake_of(HEAD + self.DATED.replace("2026-11-21", "2026-02-30"), MONDAY))
        self.assertIn("'2026-12-24' is after the forecast's first day",
                      mistake_of(HEAD + self.DATED.replace("2026-11-21", "2026-12-24"), MONDAY))
        self.assertIn("column 6 (interval): '2026-11-24' is a date",
                      mistake_of(HEAD + ROW.replace(",3,", ",2026-11-24,"), MONDAY))


class Kept(unittest.TestCase):
    def test_as_the_run(self) -> None:
        """`kept` are those that the run keeps."""
        deck = of_text("d.csv", HEAD + UNKNOWN + ROW + "High Street,5,1e-9,-inf,1,3,0.9,0,0\n")
        forecast = simulate(SimulatorConfig(deck_size=4, learn_span=20, learn_limit=0), PARAMETERS, deck.cards)
        self.assertEqual(len(forecast.cards), len(deck.kept))


if __name__ == "__main__":
    unittest.main()
