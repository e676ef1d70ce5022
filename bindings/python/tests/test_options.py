"""The command's options: settings by option, outputs by name, progress."""

import contextlib
import csv
import io
import os
import tempfile
import threading
import time
import unittest
import unittest.mock
from pathlib import Path

from street_drill import __version__, progress, settings, simulate
from street_drill.command import main
from street_drill.course import duration

from .common import PACKAGE, Terminal
from .test_command import EXAMPLE, rows_of, run
from .test_deck import HEAD, ROW

SIX, NINE = [PACKAGE / "examples" / f"{name}_a_day.toml" for name in ("six", "nine")]


class Settings(unittest.TestCase):
    def rows(self, *options: object) -> list[dict[str, str]]:
        _, said, _ = run("forecast", EXAMPLE, "--rows", "-", *options)
        return list(csv.DictReader(io.StringIO(said)))

    def test_set(self) -> None:
        given = settings.read(str(EXAMPLE))
        forecast = simulate(given.config, given.parameters, desired_retention=0.8, seed=9)
        for options in [["--seed", 9, "--retention", "0.8"], ["--seed", 9, "--retention", ".8"],
                        ["--set", "seed=9", "--set", "desired_retention = 0.8"]]:
            self.assertEqual([int(row["reviewed"]) for row in self.rows(*options)],
                             [day.reviewed for day in forecast.rows])
        self.assertEqual(len(self.rows("--set", "learn_span=9")), 9)

    def test_mistakes(self) -> None:
        for option, value, told in [
            ("--set", "max_ivl=0", "--set 'max_ivl=0' (max_ivl): refused 4 0: must be 1 to 36,500"),
            ("--set", "max_ivl", "--set 'max_ivl': end of document: Expected '='"),
            ("--retention", "90", "--retention (desired_retention): must be above 0 and below 1; 90 % is written 0.9"),
            ("--retention", "90%", "--retention: '90%' is a percentage: 90% is written 0.9\n"),
            ("--retention", "0,9", "--retention: '0,9' has a decimal comma: write a point\n"),
            ("--retention", "high", "--retention: 'high' is no decimal number\n"),
            ("--seed", -1, "--seed (seed): must be 0 to 18446744073709551615"),
        ]:
            status, said, errors = run("forecast", EXAMPLE, option, value)
            self.assertEqual((status, said, errors.partition(told)[0]), (2, "", "street_drill: "), errors)

    def test_mistakes_of_all_files(self) -> None:
        with tempfile.TemporaryDirectory() as folder:
            paths = [Path(folder, name) for name in ("a.toml", "b.toml")]
            for path in paths:
                path.write_text("deck = 3\nseed = -1\n")
            errors = run("forecast", *paths)[2]
        self.assertEqual(errors.count("(deck): is no setting"), 2)
        self.assertEqual(errors.count("(seed): must be"), 2)

    def test_twice(self) -> None:
        errors = run("forecast", EXAMPLE, "--set", "learn_limit=4", "--set", "learn_limit=5", "--seed", 3)[2]
        self.assertEqual(errors, "street_drill: --set 'learn_limit=5' (learn_limit): is set by --set 'learn_limit=4' "
                                 "already\n")
        for option, first, second in [("--retention", "0.8", "0.9"), ("--deck", "a.csv", "b.csv"), ("--runs", "2", "3")]:
            with self.assertRaises(SystemExit), contextlib.redirect_stderr(io.StringIO()) as told:
                main(["forecast", str(EXAMPLE), option, first, option, second])
            self.assertIn(f"argument {option}: stands twice", told.getvalue())

    def test_told_once(self) -> None:
        """An option's mistake, whatever the number of settings files."""
        self.assertEqual(run("forecast", SIX, NINE, "--set", "desired_retension=0.8")[2].count("\n"), 1)

    def test_count_of_parameters(self) -> None:
        for text, count in [("[1, 2]", 2), ("[]", 0)]:
            errors = run("forecast", EXAMPLE, "--set", f"parameters={text}")[2]
            self.assertIn(f"(parameters): refused 1 34: there are {count} parameters, and 34 are needed\n", errors)

    def test_what_is_not_an_option(self) -> None:
        for options in [["--runs", "1001"], ["--runs", "0"], ["--seed", "x"], ["--open", "0"]]:
            with self.assertRaises(SystemExit) as ended, contextlib.redirect_stderr(io.StringIO()) as errors:
                main(["forecast", str(EXAMPLE), *options])
            self.assertEqual(ended.exception.code, 2)
            self.assertRegex(errors.getvalue(), rf"^street_drill: argument {options[0]}: invalid .*\n$")

    def test_version(self) -> None:
        with self.assertRaises(SystemExit) as ended, contextlib.redirect_stdout(io.StringIO()) as said:
            main(["--version"])
        self.assertEqual((ended.exception.code, said.getvalue()), (0, f"street-drill {__version__}\n"))


class WithDeck(unittest.TestCase):
    def setUp(self) -> None:
        folder = tempfile.TemporaryDirectory()
        self.addCleanup(folder.cleanup)
        self.folder = Path(folder.name)
        self.deck = self.folder / "deck.csv"
        self.deck.write_text(HEAD + "".join(ROW.replace("Mill", f"Mill {number}") for number in range(3)))

    def test_whose_retention(self) -> None:
        """A deck's streets keep their own, whatever is desired of new ones, until one is set for them."""
        options = ["forecast", EXAMPLE, "--deck", self.deck, "--set", "deck_size=3", "--cards", "-"]
        kept = run(*options)
        self.assertEqual(run(*options, "--retention", "0.7")[1], kept[1])
        self.assertIn("  retention: the deck's 3 keep their own, 0.9\n", kept[2])
        status, said, summary = run(*options, "--set", "desired_retention_for_deck=0.7")
        self.assertEqual([row["desired_retention"] for row in csv.DictReader(io.StringIO(said))], ["0.7"] * 3)
        # Not a new label alone: the reviews lie on other days.
        self.assertNotEqual(said, kept[1].replace(",0.9,", ",0.7,"))
        self.assertIn("  retention: the deck's 3 are reviewed at 0.7\n", summary)

    def test_how_many_are_known(self) -> None:
        """With a deck it is always told, also where none is taken for known."""
        for command in [["forecast", EXAMPLE], ["cheapest", EXAMPLE]]:
            self.assertIn("  streets: 3 known by the deck, 117 new\n", run(*command, "--deck", self.deck)[1])
        self.deck.write_text(f"{HEAD}High Street,,,,,,,,\n")
        self.assertIn("  streets: 0 known by the deck, 120 new\n", run("forecast", EXAMPLE, "--deck", self.deck)[1])
        self.assertNotIn("streets: ", run("forecast", EXAMPLE)[1])

    def test_notes(self) -> None:
        """What is not refused and likely not meant is told, once for several settings files."""
        self.deck.write_text(self.deck.read_text().replace("street,", "name,") + ROW.replace("Mill", "Mill 0"))
        for options, told in [
            ([EXAMPLE, SIX, "--deck", self.deck], f"{self.deck}: line 5, column 1 (name): 'Mill 0 Lane' stands on "
             "line 2 already; a street that stands twice is drilled and counted twice"),
            ([EXAMPLE, "--set", "desired_retention_for_deck=0.8"], "--set 'desired_retention_for_deck=0.8' "
             "(desired_retention_for_deck): changes nothing for new_round, which has no street that is known"),
            ([EXAMPLE, "--set", "suspend_after_lapses=0"], "--set 'suspend_after_lapses=0' (suspend_after_lapses): is "
             "0: every street retires at its first turn; without the key there is no limit"),
        ]:
            status, said, errors = run("forecast", *options)
            self.assertEqual((status, errors), (0, f"street_drill: note: {told}\n"))
        self.assertIn("note: --set", run("cheapest", EXAMPLE, "--set", "desired_retention_for_deck=0.8")[2])

    def test_new_streets_too(self) -> None:
        self.assertIn("  retention: 0.8 for 117 new streets; the deck's 3 keep their own, 0.9\n",
                      run("forecast", EXAMPLE, "--deck", self.deck, "--retention", "0.8")[1])

    def test_no_new_street(self) -> None:
        self.assertIn("  retention: the deck's 3 keep their own, 0.9\n",
                      run("forecast", EXAMPLE, "--deck", self.deck, "--set", "learn_limit=0")[1])

    def test_more_streets_than_the_deck_may_have(self) -> None:
        errors = run("forecast", EXAMPLE, "--deck", self.deck, "--set", "deck_size=2")[2]
        self.assertIn("(deck_size): refused 2 1: the deck has 3 streets, and deck_size is 2\n", errors)

    def test_dates(self) -> None:
        """A dated deck, and its next one, which begins on the day after the span."""
        monday = ["--set", "first_day=2026-11-23"]
        self.deck.write_text(self.deck.read_text().replace(",-2,1,", ",2026-11-21,2026-11-24,"))
        self.assertIn("the settings have no first_day", run("forecast", EXAMPLE, "--deck", self.deck)[2])
        later = self.folder / "later.csv"
        self.assertEqual(run("forecast", EXAMPLE, "--deck", self.deck, *monday, "--cards", later)[0], 0)
        self.assertIn("is after the forecast's first day", run("forecast", EXAMPLE, "--deck", later, *monday)[2])
        self.assertEqual(run("forecast", EXAMPLE, "--deck", later, "--set", "first_day=2026-12-23")[0], 0)

    def test_a_first_day_each(self) -> None:
        """The same deck's dates are other days for settings with another first day."""
        self.deck.write_text(self.deck.read_text().replace(",-2,1,", ",2026-11-21,2026-11-24,"))
        for number, day in enumerate(["2026-11-23", "2026-12-23"]):
            (self.folder / f"{number}.toml").write_text(f"first_day = {day}\n{EXAMPLE.read_text()}")
        both = [self.folder / "0.toml", self.folder / "1.toml"]
        self.assertEqual(run("forecast", *both, "--deck", self.deck, "--rows", self.folder)[0], 0)
        due = [rows_of(self.folder / f"{number}.csv")[0]["due"] for number in range(2)]
        self.assertEqual(due, ["0", "3"])


class Outputs(unittest.TestCase):
    def setUp(self) -> None:
        folder = tempfile.TemporaryDirectory()
        self.addCleanup(folder.cleanup)
        self.folder = Path(folder.name)

    def test_standard_output(self) -> None:
        """The summary makes room."""
        rows = self.folder / "rows.csv"
        _, summary, _ = run("forecast", EXAMPLE, "--rows", rows)
        self.assertEqual(run("forecast", EXAMPLE, "--rows", "-"), (0, rows.read_text(), summary))
        self.assertIn("-: is named for two files", run("forecast", EXAMPLE, "--rows", "-", "--weeks", "-")[2])

    def test_no_name(self) -> None:
        for option in ["--rows", "--weeks", "--cards", "--page", "--deck"]:
            told = (2, "", f"street_drill: {option}: needs the name of a file\n")
            self.assertEqual(run("forecast", EXAMPLE, option, ""), told)

    def test_weeks(self) -> None:
        """Seconds a week, as the rows have them."""
        weeks, days = self.folder / "weeks.csv", self.folder / "days.csv"
        self.assertEqual(run("forecast", EXAMPLE, "--weeks", weeks, "--rows", days)[0], 0)
        costs = [float(row["cost"]) for row in rows_of(days)]
        told = rows_of(weeks)
        self.assertEqual([(row["week"], row["day"], row["days"]) for row in told],
                         [("1", "0", "7"), ("2", "7", "7"), ("3", "14", "7"), ("4", "21", "7"), ("5", "28", "2")])
        for number, row in enumerate(told):
            self.assertAlmostEqual(float(row["cost"]), sum(costs[7 * number : 7 * number + 7]), places=2)
        first = ", ".join(duration(float(row["cost"])) for row in told[:4])
        self.assertIn(f"  first weeks: {first}\n", run("forecast", EXAMPLE)[1])

    def test_a_folder_for_several(self) -> None:
        rows, cards = self.folder / "rows", self.folder / "cards"
        rows.mkdir()
        cards.mkdir()
        status, _, errors = run("forecast", SIX, NINE, "--rows", rows, "--cards", cards)
        self.assertEqual((status, errors, sorted(os.listdir(rows))), (0, "", ["nine_a_day.csv", "six_a_day.csv"]))
        self.assertEqual(rows_of(rows / "nine_a_day.csv")[0]["learned"], "9")
        self.assertEqual(len(rows_of(cards / "six_a_day.csv")), 800)

    def test_no_folder_for_several(self) -> None:
        for path, told in [(self.folder / "rows.csv", "is no folder"), ("-", "-: is no folder")]:
            self.assertIn(told, run("forecast", SIX, NINE, "--rows", path)[2])
        self.assertIn("is named for two files", run("forecast", SIX, SIX, "--rows", self.folder)[2])
        self.assertEqual(os.listdir(self.folder), [])

    def test_parameters_are_not_written_over(self) -> None:
        own = self.folder / "own.toml"
        own.write_text('parameters = "fsrs.txt"\ndeck_size = 5\nlearn_span = 3\n')
        (self.folder / "fsrs.txt").write_text(EXAMPLE.read_text().partition("[")[2].partition("]")[0])
        self.assertEqual(run("forecast", own)[0], 0)
        errors = run("forecast", own, "--rows", self.folder / "fsrs.txt")[2]
        self.assertIn("fsrs.txt: was read, and is not written over", errors)

    def test_read_only(self) -> None:
        rows, link = self.folder / "rows.csv", self.folder / "link.csv"
        rows.write_text("as it was\n")
        rows.chmod(0o444)
        link.symlink_to(rows)
        for path in (rows, link):
            told = f"street_drill: {path}: is read-only, and is not written over\n"
            self.assertEqual(run("forecast", EXAMPLE, "--rows", path), (2, "", told))
        self.assertEqual(rows.read_text(), "as it was\n")

    def test_page_of_the_search(self) -> None:
        page = self.folder / "cheapest.html"
        status, said, _ = run("cheapest", EXAMPLE, "--page", page)
        self.assertEqual(status, 0)
        for line in said.splitlines()[-2:]:
            self.assertIn(line.strip(), page.read_text())


class Progress(unittest.TestCase):
    def told(self, quiet: bool, seconds: float) -> str:
        errors = Terminal()
        with (contextlib.redirect_stderr(errors), unittest.mock.patch("street_drill.progress._PATIENCE", 0.05),
              unittest.mock.patch("street_drill.progress._EVERY", 0.05)):
            with progress.progress("forecast", 3, quiet) as told:
                told.done()
                time.sleep(seconds)
        return errors.getvalue()

    def test_terminal(self) -> None:
        """Once it takes long, how much is done; at the end the line is gone."""
        self.assertRegex(self.told(False, 0.3), r"^forecast: 1 of 3, 0 s(\r\x1b\[Kforecast: 1 of 3, 0 s)+\r\x1b\[K$")

    def test_nothing_is_told(self) -> None:
        self.assertEqual(self.told(False, 0), "")
        self.assertEqual(self.told(True, 0.3), "")

    def test_runs_are_counted(self) -> None:
        done = []
        with unittest.mock.patch.object(progress.Progress, "done", lambda self: done.append(1)):
            self.assertEqual(run("forecast", SIX, NINE, "--runs", 4)[0], 0)
        self.assertEqual(len(done), 8)


class NoThread(unittest.TestCase):
    def setUp(self) -> None:
        error = RuntimeError("can't start new thread")
        failing = unittest.mock.patch.object(threading.Thread, "start", side_effect=error)
        failing.start()
        self.addCleanup(failing.stop)

    def test_is_told(self) -> None:
        for command in [["forecast", EXAMPLE, "--runs", 3], ["cheapest", EXAMPLE]]:
            told = (2, "", "street_drill: --workers: can't start new thread; 1 needs no other thread or process\n")
            self.assertEqual(run(*command, "--workers", 2), told)

    def test_one_worker_needs_none(self) -> None:
        for command in [["forecast", EXAMPLE, "--runs", 3], ["cheapest", EXAMPLE]]:
            errors = Terminal()
            with contextlib.redirect_stdout(io.StringIO()), contextlib.redirect_stderr(errors):
                self.assertEqual(main([str(argument) for argument in [*command, "--workers", 1]]), 0)


if __name__ == "__main__":
    unittest.main()
