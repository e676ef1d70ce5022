"""The planner's command, from its files to its files."""

import contextlib
import csv
import errno
import io
import os
import re
import signal
import subprocess
import sys
import tempfile
import textwrap
import time
import unittest
import unittest.mock
from dataclasses import asdict
from pathlib import Path

from street_drill import settings, simulate
from street_drill.command import main
from street_drill.course import Course, duration, percentile
from street_drill.decimals import exact, nearest
from street_drill.facts import summary

from . import damage
from .common import LISTING, PACKAGE, printed

EXAMPLE = PACKAGE / "examples" / "new_round.toml"


def run(*arguments: object) -> tuple[int, str, str]:
    said, errors = io.StringIO(), io.StringIO()
    with contextlib.redirect_stdout(said), contextlib.redirect_stderr(errors):
        status = main([str(argument) for argument in arguments])
    return status, said.getvalue(), errors.getvalue()


def rows_of(path: Path) -> list[dict[str, str]]:
    with path.open(newline="") as file:
        return list(csv.DictReader(file))


class Command(unittest.TestCase):
    def setUp(self) -> None:
        folder = tempfile.TemporaryDirectory()
        self.addCleanup(folder.cleanup)
        self.folder = Path(folder.name)
        self.example = settings.read(str(EXAMPLE))

    def forecast(self, seed: int):
        return simulate(self.example.config, self.example.parameters, seed=seed)

    def test_rows(self) -> None:
        rows = self.folder / "rows.csv"
        self.assertEqual(run("forecast", EXAMPLE, "--rows", rows)[0], 0)
        forecast = self.forecast(7)
        for number, (row, day) in enumerate(zip(rows_of(rows), forecast.rows, strict=True)):
            self.assertEqual(int(row["day"]), number)
            self.assertEqual({name: nearest(exact(row[name])) for name in asdict(day)}, asdict(day))
            self.assertEqual(int(row["due"]), forecast.due[number])

    def test_runs(self) -> None:
        first, second = self.folder / "first.csv", self.folder / "second.csv"
        self.assertEqual(run("forecast", EXAMPLE, "--rows", first, "--runs", 5, "--workers", 1)[0], 0)
        self.assertEqual(run("forecast", EXAMPLE, "--rows", second, "--runs", 5, "--workers", 4)[0], 0)
        self.assertEqual(first.read_bytes(), second.read_bytes())
        costs = sorted(self.forecast(seed).rows[9].cost for seed in range(7, 12))
        row = rows_of(first)[9]
        self.assertAlmostEqual(float(row["cost"]), sum(costs) / 5, places=3)
        self.assertAlmostEqual(float(row["cost_p10"]), 0.6 * costs[0] + 0.4 * costs[1], places=3)
        self.assertAlmostEqual(float(row["cost_p90"]), 0.4 * costs[3] + 0.6 * costs[4], places=3)
        self.assertEqual(nearest(exact(row["cost_first"])), self.forecast(7).rows[9].cost)

    def test_percentile(self) -> None:
        self.assertEqual([percentile([1, 2, 4], share) for share in (0, 0.25, 0.5, 1)], [1, 1.5, 2, 4])
        self.assertEqual(percentile([float("inf")] * 3, 0.1), float("inf"))
        self.assertEqual(percentile([1, 2, float("inf")], 0.5), 2)

    def test_next_deck(self) -> None:
        cards, later = self.folder / "cards.csv", self.folder / "later.csv"
        self.assertEqual(run("forecast", EXAMPLE, "--cards", cards)[0], 0)
        status, said, _ = run("forecast", EXAMPLE, "--deck", cards, "--cards", later)
        self.assertEqual(status, 0)
        self.assertIn("of 120 introduced", said)
        for row, before in zip(rows_of(later), rows_of(cards), strict=True):
            self.assertGreaterEqual(int(row["reps"]), int(before["reps"]))

    def told(self, label: str, *arguments: object) -> str:
        """What the summary says by a label."""
        said = run("forecast", EXAMPLE, *arguments)[1]
        return dict(line.strip().split(": ", 1) for line in said.splitlines()[1:])[label]

    def test_open(self) -> None:
        """115 streets are held on day 14, are fewer again later, and for the last three days."""
        held = [day.memorized for day in self.forecast(7).rows]
        self.assertTrue(held[13] < 115 <= held[14] and held[26] < 115 <= min(held[27:]))
        self.assertEqual(self.told("115 streets held to the end", "--open", 115),
                         "too near the span's end to tell (run a longer span): from day 27, seen for 3 days")
        self.assertEqual(self.told("115 streets first held", "--open", 115), "on day 14")
        self.assertEqual(self.told("121 streets held to the end", "--open", 121), "on no day")

    def test_open_in_a_longer_span(self) -> None:
        """What was seen to hold for 28 days is told plainly, and what was not is none of it."""
        first = next(day for day, row in enumerate(self.forecast(7).rows) if row.memorized >= 100)
        for span, told in {first + 28: "from day {}, seen for 28 days",
                           first + 27: "too near the span's end to tell (run a longer span): from day {}, "
                                       "seen for 27 days"}.items():
            said = self.told("100 streets held to the end", "--open", 100, "--set", f"learn_span={span}")
            self.assertEqual(said, told.format(first))

    def test_open_does_not_stay(self) -> None:
        """As forgetting has it: nothing is learned or reviewed any more."""
        course = Course("round", {"memorized": (1, 3, 2, 1), "cost": (0,) * 4, "introduced": (3,) * 4}, {})
        self.assertIn("2 streets held to the end: on no day\n  2 streets first held: on day 1\n", summary(course, 2))

    def test_open_of_runs(self) -> None:
        """So many of the runs are there by which day, as a look at each run has it."""
        helds = [[day.memorized for day in self.forecast(seed).rows] for seed in range(7, 17)]
        stay = sorted(min(day for day in range(31) if all(streets >= 114 for streets in held[day:])) for held in helds)
        stay = [day for day in stay if day < 30]
        self.assertEqual(stay, [14, 14, 14, 14, 14, 14, 14, 14, 23, 24])
        told = self.told("114 streets held to the end", "--open", 114, "--runs", 10)
        self.assertEqual(told, "too near the span's end to tell (run a longer span): "
                               "in 8 of 10 runs from day 14, seen for 16 days, in 9 of 10 runs from day 23, "
                               "seen for 7 days, in all 10 runs from day 24, seen for 6 days")
        touch = sorted(next(day for day, streets in enumerate(held) if streets >= 108) for held in helds)
        self.assertEqual(touch, [13] * 4 + [14] * 6)
        self.assertEqual(self.told("108 streets first held", "--open", 108, "--runs", 10),
                         "in all 10 runs by day 14")
        last = [self.forecast(seed).rows[-1].memorized >= 115 for seed in range(7, 27)]
        self.assertEqual(last.count(True), 10)
        self.assertRegex(self.told("115 streets held to the end", "--open", 115, "--runs", 20),
                         "in 10 of 20 runs from day 29, seen for 1 day; in 10 of 20 runs on no day$")
        self.assertEqual(self.told("120 streets held to the end", "--open", 120, "--runs", 3),
                         "in all 3 runs on no day")

    def test_open_of_runs_in_doubt(self) -> None:
        """Half of the runs stay for 31 days, the others for less: those alone are in doubt."""
        told = self.told("114 streets held to the end", "--open", 114, "--runs", 20, "--set", "learn_span=120")
        self.assertRegex(told, r"^in 10 of 20 runs from day 89, seen for 31 days; too near the span's end to tell "
                               r"\(run a longer span\): in 18 of 20 runs from day 96, ")

    def test_one_run(self) -> None:
        """It says that it is one."""
        self.assertEqual(self.told("runs"), "one; --runs tells how much is luck")

    def test_summary_of_runs(self) -> None:
        """Means with their tenth and ninetieth percentile, and nothing of the first run alone."""
        runs = [self.forecast(seed).rows for seed in range(7, 12)]
        for label, values in {"in all": [sum(day.cost for day in days) for days in runs],
                              "busiest day": [max(day.cost for day in days) for days in runs],
                              "worst week": [max(sum(day.cost for day in days[start : start + 7])
                                                 for start in range(0, 28, 7)) for days in runs]}.items():
            values.sort()
            ends = 0.6 * values[0] + 0.4 * values[1], 0.4 * values[3] + 0.6 * values[4]
            told = f"{duration(sum(values) / 5)} ({duration(ends[0])} to {duration(ends[1])})"
            self.assertEqual(self.told(label, "--runs", 5).partition(",")[0], told)

    def test_nothing_is_written(self) -> None:
        rows, blocked = self.folder / "rows.csv", self.folder / "no folder" / "cards.csv"
        for other in [blocked, self.folder, rows, "/dev/null", f"{self.folder}/../{self.folder.name}/rows.csv"]:
            status, said, errors = run("forecast", EXAMPLE, "--rows", rows, "--cards", other)
            self.assertEqual((status, said, os.listdir(self.folder)), (2, "", []), other)
            self.assertTrue(errors.startswith("street_drill: "))
            self.assertTrue(os.path.exists("/dev/null") and not os.path.isfile("/dev/null"))

    def test_sources_are_not_written_over(self) -> None:
        deck, own = self.folder / "deck.csv", self.folder / "own.toml"
        deck.write_bytes(damage.DECK)
        own.write_bytes(EXAMPLE.read_bytes())
        for option, path in [("--rows", own), ("--page", deck), ("--rows", deck)]:
            errors = run("forecast", own, "--deck", deck, option, path)[2]
            self.assertIn(f"{path.name}: was read, and is not written over", errors)
        self.assertEqual((deck.read_bytes(), own.read_bytes()), (damage.DECK, EXAMPLE.read_bytes()))
        self.assertEqual(run("forecast", own, "--deck", deck, "--cards", deck)[0], 0)
        self.assertEqual(len(rows_of(deck)), 120)

    def test_full_disk(self) -> None:
        rows, page = self.folder / "rows.csv", self.folder / "page.html"
        rows.write_text("before")
        full = [None, OSError(errno.ENOSPC, "No space left on device")]
        with unittest.mock.patch("os.fsync", side_effect=full):
            errors = run("forecast", EXAMPLE, "--rows", rows, "--page", page)[2]
        self.assertEqual(errors, f"street_drill: {page}: No space left on device\n")
        self.assertEqual((os.listdir(self.folder), rows.read_text()), (["rows.csv"], "before"))

    def test_first_screen_of_the_readme(self) -> None:
        """It shows what the command prints."""
        readme = (PACKAGE / "README.md").read_text()
        asked, told = re.search(r"street-drill (forecast .*)\n\n((    .*\n)+)", readme).groups()[:2]
        words = [PACKAGE / word if word.startswith("examples/") else word for word in asked.split()]
        self.assertEqual(textwrap.dedent(told), run(*words)[1])

    def test_missing_files(self) -> None:
        self.assertEqual(run("forecast", "none.toml"), (2, "", "street_drill: none.toml: No such file or directory\n"))
        self.assertEqual(run("forecast", EXAMPLE, "--deck", self.folder)[0], 2)

    def test_card_is_told_by_its_place(self) -> None:
        deck = self.folder / "deck.csv"
        deck.write_bytes(damage.DECK.replace(b"-10,2.5", b"-10,99999999"))
        for command in ["forecast", "cheapest"]:
            errors = run(command, EXAMPLE, "--deck", deck)[2]
            self.assertIn("deck.csv: line 3, column 5 (due): refused 5 1: must be within", errors)

    def test_setting_is_told_by_its_key(self) -> None:
        own, parameters = self.folder / "own.toml", EXAMPLE.read_text().split("]")[0] + "]\n"
        for text, told in {
            parameters + "deck_size = 0": "own.toml: line 9, column 13 (deck_size): refused 2 0: ",
            parameters + "learn_span = 36501": "(learn_span): refused 3 0: ",
            parameters + "max_ivl = 0": "(max_ivl): refused 4 0: must be 1 to 36,500\n",
            parameters + "first_rating_prob = [0, 0, 0, 0]": "(first_rating_prob): refused 4 0: ",
            parameters.replace("0.796", "nan", 1): "own.toml: line 2, column 14 (parameters): refused 1 9: ",
            "": "own.toml (parameters): refused 1 34: ",
        }.items():
            own.write_text(text)
            self.assertIn(told, run("forecast", own)[2])
            self.assertIn(told, run("cheapest", own)[2])

    def test_damaged(self) -> None:
        refused, faults = damage.check(300, 7)
        self.assertEqual(faults, [])
        self.assertGreater(refused, 100)


class Processes(unittest.TestCase):
    def python(self, *arguments: object, **options) -> subprocess.CompletedProcess:
        command = [sys.executable, *map(str, arguments)]
        return subprocess.run(command, cwd=PACKAGE, capture_output=True, text=True, **options)

    def test_example_prints_the_program_s_text(self) -> None:
        self.assertEqual(self.python("examples/new_round.py").stdout, printed("forecast", LISTING))

    def test_status(self) -> None:
        self.assertEqual(self.python("-m", "street_drill", "forecast", EXAMPLE).returncode, 0)
        wrong = self.python("-m", "street_drill", "forecast", "README.md")
        self.assertEqual((wrong.returncode, wrong.stdout, len(wrong.stderr.splitlines())), (2, "", 1))

    def test_full_output(self) -> None:
        for option in ["forecast", "cheapest"]:
            with open("/dev/full", "w") as full:
                command = [sys.executable, "-m", "street_drill", option, EXAMPLE]
                ended = subprocess.run(command, cwd=PACKAGE, stdout=full, stderr=subprocess.PIPE, text=True)
            told = "street_drill: standard output: No space left on device\n"
            self.assertEqual((ended.returncode, ended.stderr), (1, told))

    def test_files_beside_a_full_output(self) -> None:
        with tempfile.TemporaryDirectory() as folder, open("/dev/full", "w") as full:
            rows = Path(folder, "rows.csv")
            command = [sys.executable, "-m", "street_drill", "forecast", EXAMPLE, "--rows", rows]
            self.assertEqual(subprocess.run(command, cwd=PACKAGE, stdout=full, stderr=subprocess.PIPE).returncode, 1)
            self.assertEqual(len(rows_of(rows)), 30)

    def test_closed_output(self) -> None:
        """From the start, or by a reader that wants no more."""
        for option in ["forecast", "--help"]:
            shell = 'exec "$0" -m street_drill "$@" >&-'
            arguments = [option] if option == "--help" else [option, EXAMPLE]
            ended = subprocess.run(["sh", "-c", shell, sys.executable, *arguments], cwd=PACKAGE, stderr=subprocess.PIPE)
            self.assertEqual((ended.returncode, ended.stderr), (1, b"street_drill: standard output: is closed\n"))
            reader, writer = os.pipe()
            os.close(reader)
            # Python's own help passes over what fails at once, where PYTHONUNBUFFERED is set.
            buffered = {name: value for name, value in os.environ.items() if name != "PYTHONUNBUFFERED"}
            ended = subprocess.run([sys.executable, "-m", "street_drill", *arguments], cwd=PACKAGE, env=buffered,
                                   stdout=writer, stderr=subprocess.PIPE)
            os.close(writer)
            self.assertEqual((ended.returncode, ended.stderr), (1, b"street_drill: standard output: Broken pipe\n"))

    def test_interrupted(self) -> None:
        """Ctrl-C in the middle of a long run: an end at once, without a word or a file, and without its workers."""
        long = EXAMPLE.read_text().replace("= 120", "= 65536").replace("= 30", "= 36500") + "max_cost_perday = inf\n"
        with tempfile.TemporaryDirectory() as name:
            folder = Path(name)
            (folder / "a.toml").write_text(long)
            (folder / "b.toml").write_text(long)
            for arguments in [["forecast", "a.toml", "--rows", "rows.csv"], ["cheapest", "a.toml"], ["region", "."]]:
                command = subprocess.Popen([sys.executable, "-m", "street_drill", *arguments], cwd=folder, text=True,
                                           env={**os.environ, "PYTHONPATH": str(PACKAGE)}, start_new_session=True,
                                           stdout=subprocess.PIPE, stderr=subprocess.STDOUT)
                time.sleep(2)
                command.send_signal(signal.SIGINT)
                # The pipe ends with the last process that has it.
                said = command.communicate(timeout=20)[0]
                self.assertEqual((command.returncode, said), (-signal.SIGINT, ""), arguments)
                self.assertEqual(sorted(os.listdir(folder)), ["a.toml", "b.toml"])

    def test_no_library(self) -> None:
        elsewhere = {**os.environ, "STREET_DRILL_LIBRARY": "/none.so"}
        missing = self.python("-m", "street_drill", "forecast", EXAMPLE, env=elsewhere)
        self.assertEqual((missing.returncode, len(missing.stderr.splitlines())), (2, 1))
        self.assertIn("bindings/python/build", missing.stderr)


if __name__ == "__main__":
    unittest.main()
