"""A region of depots."""

import csv
import html
import importlib.util
import io
import math
import os
import re
import subprocess
import sys
import tempfile
import unittest
import unittest.mock
from pathlib import Path

from street_drill import settings, simulate
from street_drill.course import COLUMNS, Course, of_columns
from street_drill.deck import of_text
from street_drill.region import seed_of, total

from . import damage
from .common import PACKAGE
from .test_command import run

# The first of several runs of depot 2, whose own seed is 7: the same on each machine.
DEPOT_2 = 60295176459626
EXAMPLE = (PACKAGE / "examples" / "new_round.toml").read_text()


class Region(unittest.TestCase):
    def setUp(self) -> None:
        folder = tempfile.TemporaryDirectory()
        self.addCleanup(folder.cleanup)
        self.out = Path(folder.name)
        self.depots = self.out / "depots"
        self.depots.mkdir()
        for number, span in enumerate([30, 20, 30]):
            text = EXAMPLE.replace("learn_span = 30", f"learn_span = {span}")
            (self.depots / f"depot {number}.toml").write_text(text)
        (self.depots / "depot 1.csv").write_bytes(damage.DECK)

    def region(self, name: str, *options: object) -> tuple[int, str, str]:
        outputs = ["--summary", self.out / f"{name}.csv", "--page", self.out / f"{name}.html"]
        return run("region", self.depots, *outputs, *options)

    def notes(self, errors: str) -> str:
        """What is told but for the note of the spans, which differ here."""
        told = self.uneven(20, 30)
        self.assertIn(told, errors)
        return errors.replace(told, "")

    def uneven(self, least: int, most: int) -> str:
        return (f"street_drill: note: {self.depots}: the depots' spans differ, from {least} to {most} days; in the sums a depot "
                "costs nothing after its last day and keeps that day's streets, so from the shortest span on they are too low\n")

    def test_rows(self) -> None:
        self.assertEqual(self.region("a", "--open", 100)[0], 0)
        with (self.out / "a.csv").open(newline="") as file:
            rows = list(csv.DictReader(file))
        given = settings.read(str(self.depots / "depot 1.toml"))
        forecast = simulate(given.config, given.parameters, of_text("", damage.DECK.decode()).cards, seed=given.seed)
        self.assertEqual([row["depot"] for row in rows], ["depot 0", "depot 1", "depot 2"])
        self.assertEqual((rows[1]["days"], int(rows[1]["introduced"])), ("20", forecast.rows[-1].introduced))
        self.assertAlmostEqual(float(rows[1]["seconds"]), sum(day.cost for day in forecast.rows), places=2)
        held = [number for number, day in enumerate(forecast.rows) if day.memorized >= 100]
        self.assertEqual(rows[1]["opens"], str(held[0]) if held else "")
        self.assertEqual(rows[1]["opens_seen"], str(20 - held[0]) if held else "")
        self.assertTrue(any(row["opens_seen"] for row in rows))
        self.assertEqual(len(re.findall('<figure [^>]*data-view="day"', (self.out / "a.html").read_text())), 5)

    def test_same_bytes(self) -> None:
        self.region("one", "--workers", 1)
        self.region("two", "--workers", 2)
        for kind in ["csv", "html"]:
            self.assertEqual((self.out / f"one.{kind}").read_bytes(), (self.out / f"two.{kind}").read_bytes())

    def test_total(self) -> None:
        """A depot whose span is over keeps its streets, and costs nothing."""
        depots = [Course(name, {column: values for column in COLUMNS}, {})
                  for name, values in [("long", (1, 2, 3)), ("short", (0.5, 4.25))]]
        whole = total(depots)
        self.assertEqual((whole.columns["cost"], whole.columns["memorized"]), ((1.5, 6.25, 3), (1.5, 6.25, 7.25)))
        self.assertEqual(total(depots[:1]).columns["learned"], (1, 2, 3))

    def test_every_mistake_is_told(self) -> None:
        (self.depots / "depot 0.toml").write_text("deck = 3")
        (self.depots / "depot 1.csv").write_text("street\n")
        status, said, errors = self.region("a")
        self.assertEqual((status, said, os.listdir(self.out)), (2, "", ["depots"]))
        self.assertRegex(errors, r"^street_drill: .*depot 0.toml: line 1, column 8 \(deck\): .*\n"
                                 r"street_drill: .*depot 1.csv: line 1: .*\n$")

    def test_all_mistakes_of_all_files(self) -> None:
        (self.depots / "depot 0.toml").write_text("deck = 3\nseed = -1\n")
        (self.depots / "depot 1.csv").write_bytes(damage.DECK.replace(b"5.25", b"x").replace(b"12.5", b"y"))
        places = [line.split(": ")[2] for line in self.region("a")[2].splitlines()]
        self.assertEqual(places, ["line 1, column 8 (deck)", "line 2, column 8 (seed)",
                                  "line 2, column 2 (difficulty)", "line 3, column 3 (stability)"])

    def test_deck_without_settings(self) -> None:
        """It is told, and left out; what the command itself wrote there is no deck."""
        (self.depots / "south.csv").write_bytes(damage.DECK)
        outputs = ["--summary", self.depots / "region.csv", "--page", self.out / "a.html"]
        for _ in range(2):
            status, said, errors = run("region", self.depots, *outputs)
            told = f"street_drill: note: {self.depots / 'south.csv'}: has no settings, south.toml, and is left out"
            self.assertEqual((status, self.notes(errors).splitlines()[:-1]), (0, [told]))
        self.assertIn("region of 3 depots", said)

    def test_names_that_differ_in_case(self) -> None:
        for name, told in {"Depot 1.csv": "differs from depot 1", "DEPOT 0.toml": "differs from depot 0",
                           "depot 2.CSV": "differs from depot 2.csv", "south.TOML": "differs from south.toml"}.items():
            (self.depots / name).write_text("")
            status, _, errors = self.region("a")
            self.assertEqual((status, errors.count("\n")), (2, 1))
            self.assertRegex(errors, r"[Dd](epot|EPOT) \d\S*: differs from .* in capital and small letters alone"
                             if "south" not in name else "south.TOML: differs from south.toml in capital and")
            (self.depots / name).unlink()

    def test_line_a_depot(self) -> None:
        said = self.region("a", "--open", 100)[1]
        for number in range(3):
            path = self.depots / f"depot {number}.toml"
            deck = ["--deck", self.depots / "depot 1.csv"] if number == 1 else []
            alone = dict(line.strip().split(": ", 1) for line in
                         run("forecast", path, *deck, "--open", 100)[1].splitlines()[1:])
            line = next(line for line in said.splitlines() if line.startswith(f"depot {number} "))
            labels = ("span", "100 streets held to the end", "100 streets first held", "held on the last day", "in all",
                      "busiest day", "overdue at the end", "streets")
            self.assertEqual(re.split("  +", line), [f"depot {number}", *(alone[label] for label in labels
                                                                         if label in alone)])
            told = html.escape(alone["100 streets held to the end"])
            self.assertIn(f"<td>{told}</td>", (self.out / "a.html").read_text())

    def test_notes_of_decks(self) -> None:
        """As `forecast` tells them; from processes too."""
        for number in (0, 2):
            deck = damage.DECK.replace(b"street,", b"name,") + b"Mill Lane,5,3.5,-2,1,3,0.9,4,1\n"
            (self.depots / f"depot {number}.csv").write_bytes(deck)
        status, _, errors = self.region("a", "--workers", 2, "--runs", 2)
        self.assertEqual(status, 0)
        told = r"street_drill: note: .*depot \d\.csv: line 5, column 1 \(name\): 'Mill Lane' .*\n"
        self.assertRegex(self.notes(errors), f"^({told}){{2}}$")

    def test_runs(self) -> None:
        """A depot's numbers are those of its runs, and the region's those of the sums of each run."""
        self.assertEqual(self.region("a", "--runs", 5, "--open", 100)[0], 0)
        with (self.out / "a.csv").open(newline="") as file:
            row = list(csv.DictReader(file))[2]
        given = settings.read(str(self.depots / "depot 2.toml"))
        first = seed_of("depot 2", 7)
        self.assertEqual((first, row["seed"]), (DEPOT_2, str(DEPOT_2)))
        made = [simulate(given.config, given.parameters, seed=first + run).rows for run in range(5)]
        seconds = sorted(sum(day.cost for day in days) for days in made)
        self.assertAlmostEqual(float(row["seconds"]), sum(seconds) / 5, places=2)
        self.assertAlmostEqual(float(row["seconds_p10"]), 0.6 * seconds[0] + 0.4 * seconds[1], places=2)
        stays = sorted(1 + max(day for day, row in enumerate(days) if row.memorized < 100) for days in made)
        touches = sorted(next(day for day, row in enumerate(days) if row.memorized >= 100) for days in made)
        for name, days in [("opens", stays), ("first_held", touches)]:
            self.assertEqual([row[f"{name}_{share}"] for share in ("half", "most", "all")],
                             [str(days[place]) for place in (2, 4, 4)])
        self.region("b", "--runs", 5, "--workers", 1, "--open", 100)
        self.assertEqual((self.out / "a.csv").read_bytes(), (self.out / "b.csv").read_bytes())

    def test_luck_of_several_runs(self) -> None:
        """Depots alike in all but their names are not lucky in the same runs; a depot's row is that of its seed."""
        self.region("a", "--runs", 5)
        with (self.out / "a.csv").open(newline="") as file:
            north, _, south = csv.DictReader(file)
        self.assertNotEqual(north["seconds"], south["seconds"])
        alone = run("forecast", self.depots / "depot 0.toml", "--runs", 5, "--seed", north["seed"], "--rows", "-")[1]
        seconds = math.fsum(float(day["cost"]) for day in csv.DictReader(io.StringIO(alone)))
        self.assertAlmostEqual(float(north["seconds"]), seconds, places=1)

    def test_different_spans(self) -> None:
        """Where the depots' spans differ the sums are too low after the shortest, and that is told."""
        self.assertIn(self.uneven(20, 30), self.region("a")[2])
        for number in (0, 2):
            path = self.depots / f"depot {number}.toml"
            path.write_text(path.read_text().replace("learn_span = 30", "learn_span = 20"))
        self.assertNotIn("spans differ", self.region("b")[2])

    def test_luck_of_a_single_run(self) -> None:
        """It is that of `forecast`, and where depots share it that is told."""
        told = (f"street_drill: note: {self.depots}: 3 depots have the seed 7 and draw alike, so that their sum "
                "multiplies one luck; with --runs each has its own\n")
        self.assertEqual(self.notes(self.region("a")[2]), told)
        self.assertEqual(self.notes(self.region("a", "--runs", 2)[2]), "")
        (self.depots / "depot 0.toml").write_text(EXAMPLE.replace("seed = 7", "seed = 8"))
        (self.depots / "depot 1.toml").write_text(EXAMPLE.replace("seed = 7", "seed = 9"))
        self.assertEqual(self.region("a")[2], "")

    def test_not_written_over_unasked(self) -> None:
        self.addCleanup(os.chdir, os.getcwd())
        os.chdir(self.out)
        self.assertEqual(run("region", self.depots)[0], 0)
        for name, option in [("region.csv", "--summary"), ("region.html", "--page")]:
            Path(name).write_text("mine\n")
            told = f"street_drill: {name}: is there already; {option} {name} writes over it\n"
            self.assertEqual(run("region", self.depots), (2, "", told))
            self.assertEqual(Path(name).read_text(), "mine\n")
            Path(name).unlink()
        Path("region.csv").write_text("mine\n")
        self.assertEqual(run("region", self.depots, "--summary", "region.csv")[0], 0)
        self.assertIn("depot 2", Path("region.csv").read_text())

    def test_total_of_runs(self) -> None:
        def depot(*costs: tuple[float, ...]) -> Course:
            return of_columns("depot", [dict.fromkeys(COLUMNS, cost) for cost in costs])

        whole = total([depot((1, 2), (3, 4)), depot((10,), (20,))])
        self.assertEqual([run["cost"] for run in whole.runs], [(11, 2), (23, 4)])
        self.assertEqual(whole.bands["cost"].mean, (17, 3))

    def test_first_days(self) -> None:
        self.assertEqual(self.region("a", "--set", "first_day=2026-11-23")[0], 0)
        with (self.out / "a.csv").open(newline="") as file:
            row = next(csv.DictReader(file))
        self.assertEqual((row["busiest_day"], row["busiest_day_date"]), ("12", "2026-12-05"))
        (self.depots / "depot 0.toml").write_text(f"first_day = 2026-11-24\n{EXAMPLE}")
        told = "the depots must have one first_day, and have 2026-11-24 and none\n"
        self.assertIn(told, self.region("a")[2])

    def test_no_process(self) -> None:
        with unittest.mock.patch("os.fork", side_effect=BlockingIOError(11, "Resource temporarily unavailable")):
            told = "--workers: [Errno 11] Resource temporarily unavailable; 1 needs no other thread or process\n"
            status, said, errors = self.region("a", "--workers", 2)
            self.assertEqual((status, said, errors.partition("street_drill: --")[2]), (2, "", told.removeprefix("--")))
            self.assertEqual(self.region("a", "--workers", 1)[0], 0)

    def test_some_processes_and_threads(self) -> None:
        """Where not all of the pool can be started, those that were are ended: the command does not wait for them."""
        for fault, told in [("""
import os
fork, left = os.fork, [1]
def second_fails():
    if not left:
        raise BlockingIOError(11, "Resource temporarily unavailable")
    left.pop()
    return fork()
os.fork = second_fails
""", "[Errno 11] Resource temporarily unavailable"), ("""
import threading
start = threading.Thread.start
def feeder_fails(thread):
    if thread.name.startswith("QueueFeeder"):
        raise RuntimeError("can't start new thread")
    start(thread)
threading.Thread.start = feeder_fails
""", "can't start new thread")]:
            code = f"{fault}\nfrom street_drill.__main__ import run\nrun()\n"
            outputs = ["--summary", self.out / "a.csv", "--page", self.out / "a.html"]
            command = [sys.executable, "-c", code, "region", self.depots, "--workers", "3", *outputs]
            ended = subprocess.run(command, cwd=PACKAGE, capture_output=True, text=True, timeout=60)
            last = f"street_drill: --workers: {told}; 1 needs no other thread or process"
            self.assertEqual((ended.returncode, ended.stderr.splitlines()[-1]), (2, last))

    def test_no_depot(self) -> None:
        self.assertIn("has no settings file", run("region", self.out)[2])

    def test_no_distributed(self) -> None:
        with unittest.mock.patch.dict(sys.modules, {"distributed": None}):
            status, _, errors = self.region("a", "--scheduler", "127.0.0.1:8786")
        self.assertEqual(status, 2)
        self.assertIn("needs the package distributed", errors)

    @unittest.skipUnless(importlib.util.find_spec("distributed"), "there is no distributed")
    def test_cluster(self) -> None:
        """Two workers of a Dask cluster, and the same bytes; every mistake is told from there too."""
        from distributed import LocalCluster

        def cluster(workers: int) -> LocalCluster:
            return LocalCluster(n_workers=workers, threads_per_worker=1, dashboard_address=None, silence_logs=50,
                                local_directory=str(self.out))

        self.region("one", "--workers", 1)
        with cluster(2) as two:
            self.assertEqual(self.region("two", "--scheduler", two.scheduler_address)[0], 0)
            (self.depots / "depot 0.toml").write_text("deck = 3")
            (self.depots / "depot 1.csv").write_text("street\n")
            self.assertEqual(self.region("three", "--scheduler", two.scheduler_address)[2].count("\n"), 2)
        for kind in ["csv", "html"]:
            self.assertEqual((self.out / f"one.{kind}").read_bytes(), (self.out / f"two.{kind}").read_bytes())
        with cluster(0) as none:
            errors = self.region("three", "--scheduler", none.scheduler_address)[2]
            self.assertIn("the scheduler has no workers", errors)
        self.assertIn("is no address", self.region("three", "--scheduler", "nowhere")[2])
