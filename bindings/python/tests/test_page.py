"""The page, and listings of the program as its source."""

import html
import html.parser
import json
import math
import re
import shutil
import subprocess
import tempfile
import unittest
import xml.etree.ElementTree
from dataclasses import replace
from datetime import date, timedelta
from pathlib import Path

from street_drill import Mistake, forecasts, settings, simulate
from street_drill.axes import BOTTOM, TOP, axis
from street_drill.course import COLUMNS, Course, duration, of_columns, of_runs, opening
from street_drill.listing import of_text
from street_drill.page import _beside, page
from street_drill.picture import TITLES
from street_drill.series import smoothed, window

from .common import LISTING, PACKAGE, printed
from .test_command import run

EXAMPLE = settings.read(str(PACKAGE / "examples" / "new_round.toml"))
VOID = {"meta", "line", "path", "input"}


def runs_of(name: str, count: int) -> Course:
    return of_runs(name, [simulate(EXAMPLE.config, EXAMPLE.parameters, seed=7 + number) for number in range(count)])


def figures(text: str) -> dict[tuple[str, str], str]:
    """The pictures by view and column."""
    found = re.findall(r'<figure [^>]*data-view="(\w+)" data-column="(\w+)".*?(<svg viewBox="0 0 480.*?</svg>)', text)
    return {(view, column): picture for view, column, picture in found}


def told(text: str) -> dict:
    """What the script is given."""
    return json.loads(re.search(r'type="application/json">(.*?)</script>', text)[1])


class Elements(html.parser.HTMLParser):
    """Elements that are closed in the order of their opening, and what would be fetched."""

    def __init__(self, text: str) -> None:
        super().__init__()
        self.open: list[str] = []
        self.wrong: list[str] = []
        self.feed(text)

    def handle_starttag(self, tag: str, attributes) -> None:
        self.wrong += [f"{tag} {name}" for name, _ in attributes if name in ("src", "href")]
        if tag not in VOID:
            self.open.append(tag)

    def handle_startendtag(self, tag: str, attributes) -> None:
        pass

    def handle_endtag(self, tag: str) -> None:
        if not self.open or self.open.pop() != tag:
            self.wrong.append(tag)


class Page(unittest.TestCase):
    def check(self, text: str) -> list[xml.etree.ElementTree.Element]:
        elements = Elements(text)
        self.assertEqual((elements.wrong, elements.open), ([], []))
        self.assertNotRegex(text, r"https?:|url\(|@import")
        pictures = re.findall(r"<svg.*?</svg>", text)
        self.assertNotRegex("".join(pictures), r"\b(nan|inf)\b")
        return [xml.etree.ElementTree.fromstring(picture) for picture in figures(text).values()]

    def paths(self, text: str, view: str, column: str) -> dict[str, str]:
        """The lines and bands of a picture by their classes."""
        picture = xml.etree.ElementTree.fromstring(figures(text)[view, column])
        return {path.get("class"): path.get("d") for path in picture.iter("path")}

    def test_pictures(self) -> None:
        text = page([runs_of("round", 5)], 80)
        self.check(text)
        self.assertEqual(list(figures(text)), [(view, column) for column in TITLES for view in ("day", "week")])
        for view, column in figures(text):
            drawn = self.paths(text, view, column)
            kinds = ["band c0 l0", "first c0 l0", "course c0 l0"]
            jumps = view == "day" and column != "memorized"
            self.assertEqual(list(drawn), kinds + ["smooth c0 l0"] * jumps)
            numbers = map(float, re.findall(r"[\d.]+", " ".join(drawn.values())))
            self.assertTrue(all(0 <= number <= 480 for number in numbers))
        self.assertRegex(figures(text)["day", "memorized"], r"80 streets<.*>day 10\? in all 5 runs<")

    def test_weeks(self) -> None:
        """A week's sums, what stands at its end, and no number for the two days that are left."""
        course = runs_of("round", 3)
        weeks = told(page([course]))["views"]["week"]["courses"][0]
        costs = [sum(course.bands["cost"].mean[first : first + 7]) for first in (0, 7, 14, 21)]
        self.assertEqual(weeks["cost"], [*[round(cost, 2) for cost in costs], None])
        held = course.bands["memorized"].mean
        self.assertEqual(weeks["memorized"], [round(held[day], 2) for day in (6, 13, 20, 27, 29)])
        lows = [sorted(sum(run["cost"][:7]) for run in course.each)[place] for place in (0, 1)]
        self.assertEqual(weeks["cost_p10"][0], round(0.8 * lows[0] + 0.2 * lows[1], 2))

    def test_months_of_the_calendar(self) -> None:
        """From 23 November for 90 days: December and January are whole."""
        columns = {name: (1.0,) * 90 for name in COLUMNS}
        dated = Course("round", columns, {}, first_day=date(2026, 11, 23))
        months = told(page([dated]))["views"]["month"]["courses"][0]
        self.assertEqual(months["month"], ["Nov 2026", "Dec 2026", "Jan 2027", "Feb 2027"])
        self.assertEqual(months["cost"], [None, 31, 31, None])
        numbered = told(page([Course("round", columns, {})]))["views"]["month"]["courses"][0]
        self.assertEqual((numbered["month"], numbered["cost"]), (["1", "2", "3"], [30, 30, 30]))

    def test_a_week_alone(self) -> None:
        """There is nothing to choose where there is but one whole week."""
        text = page([Course("round", {name: (1.0,) * 13 for name in COLUMNS}, {})])
        self.assertEqual(list(told(text)["views"]), ["day"])
        self.assertNotIn('type="radio"', text)

    def test_dates(self) -> None:
        course = replace(runs_of("round", 1), first_day=date(2026, 11, 23))
        text = page([course], 80)
        picture = figures(text)["day", "memorized"]
        self.assertIn(">23 Nov<", picture)
        day = opening(course.columns["memorized"], 80)
        self.assertIn(f">{(course.first_day + timedelta(day)).isoformat()}?<", picture)

    def test_different_first_days(self) -> None:
        """The pictures number the days, since a place there is no one date; the tables and the answers have dates."""
        course = Course("round", {name: (100.0,) * 90 for name in COLUMNS}, {})
        dated = [replace(course, first_day=date(2026, month, 23)) for month in (10, 11)]
        for courses in [dated, [dated[0], course]]:
            text = page(courses, 80)
            self.check(text)
            pictures = figures(text)
            self.assertNotRegex("".join(pictures.values()), r">\d+ (Oct|Nov)<|>(Oct|Nov) 2026<|>2026-")
            self.assertIn(">day 0<", pictures["day", "memorized"])
            self.assertEqual(told(text)["views"]["month"]["courses"][0]["month"], ["1", "2", "3"])
            self.assertNotIn('"date"', re.search(r'type="application/json">(.*?)</script>', text)[1])
            self.assertIn("in the pictures days count from each one's own first", text)
            self.assertIn("from 2026-10-23 (day 0), seen for 90 days", text)
            self.assertIn("<td>2026-10-23</td>", text)
        self.assertNotIn("each one's own first", page([course, course]))

    def test_mark_of_the_day(self) -> None:
        """Courses that come to so many streets have a dot each; their days are told where they have room."""
        course = runs_of("round", 1)
        for count, told_of in [(2, 2), (5, 0)]:
            picture = figures(page([course] * count, 80))["day", "memorized"]
            self.assertEqual(picture.count("<circle"), count)
            self.assertEqual(picture.count(">day 10?<"), told_of)
        self.assertNotIn("<circle", figures(page([course], 121))["day", "memorized"])

    def test_marks_as_the_text_has_them(self) -> None:
        """Of several runs the days on which half, nine of ten and all stay, with a ? where the end is too near."""
        runs = [{name: (0.0,) * day + (10.0,) * (100 - day) for name in COLUMNS} for day in [*range(1, 10), 75]]
        text = page([of_columns("round", runs)], 10)
        marks = re.findall(r">(day [^<]*)</text>", figures(text)["day", "memorized"])
        self.assertEqual(marks, ["day 5 in 5 of 10 runs", "day 9 in 9 of 10 runs", "day 75? in all 10 runs"])
        self.assertIn("in 5 of 10 runs from day 5, seen for 95 days, in 9 of 10 runs from day 9, seen for 91 days; "
                      "too near the span&#x27;s end to tell (run a longer span): in all 10 runs from day 75, seen for "
                      "25 days<", text)
        self.assertIn("A day with ? is too near the span's end", text)

    def test_mark_by_week(self) -> None:
        """Day 10 of a straight line is at 11 streets, and its dot lies on the line of the weeks' ends."""
        text = page([Course("line", {name: tuple(range(1, 29)) for name in COLUMNS}, {})], 11)
        dot = re.search(r'<circle class="dot c0 l0" cx="([\d.]+)" cy="([\d.]+)"', figures(text)["week", "memorized"])
        points = re.findall(r"([\d.]+) ([\d.]+)", self.paths(text, "week", "memorized")["course c0 l0"])
        (left, low), (right, high) = [tuple(map(float, point)) for point in points[:2]]
        x, y = float(dot[1]), float(dot[2])
        self.assertAlmostEqual(low + (x - left) / (right - left) * (high - low), y, delta=0.2)

    def test_a_line_for_each(self) -> None:
        courses = [runs_of(f"round <{number}>", 1) for number in range(10)]
        text = page(courses)
        self.check(text)
        for column in TITLES:
            drawn = self.paths(text, "day", column)
            self.assertEqual(sum(kind.startswith("course ") for kind in drawn), 10)
        self.assertEqual(text.count('<table class="days">'), 3 * 10)
        self.assertNotIn("<0>", text)

    def test_lines_are_switched_off(self) -> None:
        """Every picture's legend has a switch for each line; one course has none."""
        text = page([runs_of("north", 3), runs_of("south", 3)])
        legends = re.findall(r'<div class="legend">(.*?)</div>', text)
        self.assertEqual(len(legends), len(figures(text)))
        for legend in legends:
            self.assertEqual(re.findall(r'data-line="(\d)" checked><svg.*?</svg>(\w+)', legend),
                             [("0", "north"), ("1", "south")])
            self.assertIn("band: tenth to ninetieth percentile", legend)
        self.assertIn('body:has([data-line="1"]:not(:checked)) .l1 { display: none }', text)
        self.assertNotIn("data-line=", page([runs_of("north", 3)]).split("<script>")[0])

    def test_smoothed(self) -> None:
        self.assertEqual(smoothed([0, 0, 7, 0, 0, 0, 0, 14], 3), [0, 7 / 3, 7 / 3, 7 / 3, 0, 0, 14 / 3, 7])
        self.assertEqual(smoothed([1.0, math.nan], 7), [])
        self.assertEqual([window(days) for days in (20, 21, 700, 701, 36_500)], [0, 7, 7, 30, 365])

    def test_summary(self) -> None:
        for count in [1, 2, 4]:
            text = page([runs_of("round", 1), *[runs_of("other", 3)] * (count - 1)], 80)
            self.check(text)
            # The one run's, and those of three.
            self.assertEqual(len(re.findall(r": from day \d+, seen for \d+ days<", text)), 1)
            self.assertEqual(text.count(": in all 3 runs from day"), count - 1)

    def tables(self, text: str) -> dict[str, str]:
        """The tables by their names."""
        return dict(re.findall(r"<details class=.rows[^>]*><summary>(.*?)</summary>(.*?)</details>", text, re.DOTALL))

    def test_tables(self) -> None:
        course = runs_of("round", 3)
        tables = self.tables(page([course]))
        self.assertEqual(list(tables), ["round by week", "round by month", "round"])
        for table in tables.values():
            self.assertEqual(len(re.findall('<th class="added"[^>]*>first</th>', table)), len(COLUMNS))
        seconds, held = course.bands["cost"].p90[3], course.bands["memorized"].p90[3]
        self.assertIn(f'<td data-seconds="{seconds:.2f}">{duration(seconds)}</td>', tables["round"])
        self.assertIn(f"<td>{held:.2f}</td>", tables["round"])

    def test_given_tables(self) -> None:
        """They stand before the course's own, and open."""
        text = page([runs_of("round", 1)], tables=[("Depots", ["depot"], [["north"]])])
        self.assertEqual(re.findall(r'<details class="rows"( open)?><summary>(\w+)', text)[:2],
                         [(" open", "Depots"), ("", "round")])

    def test_values_at_the_pointer(self) -> None:
        course = runs_of("</script>", 3)
        given = told(page([course]))
        self.assertEqual(given["names"], ["</script>"])
        self.assertEqual(given["views"]["day"]["courses"][0]["learned_first"], list(course.columns["learned"]))

    def test_many_days(self) -> None:
        """Lines are thinned and keep the extremes; the rows are left to the script, but for 1,000 days."""
        costs = [100.0] * 36_500
        costs[20_010], costs[30_020] = 5000.0, 0.0
        text = page([Course("century", {name: tuple(costs) for name in COLUMNS}, {})])
        self.check(text)
        drawn = self.paths(text, "day", "cost")["course c0 l0"]
        heights = [float(height) for height in re.findall(r" ([\d.]+)", drawn)]
        self.assertLess(len(heights), 1100)
        # The axis ends at an hour and a half.
        highest = BOTTOM - 5000 / 5400 * (BOTTOM - TOP)
        self.assertEqual((min(heights), max(heights)), (round(highest, 1), BOTTOM))
        self.assertNotIn("<td", self.tables(text)["century"])
        self.assertLess(len(text), 5_000_000)
        short = page([Course("short", {name: tuple(costs[:1000]) for name in COLUMNS}, {})])
        self.assertEqual(self.tables(short)["short"].count("<td"), 1000 * 8)

    def test_no_numbers(self) -> None:
        for value in [math.nan, math.inf, 0.0, 3.4e38, 1e-45]:
            for span in [1, 2, 5]:
                column = (value, 1.0, value, value, 2.0)[:span]
                self.check(page([Course("odd", {name: column for name in COLUMNS}, {})], 3))

    def test_marks(self) -> None:
        for most in [1e-45, 0.3, 1, 7, 59, 86_400, 1e7, 3.4e38]:
            for time in [False, True]:
                marks = axis(most, time)
                self.assertTrue(2 <= len(marks) <= 7 and marks[0] == 0, (most, time, marks))
                self.assertLessEqual(most, marks[-1] * (1 + 1e-6))


@unittest.skipUnless(shutil.which("node"), "there is no node")
class Script(unittest.TestCase):
    """What the page's script says, without a page."""

    # A page of no pictures and no tables.
    PAGE = """const document = { getElementById: () => ({ textContent: process.argv[1] }), addEventListener: () => {},
                                 querySelectorAll: () => [] };
              const addEventListener = () => {};"""

    def said(self, values: dict, expressions: list[str]) -> list:
        script = f"{self.PAGE}\n{_beside('page.js')}\nconsole.log(JSON.stringify([{', '.join(expressions)}]))"
        ended = subprocess.run(["node", "--eval", script, json.dumps(values)], capture_output=True, text=True)
        self.assertEqual(ended.stderr, "")
        return json.loads(ended.stdout)

    def test_durations(self) -> None:
        seconds = [0.0, 12.4, 59.4, 60.0, 3599.0, 3660.0, 12_345.6, 9e6]
        self.assertEqual(self.said({}, [f"duration({each})" for each in seconds]), [duration(each) for each in seconds])

    def test_names_and_values(self) -> None:
        values = told(page([replace(runs_of("round", 3), first_day=date(2026, 11, 23))]))
        figure = "{{ dataset: {{ view: '{}', column: 'cost' }} }}".format
        course = values["views"]["week"]["courses"][0]
        self.assertEqual(
            self.said(values, [f"nameOf({figure('day')}, 12)", f"nameOf({figure('week')}, 1)",
                               f"shown({course['cost'][1]}, {figure('week')})", f"shown(null, {figure('week')})",
                               "cell(16, { dataset: { digits: '2' } })", "cell(16, { dataset: {} })",
                               "read(90, { dataset: { digits: '2', time: '' } })", "read(90, { dataset: {} })",
                               "read(null, { dataset: { time: '' } })"]),
            ["day 12, 2026-12-05", "week 2, from day 7, 2026-11-30", duration(course["cost"][1]), "no whole week",
             "16.00", "16", "2 min", "90", "no number"])


@unittest.skipUnless(shutil.which("chromium"), "there is no chromium")
class Browser(unittest.TestCase):
    """The page in a browser; what a script finds there is told as the page's title."""

    def found(self, text: str, script: str, window: str = "1280,900") -> tuple[list, float]:
        """What the script gives, and the seconds until the page was laid out."""
        told = """<script>addEventListener("load", () => {
            document.body.getBoundingClientRect();
            const took = performance.now();
            document.title = JSON.stringify([(() => { %s })(), took]);
        });</script></body>""" % script
        with tempfile.TemporaryDirectory() as folder:
            file = Path(folder) / "page.html"
            file.write_text(text.replace("</body>", told))
            browser = ["chromium", "--headless=new", "--no-sandbox", "--disable-gpu", f"--window-size={window}",
                       f"--user-data-dir={folder}/profile", "--dump-dom"]
            shown = subprocess.run([*browser, file.as_uri()], capture_output=True, text=True).stdout
        if not shown:
            self.skipTest("chromium does not start")
        result, took = json.loads(html.unescape(re.search("<title>(.*?)</title>", shown)[1]))
        return result, took / 1000

    # Moves the pointer over a picture, and gives what is told there and how many dots there are.
    POINT = """const point = (figure, share) => {
            const box = figure.querySelector(":scope > svg").getBoundingClientRect();
            const place = { clientX: box.left + box.width * share, clientY: box.top + 50 };
            figure.querySelector(":scope > svg").dispatchEvent(new PointerEvent("pointermove", place));
            const tip = [...figure.querySelector(".tip").children].map((row) => row.textContent);
            return [tip, document.querySelectorAll("circle.dot").length];
        };
        const at = (view, column) => document.querySelector(`figure[data-view=${view}][data-column=${column}]`);"""

    def test_values_at_the_pointer(self) -> None:
        course = runs_of("round", 1)
        said, _ = self.found(page([course]), f"""{self.POINT}
            const day = point(at("day", "cost"), 0.568);
            at("day", "cost").querySelector(":scope > svg").dispatchEvent(new PointerEvent("pointerleave"));
            document.querySelector("[value=week]").click();
            return [day, point(at("week", "cost"), 0.568), getComputedStyle(at("day", "cost")).display];""")
        costs = course.columns["cost"]
        self.assertEqual(said, [[["day 15", duration(costs[15])], 5],
                                [["week 3, from day 14", duration(sum(costs[14:21]))], 5], "none"])

    def test_lines_are_switched_off(self) -> None:
        """In every picture and at the pointer, by one click on one legend."""
        courses = [runs_of("north", 1), runs_of("south", 1)]
        said, _ = self.found(page(courses), f"""{self.POINT}
            at("day", "cost").querySelector("[data-line='0']").click();
            const shown = (line) => getComputedStyle(document.querySelector(line)).display;
            return [point(at("day", "memorized"), 0.568),
                    shown("[data-column=due] .l0"), shown("[data-column=due] .l1"),
                    [...document.querySelectorAll("[data-line='0']")].some((each) => each.checked)];""")
        held = courses[1].columns["memorized"][15]
        self.assertEqual(said, [[["day 15", f"south {round(held, 1):g}"], 5], "none", "inline", False])

    def test_narrow(self) -> None:
        """Nothing reaches beyond the edge; the answer stands in the first window, on a line of its own."""
        for count in [1, 3, 5]:
            courses = [runs_of(f"round {number}", 3) for number in range(count)]
            said, _ = self.found(page(courses, 100), """
                const html = document.documentElement;
                const answer = [...document.querySelectorAll("dd, .facts td")]
                    .find((each) => each.textContent.includes("from day"));
                const box = answer.getBoundingClientRect();
                return [html.scrollWidth <= html.clientWidth, box.bottom < 844, box.width > 400];""", "500,844")
            self.assertEqual(said, [True, True, True], count)

    def test_smoothed(self) -> None:
        said, _ = self.found(page([runs_of("round", 1)]), """
            const shown = () => getComputedStyle(document.querySelector("[data-column=cost] .smooth")).display;
            const before = shown();
            document.querySelector("[name=smooth]").click();
            return [before, shown()];""")
        self.assertEqual(said, ["none", "inline"])

    def test_paper(self) -> None:
        """The tables are opened when the page is printed."""
        said, _ = self.found(page([runs_of("round", 1)]), """
            const opened = () => [...document.querySelectorAll("details.rows")].map((each) => each.open);
            const before = opened();
            dispatchEvent(new Event("beforeprint"));
            return [before, opened()];""")
        self.assertEqual(said, [[False] * 3, [True] * 3])

    def test_many_days(self) -> None:
        """36,500 days of five runs stand within three seconds; a table has its rows when it is opened."""
        config = replace(EXAMPLE.config, learn_span=36_500)
        made = forecasts(config, EXAMPLE.parameters, seeds=range(7, 12), with_cards=False)
        course = of_runs("century", made)
        said, took = self.found(page([course], 100), """
            const rows = [...document.querySelectorAll("details.rows")].at(-1);
            const cells = () => rows.querySelectorAll("td").length;
            const before = cells();
            rows.open = true;
            rows.dispatchEvent(new Event("toggle"));
            const select = rows.querySelector("select");
            select.value = 36000;
            select.dispatchEvent(new Event("change"));
            const last = [...rows.querySelectorAll("tbody tr:last-child td")].map((cell) => cell.textContent);
            return [before, cells(), select.options.length, last[0], last.at(-4)];""")
        self.assertEqual(said, [0, 500 * 29, 37, "36499", f"{course.bands['memorized'].mean[-1]:.2f}"])
        self.assertLess(took, 3)


class Listings(unittest.TestCase):
    def test_as_the_forecast(self) -> None:
        told = of_text("round.txt", printed("forecast", LISTING))
        course = runs_of("round", 1)
        self.assertEqual(told.columns, {name: course.columns[name] for name in COLUMNS if name != "due"})

    def test_places(self) -> None:
        good = printed("forecast", LISTING)
        for text, place in {
            "": "l.txt: line 1: is not the first line",
            "(refused 2 0)\n": "l.txt: line 1: refused 2 0: the deck is 0 or above 512",
            "(refused 8 3)\n": "l.txt: line 1: refused 8 3: more than 4,096 different intervals are needed",
            good.replace("(day 4 ", "(day 5 "): "l.txt: line 6: is not the line of day 4",
            good + good: "l.txt: line 32: 30 days were forecast, and 61 lines follow",
            good.replace("(cost 4", "(cost x", 1): "l.txt: line 2: is not the line of day 0",
            good.replace("(forecast 30", "(forecast 9999999999"): "l.txt: line 1: is not the first line",
        }.items():
            with self.assertRaises(Mistake) as caught:
                of_text("l.txt", text)
            self.assertIn(place, str(caught.exception))

    def test_command(self) -> None:
        with tempfile.TemporaryDirectory() as folder:
            listing = Path(folder) / "round.txt"
            listing.write_text(printed("forecast", LISTING))
            self.assertEqual(run("page", listing, "--open", 80)[0], 0)
            self.assertEqual(len(figures(listing.with_suffix(".html").read_text())), 2 * 4)
            self.assertEqual(run("page", listing, "--page", listing.parent)[0], 2)
