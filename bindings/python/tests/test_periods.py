"""Weeks and months of a course, and calendar days."""

import unittest
from datetime import date, timedelta

from street_drill.course import COLUMNS, Course, days_table, of_columns
from street_drill.facts import facts
from street_drill.periods import months, months_table, weeks, weeks_table

MONDAY = date(2026, 11, 23)


def course(days: int, first_day: date | None = None) -> Course:
    """Day n costs n minutes, and holds n streets."""
    values = {name: tuple(range(days)) for name in COLUMNS}
    return Course("round", {**values, "cost": tuple(60.0 * day for day in range(days))}, {}, first_day=first_day)


class Stretches(unittest.TestCase):
    def test_weeks(self) -> None:
        self.assertEqual([(each.name, each.days) for each in weeks(course(16))],
                         [("1", range(0, 7)), ("2", range(7, 14)), ("3", range(14, 16))])

    def test_months(self) -> None:
        self.assertEqual([each.days for each in months(course(70))], [range(0, 30), range(30, 60), range(60, 70)])
        dated = [(each.name, each.days) for each in months(course(70, MONDAY))]
        self.assertEqual(dated, [("Nov 2026", range(0, 8)), ("Dec 2026", range(8, 39)), ("Jan 2027", range(39, 70))])

    def test_whole(self) -> None:
        """Seven or thirty days, or the whole month of the calendar, in a leap year too."""
        self.assertEqual([each.is_whole for each in weeks(course(16))], [True, True, False])
        self.assertEqual([each.is_whole for each in months(course(70))], [True, True, False])
        self.assertEqual([each.is_whole for each in months(course(70, MONDAY))], [False, True, True])
        for year, leap in [(2027, False), (2028, True)]:
            whole = [each.is_whole for each in months(course(29, date(year, 2, 1)))]
            self.assertEqual(whole, [True] if leap else [True, False])
        last = date(9999, 12, 31)
        self.assertEqual([each.is_whole for each in months(course(32, last - timedelta(31)))], [False, True])


class Tables(unittest.TestCase):
    def test_weeks(self) -> None:
        """Sums of the week, but what stands at its end."""
        _, head, rows = weeks_table(course(16))
        self.assertEqual(head, ["week", "day", "days", *COLUMNS])
        told = dict(zip(head, rows[1]))
        self.assertEqual((told["week"], told["day"], told["days"]), ("2", 7, 7))
        self.assertEqual((told["learned"], told["cost"]), (sum(range(7, 14)), 60 * sum(range(7, 14))))
        self.assertEqual((told["introduced"], told["memorized"]), (13, 13))

    def test_dates(self) -> None:
        _, head, rows = weeks_table(course(16, MONDAY))
        self.assertEqual([dict(zip(head, row))["date"] for row in rows], ["2026-11-23", "2026-11-30", "2026-12-07"])
        _, head, rows = months_table(course(16, MONDAY))
        self.assertEqual([(row[0], row[2]) for row in rows], [("Nov 2026", "2026-11-23"), ("Dec 2026", "2026-12-01")])
        _, head, rows = days_table(course(16, MONDAY))
        self.assertEqual((head[:2], rows[8][:2]), (["day", "date"], (8, "2026-12-01")))

    def test_runs(self) -> None:
        """A week's percentiles are those of the runs' weeks, not sums of the days'."""
        runs = [{name: (number, 10 - number) * 7 for name in COLUMNS} for number in range(11)]
        _, head, rows = weeks_table(of_columns("round", runs))
        told = dict(zip(head, rows[0]))
        sums = [sum((number, 10 - number) * 4) - (10 - number) for number in range(11)]
        self.assertEqual((told["cost"], told["cost_first"]), (sum(sums) / 11, sums[0]))
        self.assertEqual((told["cost_p10"], told["cost_p90"]), (sums[1], sums[9]))


class Facts(unittest.TestCase):
    def test_weeks_and_months(self) -> None:
        told = dict(facts(course(70), None))
        self.assertEqual(told["first weeks"], "21 min, 1 h 10 min, 1 h 59 min, 2 h 48 min")
        self.assertEqual(told["worst week"], "week 10, from day 63, 7 h 42 min")
        self.assertEqual(told["mean week"], "4 h 02 min")
        self.assertEqual(told["first months"], "7 h 15 min, 22 h 15 min, 10 days: 10 h 45 min")
        self.assertEqual(told["mean month"], "14 h 45 min, of 2 whole months")
        self.assertEqual(told["worst month"], "month 2, from day 30, 22 h 15 min")

    def test_parts(self) -> None:
        """A part is told with its days, and is neither in the mean nor the worst."""
        told = dict(facts(course(27), None))
        self.assertEqual(told["first weeks"], "21 min, 1 h 10 min, 1 h 59 min, 6 days: 2 h 21 min")
        self.assertEqual(told["mean week"], "1 h 10 min, of 3 whole weeks")
        self.assertEqual(told["worst week"], "week 3, from day 14, 1 h 59 min")
        told = dict(facts(course(12), None))
        self.assertEqual(told["first weeks"], "21 min, 5 days: 45 min")
        self.assertEqual([label for label in told if "week" in label], ["first weeks"])

    def test_calendar(self) -> None:
        told = dict(facts(course(70, MONDAY), 40))
        self.assertEqual(told["span"], "70 days, 2026-11-23 to 2027-01-31")
        self.assertEqual(told["busiest day"], "2027-01-31 (day 69), 1 h 09 min")
        self.assertEqual(told["worst week"], "week 10, from 2027-01-25 (day 63), 7 h 42 min")
        self.assertEqual(told["first months"],
                         "Nov 2026 (8 days): 28 min, Dec 2026: 11 h 53 min, Jan 2027: 27 h 54 min")
        self.assertEqual(told["mean month"], "19 h 54 min, of 2 whole months")
        self.assertEqual(told["worst month"], "Jan 2027, from 2027-01-01 (day 39), 27 h 54 min")
        self.assertEqual(told["40 streets held to the end"], "from 2027-01-02 (day 40), seen for 30 days")

    def test_worst_of_runs(self) -> None:
        """The day that is most often the busiest is told with its count, and not at all where it is luck."""
        def busiest(*days: int) -> str:
            runs = [{name: tuple(60.0 * (place == day) for place in range(4)) for name in COLUMNS} for day in days]
            return dict(facts(of_columns("round", runs), None))["busiest day"]

        self.assertEqual(busiest(3, 1, 3), "1 min (1 min to 1 min), most often day 3, in 2 of 3 runs")
        self.assertEqual(busiest(3, 1, 2), "1 min (1 min to 1 min)")

    def test_short_spans(self) -> None:
        """One week has no first, mean or worst one."""
        self.assertEqual([label for label, _ in facts(course(7), None) if "week" in label or "month" in label], [])


if __name__ == "__main__":
    unittest.main()
