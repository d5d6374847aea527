"""case best --calendar: orders from the windows of a year, days by their first hour and by their date, refusals with
the lines at fault, files that are none."""

import csv
import io
import json
import os
import random
import re
import struct
import sys
import zoneinfo
from dataclasses import replace
from datetime import date, datetime, timedelta
from unittest import mock

from tool import BELOW_ZERO, CASE_7, CASES, FAKE, ROOT, SOURCE, PictureTest, file_of, giqapsun, texts

from calendars import Calendar
from dates import Span, span_of
from windows import Year
from words import ORDERS

REFUSALS = texts("refusals.tsv")
MADRID = ("--zone", "Europe/Madrid")

# zones by the rule that each keeps in every year: their clocks change by an hour, by half an hour, at midnight, by two
ZONES = {
    "Europe/Madrid": "CET-1CEST,M3.5.0,M10.5.0/3",
    "Australia/Lord_Howe": "<+1030>-10:30<+11>-11,M10.1.0,M4.1.0",
    "Africa/Cairo": "EET-2EEST,M4.5.5/0,M10.5.4/24",
    "America/Havana": "CST5CDT,M3.2.0/0,M11.1.0/1",
    "Antarctica/Troll": "<+00>0<+02>-2,M3.5.0/1,M10.5.0/3",
}


def zone_file(rule):
    """The file of a zone that has one rule and no history."""
    block = struct.pack(">4sc15x6IiBB4s", b"TZif", b"2", 0, 0, 0, 0, 1, 4, 0, 0, 0, b"LMT\0")
    return block + block + f"\n{rule}\n".encode()


def year_text(*windows):
    """The file of windows, each an order, a first hour and a number of hours."""
    return "order,first,hours\n" + "".join(f"{order},{first},{hours}\n" for order, first, hours in windows)


def day_case(hours, **changes):
    """The source's unit with so many free hours, its prices beginning again where they end."""
    case = giqapsun.read(SOURCE)
    return replace(case, **{"prices": (case.prices * 7)[:hours], "orders": [0] * hours, **changes})


def filled(windows, first, hours):
    """The orders of a day, hour by hour."""
    held = {hour: order for order, start, length in windows for hour in range(start, start + length)}
    return [ORDERS.index(held.get(first + k, "free")) for k in range(hours)]


class CalendarTest(PictureTest):
    """A test that runs `case best` with a calendar."""

    def run_best(self, windows, *words, case=SOURCE, **more):
        """Status, standard output and standard error; windows are those of y.csv, or its text."""
        self.file("y.csv", windows if isinstance(windows, str) else year_text(*windows))
        self.file("d.case", case if isinstance(case, bytes) else giqapsun.write(case))
        return self.run_tool("best", "d.case", "--calendar", "y.csv", *words, **{"GIQAPSUN_BEST_DAY": "", **more})

    def best(self, windows, *words, case=SOURCE):
        """What is printed."""
        status, printed, message = self.run_best(windows, *words, case=case)
        self.assertEqual((status, message), (0, ""))
        return printed.decode()

    def day(self, windows, *words, case=SOURCE):
        """The answer for a program."""
        return json.loads(self.best(windows, *words, "--json", case=case))

    def orders(self, windows, *words, case=SOURCE):
        """The orders of the day."""
        return [ORDERS.index(hour["order"]) for hour in self.day(windows, *words, case=case)["hours"]]

    def faulty(self, message, windows, *words, **more):
        """The fault that is named."""
        with self.subTest(message=message):
            lines = "".join(f"case: {line}\n" for line in message.splitlines())
            self.assertEqual(self.run_best(windows, *words, **more), (2, b"", lines))

    def refused(self, number, details, windows, *words, files="y.csv", **more):
        """The refusal, and what is said of it."""
        self.faulty("\n".join([f"{files}: refused {number}: {REFUSALS[number]}", *details]), windows, *words, **more)

    def zones(self, **files):
        """Zone data of the test's own, in place of the machine's."""
        folder = self.folder / "zones"
        for name, rule in ZONES.items():
            (folder / name).parent.mkdir(parents=True, exist_ok=True)
            (folder / name).write_bytes(zone_file(rule))
        for name, data in files.items():
            (folder / name).write_bytes(data)
        self.zone_data(folder)

    def zone_data(self, folder):
        """Zone data from a folder, and from no package."""
        self.addCleanup(_read_zones_again)
        self.enterContext(mock.patch.dict(os.environ, PYTHONTZPATH=str(folder.resolve())))
        self.enterContext(mock.patch.dict(sys.modules, {"tzdata": None, "tzdata.zoneinfo": None}))
        _read_zones_again()


def _read_zones_again():
    zoneinfo.reset_tzpath()
    zoneinfo.ZoneInfo.clear_cache()


class Filled(CalendarTest):
    """Which hours a window orders."""

    def test_first_and_last_hour(self):
        """A window holds its first hour and not the hour after its last; hours in no window are free."""
        self.assertEqual(self.orders([("on", 102, 3)], "--first", "100"), [0, 0, 1, 1, 1] + [0] * 19)
        self.assertEqual(self.orders([("on", 90, 10)], "--first", "100"), [0] * 24)
        self.assertEqual(self.orders([("on", 90, 11)], "--first", "100"), [1] + [0] * 23)
        self.assertEqual(self.orders([("on", 124, 1)], "--first", "100"), [0] * 24)
        self.assertEqual(self.orders([("on", 123, 9)], "--first", "100"), [0] * 23 + [1])
        self.assertEqual(self.orders([("on", 0, 8784)], "--first", "100"), [1] * 24)

    def test_windows_that_touch(self):
        """In one list and across the two."""
        windows = [("on", 100, 2), ("on", 102, 2), ("off", 108, 4), ("off", 112, 3), ("on", 115, 6)]
        free = [0] * 3
        self.assertEqual(self.orders(windows, "--first", "100"), [1] * 4 + [0] * 4 + [2] * 7 + [1] * 6 + free)

    def test_no_windows(self):
        """The first line alone: every hour is free."""
        for case in (SOURCE, BELOW_ZERO):
            free = replace(giqapsun.read(case), orders=[0] * 24)
            self.assertEqual(self.day([], "--first", "0", case=case)["profit_half_mills"], giqapsun.best(free).profit)
        self.assertEqual(self.orders("\ufefforder , first,hours\r\n\r\n", "--first", "0"), [0] * 24)

    def test_ends_of_the_year(self):
        windows = [("on", 0, 1), ("on", 8783, 1)]
        self.assertEqual(self.orders(windows, "--first", "0"), [1] + [0] * 23)
        self.assertEqual(self.orders(windows, "--first", "8760"), [0] * 23 + [1])

    def test_any_mixture(self):
        """Lines of the two orders and columns in any order."""
        text = "hours,order,first\n4,off,112\n2,on,100\n3,off,200\n3,on,120\n"
        self.assertEqual(self.orders(text, "--first", "100"), [1, 1] + [0] * 10 + [2] * 4 + [0] * 4 + [1] * 3 + [0])

    def test_lengths(self):
        """23, 24 and 25 hours, as many as the case or as is said."""
        for hours in giqapsun.DAY_HOURS:
            for words in ((), ("--hours", str(hours))):
                answer = self.day([("on", 7, 2)], "--first", "7", *words, case=day_case(hours))
                self.assertEqual((len(answer["hours"]), answer["calendar"]["hours"]), (hours, hours))

    def test_random_years(self):
        """The day is the best one with the orders of the windows, and each hour has its window."""
        chance = random.Random(5)
        found = 0
        for _ in range(60):
            windows, at = [], 0
            while at < 150:
                windows.append((chance.choice(("on", "off")), at + chance.choice((0, 2, 9)), chance.randint(1, 9)))
                at = windows[-1][1] + windows[-1][2]
            first, hours = chance.randint(0, 120), chance.choice(giqapsun.DAY_HOURS)
            own = [chance.randint(0, 2) for _ in range(hours)]
            case = day_case(hours, initial=0, orders=own, rise=[112], fall=[112])
            orders = filled(windows, first, hours)
            status, printed, _ = self.run_best(windows, "--first", str(first), "--json", case=case)
            answer = json.loads(printed)
            try:
                plan = giqapsun.best(replace(case, orders=orders))
            except giqapsun.Refusal as refused:
                self.assertEqual((status, answer["refused"]), (2, refused.number))
                continue
            found += 1
            self.assertEqual(answer["profit_half_mills"], plan.profit)
            self.assertEqual([hour["output"] for hour in answer["hours"]], plan.outputs)
            self.assertEqual([ORDERS.index(hour["order"]) for hour in answer["hours"]], orders)
            for k, hour in enumerate(answer["hours"]):
                window = hour["order"], hour["window_first"], hour["window_hours"]
                self.assertEqual(hour["year_hour"], first + k)
                if hour["order"] == "free":
                    self.assertEqual((window[1:], hour["window_line"]), ((None, None), None))
                else:
                    self.assertEqual(windows[hour["window_line"] - 2], window)
                    self.assertIn(first + k, range(window[1], window[1] + window[2]))
        self.assertIn(found, range(10, 60))


class Printed(CalendarTest):
    """The table, the answer for programs, and the case's own orders."""

    def test_table(self):
        lines = self.best([("on", 3146, 5), ("off", 3164, 32)], "--first", "3143").splitlines()
        self.assertTrue(lines[0].endswith("  window (first+hours)"))
        self.assertEqual(lines[3], "   3  free          22.209          112         112.0     -1,868.5920")
        for k, line in [
            (4, "   4  on            21.219          112         112.0     -1,979.4720  3146+5, line 2"),
            (24, "  24  off           25.850            0           0.0          0.0000  3164+32, line 3"),
        ]:
            self.assertEqual(lines[k], line)
        self.assertEqual(lines[25:], [
            "total                                         3,891.0      6,226.4030", "profit 12452806 half-mills",
            "calendar y.csv: 24 hours, 3143 to 3166 of the year", "read by the library; found by the library",
        ])

    def test_own_orders(self):
        """They are replaced, and a line says so if any is not free."""
        said = "the case's own orders are replaced: on-line at hour 11"
        self.assertEqual(self.best([], "--first", "0", case=BELOW_ZERO).splitlines()[-2], said)
        self.assertEqual(self.day([], "--first", "0", case=BELOW_ZERO)["calendar"]["replaced"], [
            {"hour": 11, "order": "on"},
        ])
        status, printed, message = self.run_best([], "--first", "0", "--csv", case=BELOW_ZERO)
        self.assertEqual((status, message), (0, f"case: {said}\n"))
        self.assertNotIn(b",on,", printed)
        self.assertNotIn("replaced", self.best([], "--first", "0"))
        self.assertEqual(self.day([], "--first", "0")["calendar"]["replaced"], [])
        text = self.best([], "--first", "0", case=day_case(24, orders=[1, 1, 0, 2] + [0] * 20))
        self.assertIn("replaced: on-line at hours 1 to 2; off-line at hour 4\n", text)

    def test_json(self):
        answer = self.day([("on", 3146, 5), ("off", 3164, 32)], "--first", "3143")
        self.assertEqual(list(answer), [
            "profit_half_mills", "profit_dollars", "energy_half_mwh", "stop_after_day", "opening_after", "calendar",
            "hours", "read_by", "found_by",
        ])
        self.assertEqual(answer["calendar"], {
            "file": "y.csv", "first": 3143, "hours": 24, "date": None, "zone": None, "replaced": [],
        })
        self.assertEqual(answer["hours"][3], {
            "hour": 4, "order": "on", "price_mills": 21219, "output": 112, "energy_half_mwh": 224,
            "earnings_half_mills": -3958944, "earnings_dollars": "-1979.4720", "year_hour": 3146,
            "window_first": 3146, "window_hours": 5, "window_line": 2,
        })

    def test_csv(self):
        """The columns of the calendar stand last, and the table is a list for check."""
        text = self.best([("on", 3146, 5), ("off", 3164, 32)], "--first", "3143", "--csv")
        plain = self.answered("best", "d.case", "--csv", GIQAPSUN_BEST_DAY="").decode().splitlines()[0]
        columns = "year_hour,window_first,window_hours,window_line,date,zone"
        self.assertEqual(text.splitlines()[0], f"{plain},{columns}")
        rows = list(csv.DictReader(io.StringIO(text)))
        self.assertEqual([rows[3][name] for name in columns.split(",")], ["3146", "3146", "5", "2", "", ""])
        self.assertEqual([rows[2][name] for name in columns.split(",")], ["3145", "", "", "", "", ""])
        status, printed, message = self.run_tool("check", "d.case", "-", given=text.encode())
        self.assertEqual((status, message), (0, ""))
        self.assertIn(b"passes: earns $6,226.4030 ", printed)

    def test_without_a_calendar(self):
        """Nothing is added."""
        answer = json.loads(self.answered("best", self.file("d.case", SOURCE), "--json", GIQAPSUN_BEST_DAY=""))
        self.assertNotIn("calendar", answer)
        self.assertNotIn("year_hour", answer["hours"][0])

    def test_page(self):
        """What docs/readers/trading-desk.md shows of the stored windows is printed, in its order, and its file is the
        stored one."""
        self.zones()
        os.symlink(CASES, self.folder / "cases")
        page = (ROOT / "docs/readers/trading-desk.md").read_text()
        self.assertIn("\n    " + "    ".join((CASES / "year.csv").read_text().splitlines(keepends=True)), page)
        shown = re.findall(r"\n    tools/case/case (best cases/source.case --calendar .*)\n\n((?:    .*\n)+)", page)
        self.assertEqual([len(text.splitlines()) for _, text in shown], [12, 1])
        for command, text in shown:
            _, printed, message = self.run_tool(*command.split(), GIQAPSUN_BEST_DAY="")
            said = iter((printed.decode() + message).splitlines())
            for line in text.splitlines():
                self.assertIn(line.removeprefix("    "), said)

    def test_faults_of_the_page(self):
        """The faults that the page shows are said."""
        page = (ROOT / "docs/readers/trading-desk.md").read_text().replace("year.csv", "y.csv")
        unsorted = [("off", 1008, 168), ("on", 1176, 12), ("off", 2000, 1), ("on", 1180, 2)]
        both = [("off", 1008, 168), ("on", 1176, 12), ("on", 2066, 6), ("on", 3146, 5), ("off", 3150, 2)]
        for given in (unsorted, both):
            _, _, message = self.run_best(given, "--first", "3143")
            self.assertIn(f"\n    {message.splitlines()[1]}\n", page)


class Dates(CalendarTest):
    """Days by their date, with zone data of the test's own."""

    def setUp(self):
        super().setUp()
        self.zones()

    def named(self, day, hours, *words):
        """The calendar's day in the answer."""
        return self.day([], "--date", day, *(words or MADRID), case=day_case(hours))["calendar"]

    def test_lengths(self):
        """23, 24 and 25 hours as the clocks go, and the hours that have passed since the year began."""
        for day, first, hours in [
            ("2027-01-01", 0, 24), ("2027-03-27", 2040, 24), ("2027-03-28", 2064, 23), ("2027-03-29", 2087, 24),
            ("2027-05-12", 3143, 24), ("2027-10-31", 7271, 25), ("2027-11-01", 7296, 24), ("2027-12-31", 8736, 24),
            ("2028-12-31", 8760, 24), ("0001-01-01", 0, 24), ("9999-12-30", 8712, 24),
        ]:
            with self.subTest(day=day):
                self.assertEqual(self.named(day, hours), {
                    "file": "y.csv", "first": first, "hours": hours, "date": day, "zone": "Europe/Madrid",
                    "replaced": [],
                })

    def test_year_has_no_gap(self):
        """Each day begins where the one before it ends."""
        for name in ("Europe/Madrid", "America/Havana", "Antarctica/Troll"):
            at, day = 0, date(2028, 1, 1)
            while day.year == 2028:
                if name == "America/Havana" and day in (date(2028, 3, 11), date(2028, 3, 12)):
                    at += 24 if day.day == 11 else 23
                else:
                    span = span_of(day, name)
                    self.assertEqual(span.first, at)
                    at += span.hours
                day += timedelta(days=1)
            self.assertEqual(at, 8784)

    def test_printed(self):
        text = self.best([], "--date", "2027-10-31", *MADRID, case=day_case(25))
        self.assertIn("\ncalendar y.csv: 25 hours, 7271 to 7295 of the year, 2027-10-31 in Europe/Madrid\n", text)
        status, printed, message = self.run_best([], "--date", "2027-10-31", *MADRID, "--csv", case=day_case(25))
        self.assertEqual((status, message), (0, "case: closes in stage 3 of 3 of a shut-down, stop at hour 26, 1 hour "
                                                "after the last; C belongs to the day that holds it\n"))
        rows = csv.DictReader(io.StringIO(printed.decode()))
        self.assertEqual({(row["date"], row["zone"]) for row in rows}, {("2027-10-31", "Europe/Madrid")})

    def test_made_case(self):
        """A case of 23 hours from tables, for the day on which the clocks go forward."""
        lines = (CASES / "source.csv").read_text().splitlines(keepends=True)[:24]
        data = self.answered("make", str(CASES / "source.toml"), self.file("p.csv", "".join(lines)))
        windows = [("off", 2060, 4), ("on", 2066, 6), ("on", 2086, 9)]
        orders = self.orders(windows, "--date", "2027-03-28", *MADRID, case=data)
        self.assertEqual(orders, [0, 0] + [1] * 6 + [0] * 14 + [1])

    def test_other_hours(self):
        """T is not the day's number of hours."""
        files = "d.case, y.csv"
        for day, hours in (("2027-03-28", 23), ("2027-10-31", 25)):
            said = f"T is 24, and {day} has {hours} hours in Europe/Madrid"
            self.refused(2, [said], [], "--date", day, *MADRID, files=files)

    def test_midnight_twice(self):
        """The day begins at the first."""
        self.assertEqual(self.named("2027-11-07", 25, "--zone", "America/Havana")["hours"], 25)

    def test_days_that_cannot_be_named(self):
        halves = "in Australia/Lord_Howe; whole hours needed"
        no_midnight = "2027-04-30 has no midnight in Africa/Cairo; name the day by --first and --hours"
        for day, zone, what in [
            ("2027-04-04", "Australia/Lord_Howe", f"2027-04-04 has 24:30:00 hours {halves}"),
            ("2027-10-03", "Australia/Lord_Howe", f"2027-10-03 begins 6600:30:00 hours after its year {halves}"),
            ("2027-04-30", "Africa/Cairo", no_midnight),
            ("2027-04-29", "Africa/Cairo", no_midnight),
        ]:
            self.faulty(f"--date: {what}", [], "--date", day, "--zone", zone)

    def test_other_lengths(self):
        """A day of 22 or 26 hours is for the library to refuse."""
        for day, hours in (("2027-03-28", 22), ("2027-10-31", 26)):
            said = f"{day} has {hours} hours in Antarctica/Troll; 23, 24 or 25 needed"
            self.refused(14, [said], [], "--date", day, "--zone", "Antarctica/Troll")

    def test_zones_that_are_none(self):
        whole = zone_file(ZONES["Europe/Madrid"])
        self.zones(text=b"no zone\n", empty=b"", header=whole[:30], cut=whole[:70], first=whole[:50])
        for name in (
            "Mars/Olympus", "Europe", "", "../zones/Europe/Madrid", "/etc/localtime", "a\0b", "text", "empty", "header",
            "cut", "first",
        ):
            said = f"--zone: {name!r} is no zone of this machine's data; a name is like Europe/Madrid"
            self.faulty(said, [], "--date", "2027-05-12", "--zone", name)

    def test_no_zone_data(self):
        (self.folder / "nothing").mkdir()
        self.zone_data(self.folder / "nothing")
        said = "--zone: this machine has no zone data: install tzdata, or name the day by --first and --hours"
        self.faulty(said, [], "--date", "2027-05-12", *MADRID)

    def test_by_itself(self):
        """The tool as a program of its own finds the zone data that PYTHONTZPATH names."""
        self.file("y.csv", year_text())
        words = ("best", self.file("d.case", SOURCE), "--calendar", "y.csv", "--date", "2027-03-28", *MADRID)
        environment = {**os.environ, "GIQAPSUN_BEST_DAY": "", "PYTHONTZPATH": str(self.folder.resolve() / "zones")}
        status, printed, message = self.run_alone(*words, env=environment)
        said = "case: T is 24, and 2027-03-28 has 23 hours in Europe/Madrid"
        self.assertEqual((status, printed, message.splitlines()[1:]), (2, b"", [said]))


class RealZones(CalendarTest):
    """Days by their date, with the machine's zone data, where there is any."""

    def test_madrid(self):
        try:
            zone = zoneinfo.ZoneInfo("Europe/Madrid")
        except zoneinfo.ZoneInfoNotFoundError:
            self.skipTest("no zone data")
        for day, hours in (("2027-03-28", 23), ("2027-10-31", 25), ("2027-05-12", 24)):
            self.assertEqual(self.day([], "--date", day, *MADRID, case=day_case(hours))["calendar"]["hours"], hours)
        year = datetime(2027, 1, 1, tzinfo=zone).timestamp()
        for k in range(365):
            day = date(2027, 1, 1) + timedelta(days=k)
            begin, end = (datetime(at.year, at.month, at.day, tzinfo=zone) for at in (day, day + timedelta(days=1)))
            span = span_of(day, "Europe/Madrid")
            self.assertEqual((span.first, span.hours), (
                (begin.timestamp() - year) / 3600, (end.timestamp() - begin.timestamp()) / 3600,
            ))


class Refused(CalendarTest):
    """Refusals, and what is said of them."""

    def test_windows(self):
        """14 with each line at fault."""
        for windows, details in [
            ([("on", 5, 0)], ["y.csv:2: hours: 0, a window holds 1 hour or more"]),
            ([("on", 50, 2), ("on", 20, 2)], ["y.csv:3: first: 20, below 50 of line 2: on-line windows not sorted"]),
            ([("off", 50, 5), ("on", 1, 1), ("off", 54, 2)], [
                "y.csv:4: first: 54, inside the off-line window 50+5 of line 2",
            ]),
            ([("off", 50, 5), ("off", 50, 5)], ["y.csv:3: first: 50, inside the off-line window 50+5 of line 2"]),
            ([("on", 8783, 2)], ["y.csv:2: hours: 8783+2 ends at 8,785, at most 8,784 allowed"]),
            ([("on", 10, 5), ("on", 15, 5), ("on", 8780, 4), ("off", 5, 0)], [
                "y.csv:5: hours: 0, a window holds 1 hour or more",
            ]),
            ([("on", 65535, 65535)], ["y.csv:2: hours: 65535+65535 ends at 131,070, at most 8,784 allowed"]),
            ([("on", 40, 2), ("off", 9, 0), ("on", 30, 0), ("off", 8, 8777)], [
                "y.csv:3: hours: 0, a window holds 1 hour or more",
                "y.csv:4: hours: 0, a window holds 1 hour or more",
                "y.csv:4: first: 30, below 40 of line 2: on-line windows not sorted",
                "y.csv:5: hours: 8+8777 ends at 8,785, at most 8,784 allowed",
                "y.csv:5: first: 8, below 9 of line 3: off-line windows not sorted",
            ]),
        ]:
            for words in (("--first", "100"), ("--first", "100", "--hours", "24")):
                self.refused(14, details, windows, *words)

    def test_many_faults(self):
        """No more than ten are said."""
        status, _, message = self.run_best([("on", at, 1) for at in range(100, 50, -1)], "--first", "0")
        lines = message.splitlines()
        self.assertEqual((status, len(lines), lines[-1]), (2, 12, "case: and 39 more"))
        self.assertEqual(lines[1], "case: y.csv:3: first: 99, below 100 of line 2: on-line windows not sorted")

    def test_days(self):
        """14 for a day of another length, and for one past the year, which are said before the windows."""
        for words, details in [
            (("--first", "0", "--hours", "22"), ["the day has 22 hours; 23, 24 or 25 needed"]),
            (("--first", "0", "--hours", "26"), ["the day has 26 hours; 23, 24 or 25 needed"]),
            (("--first", "0", "--hours", "0"), ["the day has 0 hours; 23, 24 or 25 needed"]),
            (("--first", "8761"), ["the day: 8761+24 ends at 8,785, at most 8,784 allowed"]),
            (("--first", "8762", "--hours", "23"), ["the day: 8762+23 ends at 8,785, at most 8,784 allowed"]),
            (("--first", "65535", "--hours", "65535"), [
                "the day has 65535 hours; 23, 24 or 25 needed",
                "the day: 65535+65535 ends at 131,070, at most 8,784 allowed",
            ]),
        ]:
            self.refused(14, details, [], *words)
        said = ["the day has 3 hours, as many as the case; 23, 24 or 25 needed"]
        self.refused(14, said, [], "--first", "0", case=CASE_7)
        said.append("y.csv:2: hours: 0, a window holds 1 hour or more")
        self.refused(14, said, [("on", 1, 0)], "--first", "0", case=CASE_7)

    def test_both_lists(self):
        """15 with the hours of the day and the lines; two lists may meet elsewhere in the year."""
        windows = [("on", 110, 5), ("off", 112, 2), ("on", 120, 9), ("off", 114, 8), ("off", 500, 9), ("on", 500, 9)]
        self.refused(15, [
            "y.csv:2: on-line 110+5, and line 3, off-line 112+2, hold hours 13 to 14 of the day",
            "y.csv:2: on-line 110+5, and line 5, off-line 114+8, hold hour 15 of the day",
            "y.csv:4: on-line 120+9, and line 5, off-line 114+8, hold hours 21 to 22 of the day",
        ], windows, "--first", "100")
        self.assertEqual(self.orders(windows, "--first", "123"), [1] * 6 + [0] * 18)
        self.assertEqual(self.orders(windows, "--first", "476"), [0] * 24)
        self.refused(15, [
            "y.csv:7: on-line 500+9, and line 6, off-line 500+9, hold hour 24 of the day",
        ], windows, "--first", "477")

    def test_before_any_case(self):
        """14 comes before 15, and both before what is wrong with the case, where its hours are not asked for."""
        both = [("on", 1, 1), ("off", 1, 1)]
        for case in (b"", CASE_7, CASE_7[:-2] + b"\3\0", file_of(minimum=5), SOURCE):
            for number, windows in ((14, [*both, ("on", 0, 1)]), (15, both)):
                status, _, message = self.run_best(windows, "--first", "0", "--hours", "24", case=case)
                self.assertEqual((status, message.split(": ")[2]), (2, f"refused {number}"))
        said = ["bytes: 0, at least 16 needed"]
        self.refused(1, said, [], "--first", "0", "--hours", "24", files="d.case", case=b"")
        self.refused(1, said, both, "--first", "0", files="d.case", case=b"")

    def test_other_hours(self):
        """2 where T is not the day's number of hours."""
        files = "d.case, y.csv"
        for hours in (23, 25):
            said = [f"T is 24, and the day has {hours} hours"]
            self.refused(2, said, [], "--first", "0", "--hours", str(hours), files=files)
        for hours in (48, 168):
            said, words = [f"T is {hours}, and the day has 24 hours"], ("--first", "0", "--hours", "24")
            self.refused(2, said, [], *words, files=files, case=day_case(hours))

    def test_reasons_are_those_of_the_number(self):
        """On random windows and days: a reason for 14 is found exactly where the library gives 14, and one for 15,
        where no 14 is, exactly where it gives 15."""
        chance = random.Random(11)
        seen = {}
        for _ in range(2000):
            first, windows = chance.choice((4, 5, 40, 8757, 8758, 8759, 8760, 8761)), []
            for order in ("on", "off"):
                at = first - 4
                for _ in range(chance.randint(0, 3)):
                    at += chance.choice((-1, 0, 1, 2, 5, 9, 9))
                    windows.append((order, max(at, 0), chance.choice((0, 1, 1, 2, 2, 2, 3, 3, 3, 9, 9))))
                    at = sum(windows[-1][1:])
            chance.shuffle(windows)
            if chance.random() < 0.9:
                windows.sort(key=lambda window: window[1])
            year = Year(self.folder / self.file("y.csv", year_text(*windows)))
            calendar = Calendar(year, Span(first, chance.choice((22, 23, 23, 24, 24, 25, 25, 26))))
            with self.assertRaises(giqapsun.Refusal) as caught:
                calendar.best(giqapsun.Case())
            number = caught.exception.number
            self.assertEqual(bool(calendar.refused(14).details), number == 14)
            if number != 14:
                self.assertEqual(bool(calendar.refused(15).details), number == 15)
            seen[number] = seen.get(number, 0) + 1
        self.assertEqual(sorted(seen), [2, 14, 15])
        self.assertGreater(min(seen.values()), 50)

    def test_own_orders_are_still_tested(self):
        """8 is about the case's own orders, also where a window replaces them."""
        data = bytearray(giqapsun.write(day_case(24)))
        data[-3] = 3
        said = ["orders: 3 at hour 24, 0 (free), 1 (on) or 2 (off) allowed"]
        self.refused(8, said, [("on", 23, 1)], "--first", "0", files="d.case", case=bytes(data))

    def test_no_schedule(self):
        """11 is explained by the windows, and not by the case's own orders."""
        case = day_case(24, initial=0, elapsed=1, orders=[1] * 24)
        self.refused(11, [
            "y.csv:3: off-line 90+12 holds hours 1 to 2 of the day",
            "y.csv:2: on-line 102+1 holds hour 3 of the day",
            "y.csv:4: off-line 104+8 holds hours 5 to 12 of the day",
            "orders: on-line at hour 3",
            "orders: off-line at hours 1 to 2, 5 to 12",
            "opening: initial 0 MW, elapsed 1 hour off-line",
            "times: minup 3, mindown 3; a start-up takes 3 hours, a shut-down 3",
            "the orders before hour 5 can be kept together; with that of hour 5 no list keeps every rule",
        ], [("on", 102, 1), ("off", 90, 12), ("off", 104, 8)], "--first", "100", files="d.case, y.csv", case=case)

    def test_json(self):
        status, printed, _ = self.run_best([("on", 5, 0)], "--first", "0", "--json")
        self.assertEqual((status, json.loads(printed)), (2, {
            "refused": 14, "text": REFUSALS[14], "details": ["y.csv:2: hours: 0, a window holds 1 hour or more"],
        }))

    def test_refusals_of_another_library(self):
        """A number that the tool cannot bear out is said as it is."""
        for number in (14, 15):
            with mock.patch.object(giqapsun, "best_by_calendar", side_effect=giqapsun.Refusal(number)):
                for words in (("--first", "0"), ("--first", "0", "--hours", "24")):
                    self.refused(number, [], [], *words)
        for number in (2, 4, 77):
            with mock.patch.object(giqapsun, "best_by_calendar", side_effect=giqapsun.Refusal(number)):
                text = REFUSALS.get(number, "not in the refusal list")
                self.faulty(f"d.case, y.csv: refused {number}: {text}", [], "--first", "0")

    def test_a_day_that_does_not_keep_the_windows(self):
        """The tool does not show orders that the day was not found by."""
        plan = giqapsun.best(giqapsun.read(SOURCE))
        with mock.patch.object(giqapsun, "best_by_calendar", return_value=plan):
            self.faulty(
                f"the library: best by calendar: {plan}, and with the orders of the windows Breaks(hour=5, rule=23)",
                [("on", 4, 1)], "--first", "0",
            )


class Files(CalendarTest):
    """Files of windows that are none, and wrong words."""

    def test_files(self):
        there = "there are order, first, hours"
        for text, message in [
            ("", "y.csv:1: empty; the first line names the columns"),
            ("\n\n", "y.csv:1: empty; the first line names the columns"),
            ("on,1,2\n", f"y.csv:1: 'on': no such column; {there}"),
            ("order,first,length\n", f"y.csv:1: 'length': no such column; {there}"),
            ("order,first\non,1\n", "y.csv:1: hours: the column is missing"),
            ("first,hours\n", "y.csv:1: order: the column is missing"),
            ("order,first,hours,note\n", f"y.csv:1: 'note': no such column; {there}"),
            ("order,first,hours,first\n", "y.csv:1: first: the column is given twice"),
            ("order,first,hours\non,1,2\non,5\n", "y.csv:3: 2 cells where 3 were expected"),
            ("order,first,hours\non,1,2,3\n", "y.csv:2: 4 cells where 3 were expected"),
            ("order,first,hours\nfree,1,2\n", "y.csv:2: order: 'free' is not on or off"),
            ("order,first,hours\n\nON,1,2\n", "y.csv:3: order: 'ON' is not on or off"),
            ("order,first,hours\n,1,2\n", "y.csv:2: order: '' is not on or off"),
            ("order,first,hours\non,x,2\n", "y.csv:2: first: 'x' is not a whole number of hours"),
            ("order,first,hours\non,,2\n", "y.csv:2: first: '' is not a whole number of hours"),
            ("order,first,hours\non,1,2.5\n", "y.csv:2: hours: '2.5' is not a whole number of hours"),
            ("order,first,hours\non,1,1e3\n", "y.csv:2: hours: '1e3' is not a whole number of hours"),
            ("order,first,hours\non,-1,2\n", "y.csv:2: first: -1, from 0 to 65,535 allowed"),
            ("order,first,hours\non,1,65536\n", "y.csv:2: hours: 65536, from 0 to 65,535 allowed"),
            ("order,first,hours\noff,70000,2\n", "y.csv:2: first: 70000, from 0 to 65,535 allowed"),
            ('order,first,hours\non,"1,2\n', "y.csv:2: not CSV: unexpected end of data"),
        ]:
            self.faulty(message, text, "--first", "0")
        self.file("y.csv", b"order,first,hours\n\xff,1,2\n")
        words = ("best", "d.case", "--first", "0", "--calendar")
        self.at_fault("y.csv:2: not UTF-8", *words, "y.csv", GIQAPSUN_BEST_DAY="")
        self.at_fault("none.csv: No such file or directory", *words, "none.csv", GIQAPSUN_BEST_DAY="")
        self.at_fault("'': No such file or directory", *words, "", GIQAPSUN_BEST_DAY="")

    def test_standard_input(self):
        """Either file may be the standard input."""
        expected = self.best([("on", 2, 3)], "--first", "0").encode()
        for words, given, name in [
            (("d.case", "--calendar", "-"), year_text(("on", 2, 3)).encode(), b"standard input"),
            (("-", "--calendar", "y.csv"), SOURCE, b"y.csv"),
        ]:
            answer = self.run_tool("best", *words, "--first", "0", given=given, GIQAPSUN_BEST_DAY="")
            self.assertEqual(answer, (0, expected.replace(b"calendar y.csv", b"calendar " + name), ""))
        answer = self.run_tool("best", "d.case", "--calendar", "-", "--first", "0", given=b"", GIQAPSUN_BEST_DAY="")
        self.assertEqual(answer, (2, b"", "case: standard input:1: empty; the first line names the columns\n"))

    def test_words(self):
        """A calendar goes with one day, named in one way, and a day with a calendar."""
        self.file("y.csv", year_text())
        self.file("d.case", SOURCE)
        first, hours, day = ("--first", "0"), ("--hours", "24"), ("--date", "2027-05-12")
        calendar, number = ("--calendar", "y.csv"), "is not a whole number from 0 to 65,535"
        needs = "--calendar needs one day: --first, with --hours or without, or --date with --zone"
        missing = "--first, --hours, --date and --zone name a day of --calendar, which is missing"
        for words, message in [
            (calendar, needs), ((*calendar, *hours), needs), ((*calendar, *day), needs), ((*calendar, *MADRID), needs),
            ((*calendar, *first, *day, *MADRID), needs), ((*calendar, *first, *MADRID), needs),
            ((*calendar, *day, *MADRID, *hours), needs), (first, missing), (hours, missing), (day, missing),
            (MADRID, missing), ((*day, *MADRID), missing),
            *(((*calendar, "--first", word), f"argument --first: {word!r} {number}")
              for word in ("65536", "-1", "1.5", "x", "")),
            ((*calendar, *first, "--hours", "70000"), f"argument --hours: '70000' {number}"),
            *(((*calendar, *MADRID, "--date", word),
               f"argument --date: {word!r} is not a date from 0001-01-01 to 9999-12-30, written so")
              for word in ("2027-02-29", "2027-2-3", "20270203", "2027-W10-1", "12/05/2027", "9999-12-31", "x", "")),
        ]:
            with self.subTest(words=words):
                status, printed, said = self.run_tool("best", "d.case", *words)
                self.assertEqual((status, printed), (2, b""))
                self.assertTrue(said.startswith("usage: case") and said.endswith(f"error: {message}\n"), said)

    def test_named_program(self):
        """A program takes no calendar, and is not passed over."""
        said = f"{FAKE}: a program takes no calendar; without GIQAPSUN_BEST_DAY the library serves"
        self.faulty(said, [], "--first", "0", GIQAPSUN_BEST_DAY=str(FAKE))


class Plot(CalendarTest):
    """Pictures of days with windows."""

    def picture(self, windows, *words, case=SOURCE):
        """The picture, which changes nothing of the text."""
        text = self.best(windows, *words, case=case)
        self.assertEqual(self.best(windows, *words, "--plot", "p.svg", case=case), text)
        return self.drawn()

    def test_windows(self):
        """Hatched in every panel, on-line and off-line apart, named above and in the key, with lines at both ends."""
        picture = self.picture([("on", 3146, 5), ("off", 3164, 32)], "--first", "3143")
        letters = [text.text for text in self.kinds(picture, "text", "letters")]
        self.assertEqual(letters, ["on 3146+5", "off 3164+32"])
        for order, hours in (("on", 5), ("off", 3)):
            hatched = [rect for rect in self.kinds(picture, "rect", order) if "swatch" not in rect.get("class")]
            self.assertEqual([float(rect.get("width")) for rect in hatched], [round(31.75 * hours, 1)] * 3)
            self.assertIn(f"{order}: {order}-line window", self.texts(picture))
        edges = [float(line.get("x1")) for line in self.kinds(picture, "line", "edge")]
        self.assertEqual(edges, [100 + round(31.75 * end, 1) for end in (3, 8, 21, 24)] * 3)
        self.assertIn("calendar y.csv: 24 hours, 3143 to 3166 of the year", self.texts(picture))
        self.coloured(picture)

    def test_windows_that_touch(self):
        """Each has its name, its first word alone where there is no more room, and a line between."""
        windows = [("off", 90, 13), ("off", 103, 1), ("off", 104, 21)]
        picture = self.picture(windows, "--first", "100", case=day_case(25, initial=0))
        letters = [text.text for text in self.kinds(picture, "text", "letters")]
        self.assertEqual(letters, ["off 90+13", "off", "off 104+21"])
        self.assertEqual(len(self.kinds(picture, "line", "edge")), 4 * 3)

    def test_hovers(self):
        """The title of an hour names its window."""
        titles = self.titles(self.picture([("on", 3146, 5)], "--first", "3143"))
        self.assertTrue(titles[3].startswith("hour 4 (ordered on-line by the window 3146+5, line 2): 112 MW"))
        self.assertTrue(titles[2].startswith("hour 3: 112 MW"))

    def test_long_names(self):
        """The end of a name stands in the picture."""
        self.file("d.case", SOURCE)
        name = self.file(f"{'x' * 200}.csv", year_text())
        words = ("best", "d.case", "--calendar", name, "--first", "0", "--plot", "p.svg")
        self.answered(*words, GIQAPSUN_BEST_DAY="")
        self.assertIn(f"calendar ...{'x' * 53}.csv: 24 hours, 0 to 23 of the year", self.texts(self.drawn()))

    def test_no_windows(self):
        """A day that no window meets, of a case with orders of its own: nothing is hatched."""
        picture = self.picture([("on", 100, 5)], "--first", "0", case=BELOW_ZERO)
        for order in ("on", "off"):
            self.assertEqual(self.kinds(picture, "rect", order), [])
        self.assertEqual(self.kinds(picture, "line", "edge"), [])

    def test_without_a_calendar(self):
        """The letters of orders are as they were."""
        self.answered("best", self.file("d.case", file_of(orders=[1, 0, 2])), "--plot", "p.svg", GIQAPSUN_BEST_DAY="")
        picture = self.drawn()
        self.assertEqual([text.text for text in self.kinds(picture, "text", "letters")], ["on", "off"])
        self.assertIn("on: ordered on-line", self.texts(picture))
