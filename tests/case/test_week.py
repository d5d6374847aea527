"""More than 48 hours, up to the 168 of a week: tables and pictures that are divided into days, and units with minimum
times above 8 hours, for which a program has too few numbers to work in."""

import csv
import io
import json
import random
import re
from dataclasses import replace
from unittest import mock

from test_best import program
from tool import (
    BOILER, CASE_7, CASES, EVENING, FAKE, ROOT, SOURCE, SVG, WEEK, PictureTest, ToolTest, file_of, giqapsun, list_text,
    random_opening, row_text, small, texts,
)

import best
from days import days_of

PAGE = (ROOT / "docs/readers/trading-desk.md").read_text(encoding="utf-8")


def source(hours, **changes):
    """The file of the source's unit with so many free hours, its prices beginning again where they end."""
    case = giqapsun.read(SOURCE)
    prices = (case.prices * 7)[:hours]
    return giqapsun.write(replace(case, **{"prices": prices, "orders": [0] * hours, **changes}))


def too_low():
    """The prices of the week with evenings that are forecast too low."""
    return row_text(price - 8000 * (k % 24 > 17) for k, price in enumerate(giqapsun.read(WEEK).prices))


class Tables(ToolTest):
    """Tables of more than 48 hours."""

    def lines(self, data, *words):
        """What `case best` prints of a case."""
        return self.answered("best", self.file("d.case", data), *words, GIQAPSUN_BEST_DAY="").decode().splitlines()

    def test_page(self):
        """What docs/readers/trading-desk.md shows of the week is printed, in its order."""
        shown = re.search(r"--next next-week.toml\n\n((?:    .*\n)+)", PAGE)[1].splitlines()
        self.assertEqual(len(shown), 11)
        printed = iter(self.lines(WEEK))
        for line in shown:
            self.assertIn(line.removeprefix("    "), printed)

    def test_amounts_of_the_page(self):
        """What the page and cases/README.md say of the two weeks."""
        boiler, readme = giqapsun.read(BOILER), (CASES / "README.md").read_text(encoding="utf-8")
        quick = giqapsun.best(replace(boiler, minup=8, mindown=8))
        by_day, case = 0, giqapsun.read(WEEK)
        for first in range(0, 168, 24):
            day = replace(case, prices=case.prices[first : first + 24], orders=case.orders[first : first + 24])
            plan = giqapsun.best(day)
            by_day += plan.profit
            left = giqapsun.opening_after(day, plan.outputs)
            case = replace(case, initial=left.initial, elapsed=left.elapsed, upstage=left.upstage,
                           downstage=left.downstage)
        for half_mills in (301_939_484, by_day, giqapsun.best(boiler).profit, quick.profit):
            dollars = f"${half_mills / 2000:,.4f}"
            self.assertIn(dollars, PAGE)
            self.assertIn(dollars.rstrip("0").rstrip("."), readme)
        idle = [k for k, output in enumerate(quick.outputs, 1) if not output]
        self.assertEqual([k for k in idle if k > 100], [*range(123, 134), *range(145, 157)])

    def test_days(self):
        """A line for each hour, one below each day with its sums, and the total."""
        for hours in (49, 72, 73, 96, 167, 168):
            head, *lines = self.lines(source(hours))
            self.assertEqual(head, "hour  day-hour  order  price ($/MWh)  output (MW)  energy (MWh)    earnings ($)")
            *lines, total, profit, found = [line for line in lines if not line.startswith("closes")]
            self.assertEqual((total.split()[0], profit.split()[0], found.split()[0]), ("total", "profit", "read"))
            self.assertEqual({len(line) for line in (head, *lines, total)}, {len(head)})
            number, place, energy, earned, sums = 0, 0, 0, 0, [0, 0]
            for line in lines:
                cells = line.replace(",", "").split()
                if cells[0] != "day":
                    number, place = number + 1, place + 1
                    self.assertEqual(cells[:2], [str(number), f"{(number - 1) // 24 + 1}-{place:02}"])
                    energy, earned = energy + float(cells[5]), earned + float(cells[6])
                    continue
                self.assertEqual(cells[1], str((number - 1) // 24 + 1))
                self.assertAlmostEqual(float(cells[2]), energy)
                self.assertAlmostEqual(float(cells[3]), earned)
                sums = [sums[0] + energy, sums[1] + earned]
                place, energy, earned = 0, 0, 0
            self.assertEqual((number, place), (hours, 0))
            self.assertEqual([f"{sums[0]:,.1f}", f"{sums[1]:,.4f}"], total.split()[1:])

    def test_two_days_stand_undivided(self):
        for hours in (1, 24, 25, 47, 48):
            lines = self.lines(source(hours))
            self.assertTrue(lines[0].startswith("hour  order"))
            self.assertFalse([line for line in lines if line.startswith("day")])
            self.assertNotIn("day-hour", self.answered("show", "d.case").decode())

    def test_wide_sums(self):
        """Days that earn more than any hour and than all of them keep the columns in one width."""
        prices = [10**7] * 48 + [-(10**7)] * 48
        unit = {"capacity": 400, "minimum": 400, "rise": [400], "fall": [400], "initial": 400}
        lines = self.lines(source(96, prices=prices, orders=[1] * 96, variable=0, fixed=0, **unit))
        self.assertEqual(lines[24].split()[-1], "4,000,000.0000")
        self.assertEqual(lines[25].split(), ["day", "1", "9,600.0", "96,000,000.0000"])
        self.assertEqual(lines[101].split(), ["total", "38,400.0", "0.0000"])
        self.assertEqual(len({len(line) for line in lines[:102]}), 1)

    def test_programs(self):
        """For a program hours have their numbers alone, as in a day."""
        rows = list(csv.DictReader(io.StringIO("\n".join(self.lines(WEEK, "--csv")))))
        self.assertEqual([int(row["hour"]) for row in rows], [*range(1, 169)])
        self.assertEqual(sum(int(row["earnings_half_mills"]) for row in rows), 301_939_484)
        self.assertEqual(list(rows[0]), list(best.COLUMNS))
        answer = json.loads("\n".join(self.lines(WEEK, "--json")))
        self.assertEqual((len(answer["hours"]), list(answer["hours"][0])), (168, list(best.COLUMNS)))
        # what --csv prints is a list of a week
        table = "\n".join(self.lines(WEEK, "--csv")).encode()
        status, printed, _ = self.run_tool("check", "d.case", "-", given=table)
        self.assertEqual((status, printed.decode().splitlines()[0]),
                         (0, "passes: earns $150,969.7420 (301939484 half-mills)"))

    def test_show(self):
        """The place of each hour in its day, and an empty line between days."""
        text = self.answered("show", self.file("d.case", BOILER)).decode()
        table = text[text.index("hour  day-hour") :].splitlines()
        self.assertEqual(table[0], "hour  day-hour  price (mills/MWh)  price ($/MWh)  order")
        self.assertEqual(table[1], "   1      1-01              21040         21.040  free")
        self.assertEqual(len(table), 1 + 168 + 6 + 2)
        self.assertEqual([k for k, line in enumerate(table) if not line], [*range(25, 175, 25), 175])
        self.assertRegex(table[26], r"\A  25      2-01 ")
        self.assertRegex(table[174], r"\A 168      7-24 ")
        self.assertEqual(sum(line.endswith("  off") for line in table), 5)

    def test_better(self):
        """What each day earns by either list that passes."""
        outputs = giqapsun.best(giqapsun.read(WEEK)).outputs
        lower = [*outputs[:159], outputs[159] - 1, *outputs[160:]]
        self.file("d.case", WEEK)
        words = ("better", "d.case", self.file("a.csv", list_text(outputs)), self.file("b.csv", list_text(lower)))
        lines = self.answered(*words).decode().splitlines()
        self.assertEqual(lines[1].split()[:2], ["hour", "day-hour"])
        days = [line.split() for line in lines if line.startswith("day ")]
        self.assertEqual([day[1] for day in days], [*map(str, range(1, 8))])
        self.assertTrue(all(len(day) == 4 and (day[2] == day[3]) == (day[1] != "7") for day in days))
        self.assertEqual(len({len(line) for line in lines[:177]}), 1)
        # a list that breaks a rule has none
        self.file("b.csv", list_text([0] * 168))
        days = [line for line in self.answered(*words).decode().splitlines() if line.startswith("day ")]
        self.assertTrue(all(len(day.split()) == 3 for day in days))
        self.file("a.csv", list_text([0] * 168))
        status, printed, _ = self.run_tool(*words)
        self.assertEqual(status, 1)
        self.assertIn("\nday 1\n", printed.decode())

    def test_forecast(self):
        """What each day earns by the plan and by the best list."""
        words = ("forecast", self.file("d.case", WEEK), self.file("f.csv", too_low()), str(CASES / "week.csv"))
        lines = self.answered(*words).decode().splitlines()
        self.assertEqual(lines[1].split()[:2], ["hour", "day-hour"])
        self.assertEqual(len({len(line) for line in lines[:177]}), 1)
        answer = json.loads(self.answered(*words, "--json"))
        days = [line.replace(",", "").split() for line in lines if line.startswith("day ")]
        for place, cell in (("plan", 2), ("best", 3)):
            earned = [hour[f"{place}_earnings_half_mills"] for hour in answer["hours"]]
            sums = [f"{sum(day.of(earned)) / 2000:.4f}" for day in days_of(168)]
            self.assertEqual([day[cell] for day in days], sums)
        self.assertEqual((answer["best_profit_half_mills"], answer["same_list"]), (301_939_484, False))

    def test_next(self):
        """The unit of the next week, with what the week's list leaves."""
        self.lines(source(163), "--next", "n.toml")
        left = giqapsun.read(self.answered("make", "n.toml", str(CASES / "week.csv")))
        self.assertEqual((left.downstage, len(left.prices)), (0, 168))
        self.lines(WEEK, "--next", "n.toml")
        left = giqapsun.read(self.answered("make", "n.toml", str(CASES / "week.csv")))
        self.assertEqual((left.initial, left.elapsed, left.upstage, left.downstage), (144, 18, 0, 0))

    def test_days_of_a_count(self):
        """Each hour is in one day, and a day has at most 24."""
        for hours in range(1, 200):
            days = days_of(hours)
            if hours <= 48:
                self.assertEqual(days, [])
                continue
            self.assertEqual([k for day in days for k in range(day.first, day.last + 1)], [*range(1, hours + 1)])
            self.assertEqual([day.number for day in days], [*range(1, len(days) + 1)])
            self.assertTrue(all(day.last - day.first == 23 for day in days[:-1]))
            self.assertEqual([k for day in days for k in day.of([*range(hours)])], [*range(hours)])


class LongTimes(ToolTest):
    """Units with minimum times above 8 hours."""

    SHORT = "from 1 to 8 allowed by a program that lends 8,192 numbers to work in; 32,768 are needed"
    ADVICE = "the library is lent as many as a case needs: bindings/build.sh builds it; set no GIQAPSUN_BEST_DAY"

    def test_library(self):
        """The library is lent what the case asks for."""
        lines = self.answered("best", self.file("d.case", BOILER), GIQAPSUN_BEST_DAY="").decode().splitlines()
        self.assertIn("profit 283279650 half-mills", lines)

    def test_program(self):
        """The program's 10, with the times that ask for more; also where no list keeps every rule."""
        for changes, times in [
            ({"minup": 9}, {"minup": 9}), ({"mindown": 24}, {"mindown": 24}),
            ({"minup": 20, "mindown": 8}, {"minup": 20}),
            ({"minup": 20, "mindown": 12, "orders": [2, 0, 0]}, {"minup": 20, "mindown": 12}),
        ]:
            self.file("d.case", file_of(**changes))
            said = "\n".join([
                f"d.case: refused 10: {texts('refusals.tsv')[10]}",
                *(f"{name}: {hours}, {self.SHORT}" for name, hours in times.items()), self.ADVICE,
            ])
            fake = {"GIQAPSUN_BEST_DAY": str(FAKE), "FAKE_BEST_DAY_TEXT": "refused 10\n"}
            self.at_fault(said, "best", "d.case", **fake)
            self.at_fault(said, "best", "d.case", GIQAPSUN_BEST_DAY=program())
        # of a program that has even less, nothing is known
        self.file("d.case", CASE_7)
        self.at_fault(f"d.case: refused 10: {texts('refusals.tsv')[10]}", "best", "d.case", **fake)

    def test_first_order_that_is_not_kept(self):
        """Found by halving, it is the one that is found hour by hour."""
        chance, found = random.Random(6), 0
        for _ in range(150):
            hours = chance.randint(1, 12)
            orders = [chance.choice((0, 0, 1, 2)) for _ in range(hours)]
            case = random_opening(chance, small(
                minup=chance.randint(1, 6), mindown=chance.randint(1, 6), prices=[5] * hours, orders=orders,
            ))
            expected = None
            for hour in range(hours, 0, -1):
                if orders[hour - 1] and not best._kept_up_to(case, hour):
                    expected = hour
            self.assertEqual(best._first_not_kept(case), expected)
            found += expected is not None
        self.assertGreater(found, 20)

    def test_few_searches(self):
        """A week of orders that cannot be kept is searched a few times."""
        case = small(initial=0, prices=[5] * 168, orders=[2] * 167 + [1], mindown=24, rise=[2], elapsed=1)
        case.orders[:2] = [1, 1]
        with mock.patch.object(giqapsun, "best", wraps=giqapsun.best) as searches:
            self.assertEqual(best._first_not_kept(case), 1)
        self.assertLess(searches.call_count, 10)


class Pictures(PictureTest):
    """Pictures of more than 48 hours."""

    def picture(self, data):
        """The picture of a case's best hours."""
        self.answered("best", self.file("d.case", data), "--plot", "p.svg", GIQAPSUN_BEST_DAY="")
        return self.drawn()

    def box(self, text):
        """The ends of a text across and up, at the most: a letter is up to 0.65 of its size wide, a narrow one 0.42."""
        size = {"amount": 10, "letters": 9.5, "title": 17}.get(text.get("class"), 12)
        width = sum(size * (0.42 if letter in "filrt,.-() " else 0.65) for letter in text.text)
        x, y = float(text.get("x")), float(text.get("y"))
        before = {"start": 0, "middle": width / 2, "end": width}[text.get("text-anchor")]
        if text.get("transform") is None:
            return (x - before, x - before + width), (y - 0.8 * size, y + 0.25 * size)
        return (x - 0.8 * size, x + 0.25 * size), (y + before - width, y + before)

    def readable(self, picture):
        """No text reaches over another, or over the edge of the picture."""
        width, height = (float(picture.get(name)) for name in ("width", "height"))
        boxes = [(self.box(text), text.text) for text in picture.iter(SVG + "text")]
        for i, ((across, up), words) in enumerate(boxes):
            self.assertTrue(0 <= across[0] and across[1] <= width and 0 <= up[0] and up[1] <= height, words)
            for (others, other_up), others_words in boxes[:i]:
                apart = across[1] <= others[0] or others[1] <= across[0] or up[1] <= other_up[0] or other_up[1] <= up[0]
                self.assertTrue(apart, f"{words!r} and {others_words!r}")

    def notes(self, picture):
        """What stands below the panels, by its place across and in its order down."""
        places = {}
        for text in self.kinds(picture, "text", "amount"):
            places.setdefault(float(text.get("x")), []).append(text.text)
        return [places[x] for x in sorted(places)]

    def test_readable(self):
        """Days of every length at the end, the widest amounts, and orders in turn."""
        wide = {"capacity": 400, "minimum": 1, "rise": [1], "fall": [1], "rampup": 400, "rampdown": 400, "initial": 400}
        for hours in (49, 60, 72, 73, 95, 96, 97, 121, 145, 167, 168):
            with self.subTest(hours=hours):
                self.readable(self.picture(source(hours)))
                prices = [(-(10**7), 10**7, 45_000)[k * k % 7 % 3] for k in range(hours)]
                orders = [(0, 1, 0)[k % 3] for k in range(hours)]
                self.readable(self.picture(source(hours, prices=prices, orders=orders, **wide)))
        self.readable(self.picture(BOILER))
        # the pictures that stand undivided
        for hours in (24, 25, 48):
            self.readable(self.picture(source(hours)))

    def test_week(self):
        picture = self.picture(WEEK)
        texts_of = self.texts(picture)
        self.assertEqual(float(picture.get("width")), 100 + 8 * 168 + 114)
        for label in ("Best 168 hours of d.case", "hour k (each tick is the end of its hour, each line that of a day)"):
            self.assertIn(label, texts_of)
        for hour in range(0, 169, 6):
            self.assertGreaterEqual(texts_of.count(str(hour)), 3)
        self.assertNotIn("167", texts_of)
        # a line at the end of each day but the last, in each panel
        edges = [float(line.get("x1")) for line in self.kinds(picture, "line", "edge")]
        self.assertEqual(sorted(edges), sorted(3 * [100.0 + 8 * 24 * day for day in range(1, 7)]))
        self.assertEqual(len(list(picture.iter(SVG + "circle"))), 1)
        bars = [bar for bar in picture.iter(SVG + "rect") if bar.get("class") in ("gain", "loss")]
        self.assertEqual((len(bars), float(bars[0].get("width"))), (168, 5.1))
        self.coloured(picture)

    def test_notes(self):
        """Of each day the least and the most price, what it earns and its energy."""
        case = giqapsun.read(BOILER)
        plan = giqapsun.best(case)
        notes = self.notes(self.picture(BOILER))
        self.assertEqual([note[0] for note in notes], [f"day {day}" for day in range(1, 8)])
        self.assertEqual(notes[0], ["day 1", "least 11.600", "most 62.050", "day 1", "36,147.9000 $", "5,562.5 MWh"])
        earned = [float(note[4].split()[0].replace(",", "")) for note in notes]
        self.assertAlmostEqual(sum(earned), plan.profit / 2000)
        for day, note in enumerate(notes):
            prices = case.prices[24 * day : 24 * day + 24]
            self.assertEqual(note[1:3], [f"least {min(prices) / 1000:,.3f}", f"most {max(prices) / 1000:,.3f}"])

    def test_hovers(self):
        """Each hour has its numbers under the pointer, with its place in its day."""
        titles = self.titles(self.picture(BOILER))
        self.assertEqual(len(titles), 168)
        self.assertTrue(titles[0].startswith("hour 1, day 1 hour 1: 0 MW at its end"))
        self.assertTrue(titles[62].startswith("hour 63, day 3 hour 15 (ordered off-line): 0 MW at its end"))
        self.assertTrue(titles[167].startswith("hour 168, day 7 hour 24: 190 MW at its end"))

    def test_short_runs_of_orders(self):
        """A run of ordered hours that is too short for its word has its hatch alone."""
        orders = [0] * 168
        orders[10], orders[100:110] = 1, [1] * 10
        picture = self.picture(source(168, orders=orders))
        self.assertEqual([text.text for text in self.kinds(picture, "text", "letters")], ["on"])
        hatched = [rect for rect in self.kinds(picture, "rect", "on") if "swatch" not in rect.get("class")]
        self.assertEqual([float(rect.get("width")) for rect in hatched], [8.0, 80.0] * 3)

    def test_spikes(self):
        """Spikes of hours side by side do not reach over one another."""
        prices = [20_000] * 160 + [10**7] * 8
        marks = self.kinds(self.picture(source(168, prices=prices)), "polygon", "cut")
        ends = [[float(point.split(",")[0]) for point in mark.get("points").split()] for mark in marks]
        self.assertEqual(len(ends), 8)
        self.assertTrue(all(one[1] <= other[0] for one, other in zip(ends, ends[1:])))

    def test_two_lists(self):
        """Marks of either list at some hours; where they differ there is a bar."""
        outputs = giqapsun.best(giqapsun.read(WEEK)).outputs
        lower = [output - (output == 294) for output in outputs]
        self.file("d.case", WEEK)
        words = ("better", "d.case", self.file("a.csv", list_text(outputs)), self.file("b.csv", list_text(lower)))
        self.answered(*words, "--plot", "p.svg")
        picture = self.drawn()
        self.readable(picture)
        self.assertEqual(len(self.kinds(picture, "rect", "square")), 168 // 6 + 1)
        self.assertEqual(len([dot for dot in self.kinds(picture, "circle", "dot") if dot.get("class") == "dot"]),
                         168 // 6 + 1)
        differ = self.kinds(picture, "rect", "differs")
        self.assertEqual(len(differ), sum(output == 294 for output in outputs))
        self.assertTrue(self.titles(picture)[167].startswith("hour 168, day 7 hour 24, 25.850 $/MWh: 144 MW in the"))

    def test_two_rows_of_prices(self):
        """Of each day the least and the most price in either row; nothing reaches over another where hours stand
        undivided, as wide as prices can be, or in a week."""
        self.file("d.case", WEEK)
        self.answered("forecast", "d.case", self.file("f.csv", too_low()), str(CASES / "week.csv"), "--plot", "p.svg")
        picture = self.drawn()
        self.readable(picture)
        self.coloured(picture)
        self.assertEqual(self.notes(picture)[0], [
            "day 1", "forecast", "least 17.850", "most 48.950", "actual", "least 19.668", "most 48.950",
        ])
        self.assertEqual(len(self.kinds(picture, "rect", "square")), 168 // 6 + 1)
        for hours in (1, 24, 25, 48, 49, 97, 168):
            with self.subTest(hours=hours):
                self.file("d.case", source(hours))
                self.file("f.csv", row_text((-(10**7), 10**7, 45_000)[k * k % 7 % 3] for k in range(hours)))
                self.file("a.csv", row_text((45_000, -(10**7), 10**7)[k * k % 7 % 3] for k in range(hours)))
                self.answered("forecast", "d.case", "f.csv", "a.csv", "--plot", "p.svg")
                self.readable(self.drawn())

    def test_closing(self):
        """The stages at the ends of a week stand below its outputs."""
        case = giqapsun.read(EVENING)
        picture = self.picture(source(168, prices=(case.prices * 7)[:168]))
        said = [text for text in picture.iter(SVG + "text") if (text.text or "").startswith("closes")]
        self.assertEqual([text.text for text in said], ["closes in stage 2 of 3 of a shut-down, stop at hour 170"])
        self.assertEqual(float(said[0].get("x")), 100 + 8 * 168)
