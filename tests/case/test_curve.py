"""case best --curve, check --curve and curve: costs from a boiler maker's curve, its table and picture, refusal 16 with
the coefficients at fault, files that are none."""

import csv
import io
import json
import random
from fractions import Fraction

from tool import (
    CASE_7, CASES, FAKE, SOURCE, SOURCE_LIST, SVG, WEEK, PictureTest, giqapsun, list_text, small, texts,
)

from curves import read_curve
from hours import earnings

REFUSALS = texts("refusals.tsv")
MAKER = str(CASES / "maker.toml")
SOURCE_CURVE = str(CASES / "source_curve.toml")
MAKERS_LIST = [
    120, 112, 70, 30, 0, 0, 0, 37, 75, 112, 172, 232, 292, 288, 238, 294, 294, 294, 294, 262, 212, 162, 112, 70,
]


class CurveTest(PictureTest):
    """A test that runs the tool with a curve."""

    def curve(self, text, *words):
        """Status, standard output and standard error of `case curve`."""
        return self.run_tool("curve", self.file("c.toml", text), *words)

    def refused(self, text, *details):
        """The curve is refused by 16, with these details, by each command, before the case is looked at."""
        self.file("c.toml", text)
        self.file("l.csv", list_text([2, 1, 0]))
        lines = [f"c.toml: refused 16: {REFUSALS[16]}", *details]
        message = "".join(f"case: {line}\n" for line in lines)
        self.file("d.case", b"no case")
        for words in (
            ["curve", "c.toml"], ["best", "d.case", "--curve", "c.toml"],
            ["check", "d.case", "l.csv", "--curve", "c.toml"],
        ):
            self.assertEqual(self.run_tool(*words, GIQAPSUN_BEST_DAY=""), (2, b"", message))

    def fault(self, text, what):
        """The file is no curve."""
        self.assertEqual(self.curve(text), (2, b"", f"case: c.toml{what}\n"))


class Days(CurveTest):
    """Days by a curve."""

    def best(self, data, curve, *words):
        """What `case best --curve` prints."""
        return self.answered("best", self.file("d.case", data), "--curve", curve, *words, GIQAPSUN_BEST_DAY="")

    def test_curve_of_f_and_a(self):
        """The table of the day is that without a curve, but for the line that names it."""
        text = self.best(SOURCE, SOURCE_CURVE).decode().splitlines()
        plain = self.answered("best", "d.case", GIQAPSUN_BEST_DAY="").decode().splitlines()
        named = [line for line in text if line not in plain]
        self.assertEqual(len(named), 1)
        self.assertRegex(named[0], r"^costs by the curve .*source_curve.toml: straight, b n \+ a half-mills at n ")
        self.assertTrue(named[0].endswith("a 200000, b 38000"))
        self.assertEqual([line for line in text if line != named[0]], plain)

    def test_makers_day(self):
        text = self.best(SOURCE, MAKER).decode()
        self.assertIn("\nprofit 44732821 half-mills\n", text)
        self.assertIn(": a 412500.5, b 29250.75, c 14.3\n", text)
        day = json.loads(self.best(SOURCE, MAKER, "--json"))
        self.assertEqual([hour["output"] for hour in day["hours"]], MAKERS_LIST)
        self.assertEqual(day["profit_dollars"], "22366.4105")
        self.assertEqual(sum(hour["earnings_half_mills"] for hour in day["hours"]), day["profit_half_mills"])
        fields = {"file": MAKER, "kind": "curved", "a": 412500.5, "b": 29250.75, "c": 14.3}
        self.assertEqual(day["curve"], fields)
        self.assertNotIn("curve", json.loads(self.answered("best", "d.case", "--json", GIQAPSUN_BEST_DAY="")))

    def test_csv(self):
        """The table is as without a curve, which is named beside it; its earnings are by the curve."""
        self.file("d.case", SOURCE)
        status, printed, message = self.run_tool(
            "best", "d.case", "--curve", MAKER, "--csv", GIQAPSUN_BEST_DAY=""
        )
        self.assertEqual(status, 0)
        self.assertIn("case: costs by the curve ", message)
        rows = list(csv.DictReader(io.StringIO(printed.decode())))
        self.assertEqual(sum(int(row["earnings_half_mills"]) for row in rows), 44_732_821)
        self.file("l.csv", printed)
        text = self.answered("check", "d.case", "l.csv", "--curve", MAKER).decode()
        self.assertTrue(text.startswith("passes: earns $22,366.4105 (44732821 half-mills)\n"))

    def test_earnings(self):
        """What the hours earn by a table, against the sums of the request in fractions."""
        chance = random.Random(11)
        for _ in range(200):
            case = small(
                initial=chance.choice((0, 2, 3)), prices=[chance.randint(-50, 50) for _ in range(4)], orders=[0] * 4
            )
            outputs = [chance.choice((0, 1, 2, 3, 4)) for _ in range(4)]
            a, b, c = (chance.randint(0, 99) for _ in range(3))
            table = [(c * n + b) * n + a for n in range(801)]
            before, wanted = case.initial, []
            for price, output in zip(case.prices, outputs):
                n = Fraction(before + output)
                cost = c * n * n + b * n + (a if output else 0)
                starts, stops = before == 0 < output, output == 0 < before
                wanted.append(price * n - cost - 2 * (3 * starts + 2 * stops))
                before = output
            self.assertEqual(earnings(case, outputs, table), wanted)

    def test_week(self):
        text = self.best(WEEK, MAKER).decode()
        plan = giqapsun.best_by_curve(giqapsun.read(WEEK), read_curve(MAKER).curve)
        self.assertIn(f"\nprofit {plan.profit} half-mills\n", text)

    def test_no_schedule(self):
        """11 is told as without a curve."""
        case = small(initial=0, elapsed=1, mindown=2, prices=[10], orders=[1])
        self.file("d.case", giqapsun.write(case))
        status, printed, message = self.run_tool("best", "d.case", "--curve", SOURCE_CURVE, GIQAPSUN_BEST_DAY="")
        self.assertEqual((status, printed), (2, b""))
        self.assertEqual(message, self.run_tool("best", "d.case", GIQAPSUN_BEST_DAY="")[2])
        self.assertIn("refused 11", message)

    def test_no_program(self):
        """A program takes no curve."""
        message = f"case: {FAKE}: a program takes no curve; without GIQAPSUN_BEST_DAY the library serves\n"
        words = ("best", self.file("d.case", SOURCE), "--curve", MAKER)
        self.assertEqual(self.run_tool(*words, GIQAPSUN_BEST_DAY=str(FAKE)), (2, b"", message))

    def test_no_calendar(self):
        """A curve and a calendar do not go together."""
        words = ("--calendar", str(CASES / "year.csv"), "--first", "0", "--curve", MAKER)
        status, printed, message = self.run_tool("best", self.file("d.case", SOURCE), *words)
        self.assertEqual((status, printed), (2, b""))
        self.assertIn("--calendar and --curve do not go together", message)

    def test_picture(self):
        """The curve is named in place of F."""
        self.best(SOURCE, MAKER, "--plot", "p.svg")
        picture = self.drawn()
        texts = self.texts(picture)
        self.assertTrue(any(words.endswith("maker.toml") and "costs by the curve" in words for words in texts))
        self.assertFalse([words for words in texts if "variable cost F" in words])
        self.coloured(picture)


class Checked(CurveTest):
    """Lists by a curve."""

    def test_passes(self):
        self.file("l.csv", list_text(SOURCE_LIST))
        words = ("check", self.file("d.case", SOURCE), "l.csv", "--curve", MAKER)
        text = self.answered(*words).decode().splitlines()
        self.assertEqual(text[0], "passes: earns $21,905.1655 (43810331 half-mills)")
        self.assertTrue(text[1].startswith("costs by the curve "))
        self.assertEqual(text[2], "read by the library")
        fields = json.loads(self.answered(*words, "--json"))
        self.assertEqual((fields["profit_half_mills"], fields["curve"]["kind"]), (43_810_331, "curved"))

    def test_breaks(self):
        """A breach is told as without a curve, also where the table has no entry."""
        self.file("d.case", CASE_7)
        for outputs in ([2, 2, 0], [65_535, 0, 0]):
            self.file("l.csv", list_text(outputs))
            by_curve = self.run_tool("check", "d.case", "l.csv", "--curve", SOURCE_CURVE)
            self.assertEqual(by_curve, self.run_tool("check", "d.case", "l.csv"))
            self.assertEqual(by_curve[0], 1)


class Files(CurveTest):
    """The files of curves."""

    def kind(self, text):
        """The kind and the coefficients of a file."""
        fields = json.loads(self.answered("curve", self.file("c.toml", text), "--json"))
        return fields["kind"], [fields.get(name) for name in "abc"]

    def test_kinds(self):
        """By the last coefficient that is given, or by the key."""
        for text, kind in (
            ("a = 1", ("flat", [1, None, None])),
            ("a = 1\nb = 2.5", ("straight", [1, 2.5, None])),
            ("c = 3\na = 1\nb = 2", ("curved", [1, 2, 3])),
            ('kind = "flat"\na = 0.5', ("flat", [0.5, None, None])),
            ('kind = "flat"\na = 1\nb = 0\nc = -0.0', ("flat", [1, None, None])),
            ('kind = "curved"\na = 1\nb = 2\nc = 0', ("curved", [1, 2, 0])),
            ("a = 1e6\nb = 1_000_000\nc = 5e-324", ("curved", [1e6, 1e6, 5e-324])),
        ):
            self.assertEqual(self.kind(text), kind)

    def test_faults(self):
        self.fault("", ": a: the key is missing; a flat curve has a")
        self.fault("b = 1", ": a: the key is missing; a straight curve has a, b")
        self.fault("a = 1\nc = 1", ": b: the key is missing; a curved curve has a, b, c")
        self.fault('kind = "curved"\na = 1\nb = 1', ": c: the key is missing; a curved curve has a, b, c")
        self.fault('kind = "bent"\na = 1', ": kind: 'bent'; \"flat\", \"straight\" or \"curved\" needed")
        self.fault("kind = 1\na = 1", ': kind: not a word; "flat", "straight" or "curved" needed')
        self.fault("a = 1\nd = 1", ": d: no such key; a curve has a, b, c and kind")
        for value in ('"1"', "true", "[1]", "2026-01-01"):
            self.fault(f"a = {value}", ": a: not a number")
        self.fault(f"a = {2**53 + 1}", f": a: {2**53 + 1} is no float of 64 bits")
        self.fault(f"a = {10**400}", ": a: a number of more than 300 digits")
        self.assertRegex(self.curve("a = ")[2], r"^case: c.toml: not TOML: ")
        self.assertEqual(self.run_tool("curve", "none.toml")[2], "case: none.toml: No such file or directory\n")

    def test_refused(self):
        for number, words in (
            ("nan", "nan"), ("inf", "inf"), ("-inf", "-inf"), ("-1", "-1"), ("-5e-324", "-5e-324"),
            ("1000000.0000000001", "1000000.0000000001"), ("1000001", "1000001"),
        ):
            allowed = f"{words}, from 0 to 1,000,000 allowed"
            self.refused(f"a = {number}", f"a: {allowed}")
            self.refused(f"a = 1\nb = {number}\nc = 1", f"b: {allowed}")
            self.refused(f"a = 1\nb = {number}\nc = {number}", f"b: {allowed}", f"c: {allowed}")
        self.refused('kind = "flat"\na = 1\nb = 5e-324', "b: 5e-324, 0 allowed in a flat curve")
        self.refused('kind = "straight"\na = 1\nb = 1\nc = nan', "c: nan, 0 allowed in a straight curve")

    def test_standard_input(self):
        """A curve may be the standard input, beside a case that is not."""
        given = self.run_tool("curve", "-", given=b"a = 2.5\n")
        self.assertEqual((given[0], given[2]), (0, ""))
        self.assertIn(b"standard input: flat, a half-mills", given[1])
        self.assertEqual(self.run_tool("best", "-", "--curve", "-")[0], 2)


class Tables(CurveTest):
    """The tables of curves."""

    def test_text(self):
        text = self.answered("curve", self.file("c.toml", "a = 0.5\nb = 1\n")).decode().splitlines()
        self.assertEqual(text[0], "c.toml: straight, b n + a half-mills at n half-megawatt-hours: a 0.5, b 1")
        self.assertEqual(text[2].split(), ["0.0", "0.0000", "0.002"])
        self.assertEqual(text[-2].split(), ["400.0", "0.4000"])
        self.assertEqual(len(text), 2 + 17 + 1)

    def test_every_cost(self):
        """As Python's floats have them, each operation rounded once and a tie to the even number."""
        self.file("c.toml", "a = 0.3\nb = 38.1\nc = 0.7\n")
        rows = list(csv.DictReader(io.StringIO(self.answered("curve", "c.toml", "--csv").decode())))
        costs = [round((0.7 * n + 38.1) * n + 0.3) for n in range(801)]
        self.assertEqual([int(row["cost_half_mills"]) for row in rows], costs)
        self.assertEqual([int(row["energy_half_mwh"]) for row in rows], list(range(801)))
        steps = [later - cost for cost, later in zip(costs, costs[1:])]
        self.assertEqual([row["next_half_mills"] for row in rows], [*map(str, steps), ""])
        entries = json.loads(self.answered("curve", "c.toml", "--json"))["costs"]
        self.assertEqual([entry["cost_half_mills"] for entry in entries], costs)
        self.assertEqual(entries[800]["cost_dollars"], f"{costs[800] / 2000:.4f}")

    def test_picture(self):
        for text in ("a = 0", "a = 7", "a = 0.5\nb = 1", "a = 1e6\nb = 1e6\nc = 1e6", "a = 412500.5\nb = 29250\nc = 14"):
            self.answered("curve", self.file("c.toml", text), "--plot", "p.svg")
            picture = self.drawn()
            texts = self.texts(picture)
            for label in ("Costs of the curve c.toml", "cost of an on-line hour ($)", "next ($/MWh)", "400"):
                self.assertIn(label, texts)
            costs, rates = [line.get("points").split() for line in picture.iter(SVG + "polyline")]
            self.assertEqual((len(costs), len(rates)), (801, 1600))
            heights = [float(point.split(",")[1]) for point in costs]
            self.assertEqual(heights, sorted(heights, reverse=True))
            self.assertEqual(len(self.titles(picture)), 80)
            self.coloured(picture)
