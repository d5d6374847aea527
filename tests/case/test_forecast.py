"""case forecast: a plan on a forecast of the prices beside the best list at the actual ones, the regret and the most
that it can be, bad rows of prices, a library that contradicts itself, the picture of both."""

import csv
import io
import json
import os
import random
import re
from dataclasses import replace
from unittest import mock

from tool import (
    BELOW_ZERO, CASE_7, CASES, EVENING, EVENING_CLOSES, MORNING, OLD_CASE_7, PRICES, ROOT, SECOND_CASE_7, SOURCE, SVG,
    PictureTest, file_of, giqapsun, random_list, row_text, texts,
)

from curves import Curve
from faults import Refused
from forecast import carried
from hours import energies
from reading import Reading

REFUSALS = texts("refusals.tsv")
FORECAST, ACTUAL, MAKER = (str(CASES / name) for name in ("forecast.csv", "source.csv", "maker.toml"))

# prices of the small unit at which it stops, and at which it goes to its capacity; its lists there
LOW, HIGH, STOPS, FULL = [5, 5, 5], [20, 20, 20], [2, 1, 0], [4, 4, 4]

# a unit that earns nothing at prices of 5 whatever it gives, and its lowest list there, which stops after the day
LEVEL, LOWEST = file_of(variable=5, fixed=0), [2, 2, 1]

TABLE = """\
                                                   output (MW)                    earnings ($)
hour  order  forecast ($/MWh)  actual ($/MWh)    plan     best            plan            best
   1  free              0.005           0.020       2 <      4          0.0240          0.0340
   2  free              0.005           0.020       1 <      4          0.0140          0.0390
   3  free              0.005           0.020       0 <      4          0.0030          0.0390

the plan was to earn $-0.0265 (-53 half-mills) on the forecast, f.csv
it earns $0.0410 (82 half-mills) at the actual prices, a.csv: $0.0675 more
the best list at these prices earns $0.1120 (224 half-mills)
regret $0.0710 (142 half-mills), at most $0.1050 (210 half-mills) by the prices
read by the library
"""


def random_row(chance, case):
    """A reading of a case with other prices, near its variable cost, or at it."""
    level = chance.random() < 0.3
    prices = [case.variable + (0 if level else chance.randint(-9, 9)) for _ in case.prices]
    return Reading(replace(case, prices=prices), "library", 3)


def searched(case, curve):
    """The library's best list of a case, by a curve if there is one."""
    return giqapsun.best_by_curve(case, curve.curve) if curve else giqapsun.best(case)


class RowsTest(PictureTest):
    """A test that runs the tool on two rows of prices, f.csv and a.csv."""

    def words(self, data, forecast, actual, *more):
        """The command line for a case and two rows."""
        files = self.file("f.csv", row_text(forecast)), self.file("a.csv", row_text(actual))
        return "forecast", self.file("d.case", data), *files, *more

    def carried(self, data, forecast, actual, *more):
        """What the tool prints."""
        return self.answered(*self.words(data, forecast, actual, *more)).decode()

    def fields(self, *words):
        """What it prints for a program."""
        return json.loads(self.carried(*words, "--json"))


class Regrets(RowsTest):
    """What a plan was to earn, what it earns, and what it could have earned."""

    def regret(self, data, rows, profits, lines):
        """The profits in half-mills, the regret and its most, and the lines below the table, without the last."""
        answer = self.fields(data, *rows)
        names = ("expected_profit", "plan_profit", "best_profit", "regret", "regret_most")
        self.assertEqual(tuple(answer[f"{name}_half_mills"] for name in names), profits)
        text = self.carried(data, *rows)
        self.assertTrue(text.endswith("\nread by the library\n"))
        self.assertEqual(text.split("\n\n")[1].splitlines()[:-1], lines)
        return answer

    def test_prices_that_were_forecast_too_low(self):
        for data in (CASE_7, SECOND_CASE_7, OLD_CASE_7):
            self.assertEqual(self.carried(data, LOW, HIGH), TABLE)

    def test_prices_that_were_forecast_too_high(self):
        """The plan goes to the capacity, 23 half-megawatt-hours in place of 9."""
        answer = self.regret(CASE_7, (HIGH, LOW), (224, -121, -53, 68, 210), [
            "the plan was to earn $0.1120 (224 half-mills) on the forecast, f.csv",
            "it earns $-0.0605 (-121 half-mills) at the actual prices, a.csv: $0.1725 less",
            "the best list at these prices earns $-0.0265 (-53 half-mills)",
            "regret $0.0340 (68 half-mills), at most $0.1050 (210 half-mills) by the prices",
        ])
        self.assertEqual([hour["plan_output"] for hour in answer["hours"]], FULL)
        self.assertEqual([hour["best_output"] for hour in answer["hours"]], STOPS)
        self.assertEqual((answer["same_list"], answer["first_difference"]), (False, {"hour": 1, "plan": 4, "best": 2}))

    def test_equal_rows(self):
        """No regret, and the same list."""
        answer = self.regret(CASE_7, (HIGH, HIGH), (224, 224, 224, 0, 0), [
            "the plan was to earn $0.1120 (224 half-mills) on the forecast, f.csv",
            "it earns $0.1120 (224 half-mills) at the actual prices, a.csv: $0.0000 more",
            "the best list at these prices earns $0.1120 (224 half-mills)",
            "regret $0.0000 (0 half-mills), at most $0.0000 (0 half-mills) by the prices",
            "the plan is the best list",
        ])
        self.assertEqual((answer["same_list"], answer["first_difference"]), (True, None))
        for data in (SOURCE, BELOW_ZERO, EVENING, MORNING):
            case = giqapsun.read(data)
            answer = self.fields(data, case.prices, case.prices)
            self.assertEqual((answer["regret_half_mills"], answer["same_list"]), (0, True))
            self.assertEqual(answer["best_profit_half_mills"], giqapsun.best(case).profit)

    def test_other_rows_with_the_same_list(self):
        """Prices that come higher than forecast and change nothing of the list."""
        self.regret(CASE_7, (HIGH, [30, 20, 21]), (224, 302, 302, 0, 0), [
            "the plan was to earn $0.1120 (224 half-mills) on the forecast, f.csv",
            "it earns $0.1510 (302 half-mills) at the actual prices, a.csv: $0.0390 more",
            "the best list at these prices earns $0.1510 (302 half-mills)",
            "regret $0.0000 (0 half-mills), at most $0.0000 (0 half-mills) by the prices",
            "the plan is the best list",
        ])

    def test_a_tie(self):
        """Another list earns the same, and is the best because it is the lower."""
        answer = self.regret(LEVEL, ([6] * 3, LOW), (23, 0, 0, 0, 11), [
            "the plan was to earn $0.0115 (23 half-mills) on the forecast, f.csv",
            "it earns $0.0000 (0 half-mills) at the actual prices, a.csv: $0.0115 less",
            "the best list at these prices earns $0.0000 (0 half-mills)",
            "regret $0.0000 (0 half-mills), at most $0.0055 (11 half-mills) by the prices",
            "the best list is another: equal profit, and lower at hour 1 (2 below 4 MW)",
            "the best list closes in stage 2 of 2 of a shut-down, stop at hour 4, 1 hour after the last; "
            "C belongs to the day that holds it",
        ])
        self.assertEqual((answer["same_list"], answer["first_difference"]), (False, {"hour": 1, "plan": 4, "best": 2}))
        self.assertEqual((answer["plan_stop_after_day"], answer["best_stop_after_day"]), (None, 4))

    def test_closings(self):
        """Said of the plan, of the best list, or of both; once where they are one list."""
        evening = giqapsun.read(EVENING).prices
        late = [*evening[:21], *[45_000] * 3]
        for rows, names in (
            ((evening, late), ["the plan"]), ((late, evening), ["the best list"]), ((late, late), []),
            ((evening, evening), ["the plan"]), ((evening, [10**6, *evening[1:]]), ["the plan", "the best list"]),
        ):
            lines = [line for line in self.carried(EVENING, *rows).splitlines() if " closes in " in line]
            self.assertEqual(lines, [f"{name} {EVENING_CLOSES}" for name in names])
            message = "".join(f"case: {line}\n" for line in lines)
            self.assertEqual(self.run_tool(*self.words(EVENING, *rows, "--csv"))[2], message)

    def test_random_rows(self):
        """600 small cases, some by a curve: the plan is the best list, is the higher of two that earn the same, or
        earns less; where no list keeps every rule, it is so at both rows."""
        chance, reasons = random.Random(8), {}
        bends = Curve("c.toml", "curved", {"a": 2.5, "b": 7.25, "c": 0.3}).tested()
        for _ in range(600):
            case, _ = random_list(chance)
            curve = chance.choice((None, bends))
            if chance.random() < 0.5:
                case = replace(case, fixed=0, startcost=0, stopcost=0)
            reason = self.reason(*(random_row(chance, case) for _ in range(2)), curve)
            reasons[reason] = reasons.get(reason, 0) + 1
        self.assertEqual(set(reasons), {"identical", "lower", "profit", 11})
        self.assertGreater(min(reasons.values()), 8)

    def reason(self, forecast, actual, curve):
        """Why the best list is the better, or 11. The amounts are those of search and check, the plan earns what it was
        to earn and what the rows differ by over its energy, and the regret is within its limits."""
        try:
            pair = carried("d.case", ("f.csv", forecast), ("a.csv", actual), curve)
        except Refused as refused:
            for row in (forecast, actual):
                with self.assertRaises(giqapsun.Refusal):
                    searched(row.case, curve)
            return refused.number
        plan, best = searched(forecast.case, curve), searched(actual.case, curve)
        self.assertEqual((pair.first.outputs, pair.second.outputs), (plan.outputs, best.outputs))
        self.assertEqual((pair.expected, pair.second.profit), (plan.profit, best.profit))
        moves = [price - foreseen for price, foreseen in zip(actual.case.prices, forecast.case.prices)]
        of_plan, of_best = (energies(actual.case, found.outputs) for found in (plan, best))
        self.assertEqual(pair.first.profit, plan.profit + sum(map(int.__mul__, moves, of_plan)))
        self.assertEqual(pair.regret, best.profit - pair.first.profit)
        self.assertEqual(pair.most, sum(move * (other - one) for move, one, other in zip(moves, of_plan, of_best)))
        self.assertTrue(0 <= pair.regret <= pair.most <= 2 * actual.case.capacity * sum(map(abs, moves)))
        return pair.reason


class Printed(RowsTest):
    """The text, and the answer for programs."""

    def test_everything_else_is_the_case_s(self):
        """The case's own prices are tested, and then replaced; its orders stay."""
        orders = [0, 1, 2]
        text = self.carried(file_of(prices=[10**7, 7, -7], orders=orders), LOW, HIGH)
        self.assertEqual(text, self.carried(file_of(orders=orders), LOW, HIGH))
        self.assertEqual(re.findall(r"^ +\d+ +(\w+)", text, re.MULTILINE), ["free", "on", "off"])

    def test_forms_of_a_row(self):
        """In dollars or in mills, with the case's orders or without; what show --prices writes is one."""
        data = file_of(orders=[0, 1, 2])
        text = self.carried(data, LOW, HIGH)
        for row in (
            "hour,price_dollars\n1,0.005\n2,0.005\n3,0.005\n", "hour,price_mills,order\n1,5,free\n2,5,on\n3,5,off\n",
            "\ufefforder,hour,price_dollars\r\nfree,1,0.005\r\non,2,0.005\r\noff,3,0.005\r\n",
        ):
            self.file("f.csv", row)
            self.assertEqual(self.answered("forecast", "d.case", "f.csv", "a.csv").decode(), text)
        self.answered("show", "d.case", "--prices", "f.csv")
        self.assertEqual(self.answered("forecast", "d.case", "f.csv", "a.csv").decode(), text)

    def test_json(self):
        answer = self.fields(CASE_7, LOW, HIGH)
        hours = answer.pop("hours")
        self.assertEqual(answer, {
            "forecast_file": "f.csv", "actual_file": "a.csv",
            "expected_profit_half_mills": -53, "expected_profit_dollars": "-0.0265",
            "plan_profit_half_mills": 82, "plan_profit_dollars": "0.0410",
            "best_profit_half_mills": 224, "best_profit_dollars": "0.1120",
            "regret_half_mills": 142, "regret_dollars": "0.0710",
            "regret_most_half_mills": 210, "regret_most_dollars": "0.1050",
            "same_list": False, "first_difference": {"hour": 1, "plan": 2, "best": 4},
            "plan_stop_after_day": None, "best_stop_after_day": None, "read_by": "library",
        })
        self.assertEqual(hours[2], {
            "hour": 3, "order": "free", "forecast_mills": 5, "actual_mills": 20, "plan_output": 0, "best_output": 4,
            "plan_earnings_half_mills": 6, "best_earnings_half_mills": 78,
            "plan_earnings_dollars": "0.0030", "best_earnings_dollars": "0.0390",
        })

    def test_text_json_and_csv(self):
        """The same hours and the same sums."""
        forecast, case = [price + 4000 * (-1) ** k for k, price in enumerate(giqapsun.read(SOURCE).prices)], SOURCE
        actual = giqapsun.read(SOURCE).prices
        answer = self.fields(case, forecast, actual)
        rows = list(csv.DictReader(io.StringIO(self.carried(case, forecast, actual, "--csv"))))
        self.assertEqual(rows, [{name: str(cell) for name, cell in hour.items()} for hour in answer["hours"]])
        lines = self.carried(case, forecast, actual).splitlines()[2:26]
        for row, line in zip(rows, lines, strict=True):
            cells = [cell for cell in line.replace(",", "").split() if cell not in "<>"]
            prices = [f"{int(row[name]) / 1000:.3f}" for name in ("forecast_mills", "actual_mills")]
            self.assertEqual(cells, [
                row["hour"], row["order"], *prices, row["plan_output"], row["best_output"],
                row["plan_earnings_dollars"], row["best_earnings_dollars"],
            ])
        for place in ("plan", "best"):
            earned = sum(int(row[f"{place}_earnings_half_mills"]) for row in rows)
            self.assertEqual(earned, answer[f"{place}_profit_half_mills"])
        self.assertEqual([int(row["forecast_mills"]) for row in rows], forecast)
        self.assertEqual([int(row["actual_mills"]) for row in rows], actual)

    def test_wide_amounts(self):
        """A column is as wide as its widest amount."""
        data = file_of(capacity=400, rampup=400, initial=400, fixed=10**8)
        text = self.carried(data, [10**7] * 3, [10**7] * 3)
        self.assertEqual(text.split("\n\n")[0], """\
                                                   output (MW)                    earnings ($)
hour  order  forecast ($/MWh)  actual ($/MWh)    plan     best            plan            best
   1  free         10,000.000      10,000.000     400      400  3,899,996.0000  3,899,996.0000
   2  free         10,000.000      10,000.000     400      400  3,899,996.0000  3,899,996.0000
   3  free         10,000.000      10,000.000     400      400  3,899,996.0000  3,899,996.0000""")

    def test_standard_input(self):
        """Any one of the files."""
        self.carried(CASE_7, LOW, HIGH)
        files = {"d.case": CASE_7, "f.csv": row_text(LOW).encode(), "a.csv": row_text(HIGH).encode()}
        for name, data in files.items():
            words = ["-" if file == name else file for file in files]
            text = TABLE.replace(name, "standard input")
            self.assertEqual(self.run_tool("forecast", *words, given=data), (0, text.encode(), ""))
        curve = self.run_tool("forecast", *files, "--curve", "-", given=b"a = 2\nb = 10\n")
        self.assertEqual((curve[0], curve[2]), (0, ""))

    def test_strange_names(self):
        """A name that is no text is printed on its line."""
        self.carried(CASE_7, LOW, HIGH)
        for name, shown in (("x\ny.csv", "x?y.csv"), (os.fsdecode(b"\xff.csv"), "?.csv"), ("<&>.csv", "<&>.csv")):
            words = ("forecast", "d.case", self.file(name, row_text(LOW)), "a.csv")
            self.assertIn(f" on the forecast, {shown}\n", self.answered(*words, "--plot", "p.svg").decode())
            self.assertIn(f"plan: {shown}, earns $0.0410", self.texts(self.drawn()))
            self.assertEqual(json.loads(self.answered(*words, "--json"))["forecast_file"], name)

    def test_the_program_is_not_asked(self):
        """A program has no check, so the library finds both lists."""
        self.assertEqual(self.answered(*self.words(CASE_7, LOW, HIGH), GIQAPSUN_BEST_DAY="nowhere").decode(), TABLE)


class ByCurve(RowsTest):
    """Profits by a boiler maker's curve."""

    def test_curve_of_f_and_a(self):
        """The answer is that without a curve, but for the line that names it."""
        self.file("c.toml", "a = 2\nb = 10\n")
        line = "costs by the curve c.toml: straight, b n + a half-mills at n half-megawatt-hours: a 2, b 10\n"
        text = self.carried(CASE_7, LOW, HIGH, "--curve", "c.toml")
        self.assertEqual(text, TABLE.replace("read by", f"{line}read by"))
        status, printed, message = self.run_tool(*self.words(CASE_7, LOW, HIGH, "--curve", "c.toml", "--csv"))
        self.assertEqual((status, printed.decode()), (0, self.carried(CASE_7, LOW, HIGH, "--csv")))
        self.assertEqual(message, f"case: {line}")

    def test_another_curve(self):
        """What costs nothing goes to the capacity on the forecast, and should have stopped."""
        self.file("c.toml", "a = 0\n")
        answer = self.fields(CASE_7, LOW, [-5] * 3, "--curve", "c.toml")
        names = ("expected_profit", "plan_profit", "best_profit", "regret", "regret_most")
        amounts = [answer[f"{name}_half_mills"] for name in names]
        self.assertEqual(amounts, [115, -115, -49, 66, 140])
        self.assertEqual(answer["curve"], {"file": "c.toml", "kind": "flat", "a": 0.0})
        self.assertEqual([hour["plan_output"] for hour in answer["hours"]], FULL)
        self.assertEqual([hour["best_output"] for hour in answer["hours"]], STOPS)
        self.assertNotIn("curve", self.fields(CASE_7, LOW, HIGH))

    def test_refused(self):
        """16 before any case."""
        self.file("c.toml", "a = -1\n")
        message = f"c.toml: refused 16: {REFUSALS[16]}\na: -1, from 0 to 1,000,000 allowed"
        self.at_fault(message, *self.words(b"no case", LOW, HIGH, "--curve", "c.toml"))

    def test_no_schedule(self):
        """11 is told as without a curve."""
        self.file("c.toml", "a = 0\n")
        words = self.words(file_of(initial=0, prices=[10] * 4, orders=[2, 1, 0, 2]), [1] * 4, [10**7] * 4)
        self.assertEqual(self.run_tool(*words, "--curve", "c.toml"), self.run_tool(*words))
        self.assertIn("refused 11", self.run_tool(*words)[2])


class ForecastFaults(RowsTest):
    """Rows of prices that are none, refusals, and a library that contradicts itself."""

    def faulty(self, text, message, data=CASE_7):
        """The fault that is named where a row has this text, in either place."""
        self.file("d.case", data)
        self.file("good.csv", PRICES)
        self.file("r.csv", text)
        for rows in (("r.csv", "good.csv"), ("good.csv", "r.csv")):
            with self.subTest(message=message, rows=rows):
                self.at_fault(message, "forecast", "d.case", *rows)

    def test_length(self):
        for count in (0, 1, 2, 4, 168, 169, 300):
            self.faulty(row_text([5] * count), f"r.csv: prices: {count}, 3 (the hours of the case) needed")

    def test_orders(self):
        """An order that is not the case's; the first is named."""
        head = "hour,price_mills,order\n"
        self.faulty(f"{head}1,5,free\n2,5,on\n3,5,off\n", "r.csv:3: order: on at hour 2, free in the case")
        ordered = file_of(orders=[0, 1, 2])
        self.faulty(f"{head}\n1,5,free\n2,5,on\n3,5,on\n", "r.csv:5: order: on at hour 3, off in the case", ordered)
        self.faulty(f"{head}1,5,free\n2,5,free\n3,5,off\n", "r.csv:3: order: free at hour 2, on in the case", ordered)
        self.faulty(f"{head}1,5,free\n2,5,of\n", "r.csv:3: order: 'of' is not free, on or off")

    def test_limits(self):
        """13 of either row, with the hours at fault by their lines."""
        said, limits = f"r.csv: refused 13: {REFUSALS[13]}", "from $-10,000.000 to $10,000.000 allowed"
        for text, details in (
            ("hour,price_mills\n1,5\n2,-10000001\n3,5\n",
             ["r.csv:3: price_mills: -10,000,001 mills ($-10,000.001) at hour 2"]),
            ("hour,price_dollars\n1,10000\n2,-10000\n\n3,10000.001\n",
             ["r.csv:5: price_dollars: 10,000,001 mills ($10,000.001) at hour 3"]),
            (f"hour,price_mills\n1,{10**9}\n2,5\n3,{10**12}\n",
             ["r.csv:2: price_mills: 1,000,000,000 mills ($1,000,000.000) at hour 1",
              "r.csv:4: price_mills: 1,000,000,000,000 mills ($1,000,000,000.000) at hour 3"]),
        ):
            details = [f"{detail}, {limits}" for detail in details]
            self.faulty(text, "\n".join([said, *details]))
            status, printed, _ = self.run_tool("forecast", "d.case", "r.csv", "good.csv", "--json")
            answer = {"refused": 13, "text": REFUSALS[13], "details": details}
            self.assertEqual((status, json.loads(printed)), (2, answer))
        text = self.carried(CASE_7, [-(10**7)] * 3, [10**7] * 3)
        self.assertIn("\n   1  free        -10,000.000      10,000.000 ", text)

    def test_bad_rows(self):
        for text, message in [
            ("", "r.csv:1: empty; the first line names the columns"),
            (b"hour,price_mills\n1,\xff\n", "r.csv:2: not UTF-8"),
            ("hour,output\n1,2\n",
             "r.csv:1: 'output': no such column; there are hour, price_dollars, price_mills, order"),
            ("hour\n1\n", "r.csv:1: price: the column price_dollars or price_mills is missing"),
            ("price_mills\n1\n", "r.csv:1: hour: the column is missing"),
            ("hour,price_mills\n1,5\n3,5\n", "r.csv:3: hour: '3' where hour 2 was expected"),
            ("hour,price_mills\n1,5.5\n", "r.csv:2: price_mills: '5.5' is not a price in whole mills"),
            ("hour,price_dollars\n1,0.0005\n",
             "r.csv:2: price_dollars: '0.0005' is not a price in dollars with up to three decimals"),
        ]:
            self.faulty(text, message)

    def test_files(self):
        """A file that is not there, in each place; the first is named."""
        self.words(CASE_7, LOW, HIGH)
        for words, name in (
            (("none.case", "none.csv", "none.csv"), "none.case"), (("d.case", "none.csv", "other.csv"), "none.csv"),
            (("d.case", "f.csv", "none.csv"), "none.csv"), (("d.case", "f.csv", "a.csv", "--curve", "none"), "none"),
        ):
            self.at_fault(f"{name}: No such file or directory", "forecast", *words)

    def test_standard_input_twice(self):
        for words in (
            ("-", "-", "a.csv"), ("-", "f.csv", "-"), ("d.case", "-", "-"), ("d.case", "-", "a.csv", "--curve", "-"),
        ):
            status, printed, message = self.run_tool("forecast", *words)
            self.assertEqual((status, printed), (2, b""))
            self.assertIn("standard input can be read as one file only", message)

    def test_refused_case(self):
        """The case's refusal comes before any fault of the rows, also that of its own prices."""
        for number, data, said in [
            (1, b"abc", "bytes: 3, at least 16 needed"),
            (8, file_of(orders=[0, 3, 0]), "orders: 3 at hour 2, 0 (free), 1 (on) or 2 (off) allowed"),
            (13, file_of(prices=[-(10**7) - 1, 5, 5]), "prices: -10,000,001 mills ($-10,000.001) at hour 1, from "
             "$-10,000.000 to $10,000.000 allowed"),
        ]:
            message = f"d.case: refused {number}: {REFUSALS[number]}\n{said}"
            self.at_fault(message, "forecast", self.file("d.case", data), "none.csv", "none.csv")

    def test_no_schedule(self):
        """11, as best says it of the case with its own prices."""
        data = file_of(initial=0, prices=[10] * 4, orders=[2, 1, 0, 2])
        words = self.words(data, [1] * 4, [10**7] * 4)
        status, printed, message = self.run_tool(*words)
        self.assertEqual((status, printed), (2, b""))
        self.assertEqual(message, self.run_tool("best", "d.case", GIQAPSUN_BEST_DAY="")[2])
        self.assertIn("case: orders: on-line at hour 2\n", message)
        answer = json.loads(self.run_tool(*words, "--json")[1])
        self.assertEqual((answer["refused"], len(answer["details"])), (11, 5))

    def test_pictures_that_are_not_written(self):
        """Nothing is printed where the picture cannot be written; what stood in its place stays on a refusal."""
        words = self.words(CASE_7, LOW, HIGH)
        self.at_fault("none/p.svg: No such file or directory", *words, "--plot", "none/p.svg")
        self.file("p.svg", "old")
        words = self.words(CASE_7, LOW, HIGH[1:], "--plot", "p.svg")
        self.assertEqual((self.run_tool(*words)[0], (self.folder / "p.svg").read_text()), (2, "old"))

    def contradicted(self, message, words, **answers):
        """A library with these answers to its calls is at fault, and nothing is printed."""
        for name, answer in answers.items():
            given = {"side_effect": answer} if isinstance(answer, list) else {"return_value": answer}
            with self.subTest(message=message), mock.patch.object(giqapsun, name, **given):
                self.at_fault(message, *words)

    def test_a_plan_that_does_not_carry(self):
        """The plan passes at any prices, and earns what the rows say."""
        words = self.words(CASE_7, LOW, HIGH)
        for verdict in (giqapsun.Breaks(1, 3), giqapsun.Passes(81), giqapsun.Passes(-53)):
            message = f"the library: check of the plan: {verdict}, where the search gives Passes(profit=82)"
            self.contradicted(message, words, check=verdict)
        self.file("c.toml", "a = 2\nb = 10\n")
        message = "the library: check of the plan: Passes(profit=3), where the search gives Passes(profit=82)"
        self.contradicted(message, [*words, "--curve", "c.toml"], check_by_curve=giqapsun.Passes(3))

    def test_a_best_list_that_does_not_pass(self):
        message = "the library: check of the best: Passes(profit=225), where the search gives Passes(profit=224)"
        verdicts = [giqapsun.Passes(82), giqapsun.Passes(225)]
        self.contradicted(message, self.words(CASE_7, LOW, HIGH), check=verdicts)

    def test_a_best_list_that_is_not_the_best(self):
        """The plan earns more, or as much and is lower."""
        full, stops = giqapsun.Plan(FULL, 224), giqapsun.Plan(STOPS, 82)
        message = "the library: best: the plan earns 224 and is better than the best list, which earns 82"
        self.contradicted(message, self.words(CASE_7, HIGH, HIGH), best=[full, stops])
        low, high = giqapsun.Plan(LOWEST, 0), giqapsun.Plan(FULL, 0)
        message = "the library: best: the plan earns 0 and is better than the best list, which earns 0"
        self.contradicted(message, self.words(LEVEL, LOW, LOW), best=[low, high])

    def test_a_plan_that_was_not_the_best(self):
        """More regret than the prices allow."""
        full, stops = giqapsun.Plan(FULL, 224), giqapsun.Plan(STOPS, 82)
        message = "the library: best: the regret is 142, where the prices allow 0"
        self.contradicted(message, self.words(CASE_7, HIGH, HIGH), best=[stops, full])

    def test_one_row_that_is_refused(self):
        message = "the library: best: refused 11 at one row of prices, and a list at the other"
        full, none = giqapsun.Plan(FULL, 224), giqapsun.Refusal(11)
        for answers in ([full, none], [none, full]):
            self.contradicted(message, self.words(CASE_7, HIGH, HIGH), best=answers)

    def test_a_profit_that_the_hours_do_not_earn(self):
        message = "the library: profit: 225, and the hours earn 224"
        self.contradicted(message, self.words(CASE_7, HIGH, HIGH), best=giqapsun.Plan(FULL, 225))


class Stored(RowsTest):
    """The stored forecast of the source's day."""

    def shown(self):
        """What docs/readers/forecast.md shows below each command of this kind: the indented lines up to the next
        command, or up to the text."""
        command, blocks = None, {}
        for line in (ROOT / "docs/readers/forecast.md").read_text(encoding="utf-8").splitlines():
            if line.startswith("    tools/case/case "):
                command = line.strip()
            elif line and not line.startswith("    "):
                command = None
            elif line and command and command.startswith("tools/case/case forecast "):
                blocks.setdefault(command, []).append(line.removeprefix("    "))
        return blocks

    def test_page(self):
        """It is printed, in its order."""
        os.symlink(CASES, self.folder / "cases")
        stored = "tools/case/case forecast cases/source.case cases/forecast.csv cases/source.csv"
        blocks = self.shown()
        self.assertTrue({stored, f"{stored} --curve cases/maker.toml"} <= set(blocks))
        for command, lines in blocks.items():
            _, text, message = self.run_tool(*command.split()[1:])
            printed = iter([*text.decode().splitlines(), *message.splitlines()])
            for line in lines:
                self.assertIn(line, printed, command)

    def test_amounts_of_the_cases_page(self):
        """What cases/README.md says of the day, by F and A and by the maker's curve."""
        readme = (CASES / "README.md").read_text(encoding="utf-8")
        self.file("d.case", SOURCE)
        for more in ((), ("--curve", MAKER)):
            answer = json.loads(self.answered("forecast", "d.case", FORECAST, ACTUAL, "--json", *more))
            for name in ("expected_profit", "plan_profit", "best_profit", "regret", "regret_most"):
                dollars = f"${answer[f'{name}_half_mills'] / 2000:,.4f}"
                self.assertIn(dollars.rstrip("0").rstrip("."), readme)


class PlotOfForecast(RowsTest):
    """Pictures of a plan and the best list."""

    def picture(self, *words):
        """The picture, which changes nothing of the text."""
        text = self.carried(*words)
        self.assertEqual(self.carried(*words, "--plot", "p.svg"), text)
        return self.drawn()

    def test_words(self):
        texts_of = self.texts(self.picture(CASE_7, LOW, HIGH))
        for label in (
            "Plan on a forecast for d.case", "regret $0.0710, at most $0.1050 by the prices",
            "plan: f.csv, earns $0.0410", "best: a.csv, earns $0.1120",
            "forecast: f.csv, the plan was to earn $-0.0265", "actual: a.csv", "output p(k) (MW)", "price ($/MWh)",
            "variable cost F", "they differ", "forecast", "actual",
        ):
            self.assertIn(label, texts_of)

    def test_told_apart_without_colours(self):
        """Lists as in a picture of two lists; the forecast is dashed, the actual prices a full line, both in the
        key."""
        prices = giqapsun.read(SOURCE).prices
        picture = self.picture(SOURCE, [price + 1000 for price in prices], prices)
        style = picture.find(SVG + "style").text
        self.assertRegex(style, r"\.forecast {[^}]*stroke-dasharray")
        self.assertNotRegex(style, r"\.price {[^}]*stroke-dasharray")
        for kind, points in (("output", 25), ("other", 25), ("forecast", 48), ("price", 48)):
            found = [len(line.get("points").split()) for line in self.kinds(picture, "polyline", kind)]
            self.assertEqual(found, [2, points])
        self.coloured(picture)

    def test_numbers(self):
        """The prices of both rows below their panel, the forecast above."""
        amounts = self.kinds(self.picture(CASE_7, [-5, 6, 7], HIGH), "text", "amount")
        self.assertEqual([amount.text for amount in amounts], ["-0.005", "0.006", "0.007", *["0.020"] * 3])
        heights = [float(amount.get("y")) for amount in amounts]
        self.assertEqual(heights, [heights[0]] * 3 + [heights[0] + 68] * 3)

    def test_scale(self):
        """One scale for both rows; prices off it are counted together."""
        picture = self.picture(file_of(prices=[5] * 8, orders=[0] * 8), [5] * 7 + [9000], [8000] + [6] * 7)
        self.assertIn("\u25b2 2 prices above this scale", self.texts(picture))
        self.assertEqual(len(self.kinds(picture, "polygon", "cut")), 2)
        for rows in ((LOW, [50] * 3), ([50] * 3, LOW)):
            self.assertEqual(self.kinds(self.picture(CASE_7, *rows), "polygon", "cut"), [])

    def test_hovers(self):
        titles = self.titles(self.picture(file_of(orders=[0, 1, 0]), LOW, HIGH))
        self.assertEqual(
            titles[1],
            "hour 2 (ordered on-line), forecast 0.005, actual 0.020 $/MWh: 1 MW in the plan, which earns $0.0140; "
            "4 MW in the best, which earns $0.0390",
        )

    def test_curve(self):
        """The curve is named in place of F."""
        self.file("c.toml", "a = 0\n")
        texts_of = self.texts(self.picture(CASE_7, LOW, HIGH, "--curve", "c.toml"))
        self.assertTrue(any(words.endswith("by the prices, costs by the curve c.toml") for words in texts_of))
        self.assertFalse([words for words in texts_of if "variable cost F" in words])

    def test_sequences_at_the_ends(self):
        """The stop after the day stands beside what the list earns, and how the day opens below its outputs."""
        self.assertIn("best: a.csv, earns $0.0000, stop at hour 4", self.texts(self.picture(LEVEL, [6] * 3, LOW)))
        prices = giqapsun.read(MORNING).prices
        self.assertIn("opens in stage 2 of 3 of a shut-down", self.texts(self.picture(MORNING, prices, prices)))

    def test_shortest_and_longest_day(self):
        self.coloured(self.picture(file_of(prices=[5], orders=[0]), [-(10**7)], [10**7]))
        self.coloured(self.picture(file_of(prices=[5] * 48, orders=[0] * 48), [10**7] * 48, [-(10**7)] * 48))
        self.coloured(self.picture(file_of(prices=[5] * 168, orders=[0] * 168), LOW * 56, HIGH * 56))
