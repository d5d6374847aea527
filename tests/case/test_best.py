"""case best: the table of an answer, answers that are none, the program and the library."""

import csv
import io
import json
import os
import re
import subprocess

from tool import (
    BELOW_ZERO, BELOW_ZERO_LIST, CASE_7, FAKE, OLD_CASE_7, OLD_SOURCE, ROOT, SECOND_CASE_7, SECOND_SOURCE, SOURCE,
    SOURCE_LIST, ToolTest, file_of, known_days, texts, unit,
)

CASE_7_ANSWER = "profit -53\n1 2 5\n2 1 3\n3 0 1\n"
CASE_7_TABLE = """\
hour  order  price ($/MWh)  output (MW)  energy (MWh)    earnings ($)
   1  free           0.005            2           2.5         -0.0135
   2  free           0.005            1           1.5         -0.0085
   3  free           0.005            0           0.5         -0.0045
total                                             4.5         -0.0265
profit -53 half-mills
"""


def program():
    """The program that the repository builds, or the one that is named."""
    return os.environ.get("GIQAPSUN_BEST_DAY") or str(ROOT / "target/bin/best_day")


class Answered(ToolTest):
    """Tables of known answers of a program."""

    def table(self, data, text, *words):
        """The table for an answer of the program."""
        fake = {"GIQAPSUN_BEST_DAY": str(FAKE), "FAKE_BEST_DAY_TEXT": text}
        return self.answered("best", self.file("d.case", data), *words, **fake).decode()

    def source_answer(self):
        """The source's day as the program prints it."""
        lines, before = ["profit 33546962"], 170
        for k, output in enumerate(SOURCE_LIST, 1):
            lines.append(f"{k} {output} {before + output}")
            before = output
        return "\n".join(lines) + "\n"

    def test_case_7(self):
        found = f"read by the library; found by the program {FAKE}\n"
        self.assertEqual(self.table(CASE_7, CASE_7_ANSWER), CASE_7_TABLE + found)

    def test_source_day(self):
        table = self.table(SOURCE, self.source_answer()).splitlines()
        self.assertEqual(table[1], "   1  free          26.950          120         145.0     -1,702.2500")
        self.assertEqual(table[8], "   8  free          26.950           37          18.5     -1,154.4250")
        self.assertEqual(table[25], "total                                         4,199.0     16,773.4810")
        self.assertEqual(table[26], "profit 33546962 half-mills")

    def test_orders(self):
        csv_text = "hour,price_mills,order\n1,10,free\n2,10,on\n3,10,free\n4,10,off\n"
        data = self.made(unit(initial="0"), csv_text)
        table = self.table(data, "profit -16\n1 1 1\n2 2 3\n3 1 3\n4 0 1\n")
        self.assertEqual(re.findall(r"^ +\d+ +(\w+)", table, re.MULTILINE), ["free", "on", "free", "off"])

    def test_json(self):
        answer = json.loads(self.table(SOURCE, self.source_answer(), "--json"))
        hours = answer.pop("hours")
        self.assertEqual(answer, {
            "profit_half_mills": 33546962, "profit_dollars": "16773.4810", "energy_half_mwh": 8398,
            "stop_after_day": None, "opening_after": {"initial": 144, "elapsed": 17, "upstage": 0, "downstage": 0},
            "read_by": "library", "found_by": str(FAKE),
        })
        self.assertEqual([hour["output"] for hour in hours], SOURCE_LIST)
        self.assertEqual(hours[0], {
            "hour": 1, "order": "free", "price_mills": 26950, "output": 120, "energy_half_mwh": 290,
            "earnings_half_mills": -3404500, "earnings_dollars": "-1702.2500",
        })

    def test_csv(self):
        rows = list(csv.DictReader(io.StringIO(self.table(SOURCE, self.source_answer(), "--csv"))))
        self.assertEqual([int(row["output"]) for row in rows], SOURCE_LIST)
        self.assertEqual(sum(int(row["earnings_half_mills"]) for row in rows), 33546962)
        self.assertEqual(rows[7]["earnings_dollars"], "-1154.4250")


class BestFaults(ToolTest):
    """Refusals, answers that are none, and a program that is not there."""

    def faulty(self, text, message, data=CASE_7, **more):
        """The fault that is named for an answer of the program."""
        with self.subTest(message=message):
            fake = {"GIQAPSUN_BEST_DAY": str(FAKE), "FAKE_BEST_DAY_TEXT": text, **more}
            self.at_fault(message, "best", self.file("d.case", data), **fake)

    def test_refusals(self):
        listed = texts("refusals.tsv")
        self.assertEqual(list(listed), [14, 15, 16, 1, 2, 12, 3, 4, 5, 6, 7, 8, 13, 9, 10, 11])
        for number, text in listed.items():
            if number != 11:
                self.faulty(f"refused {number}\n", f"d.case: refused {number}: {text}")
        self.faulty("refused 77\n", "d.case: refused 77: not in the refusal list")
        text = "d.case: refused 8: an order byte above 2"
        self.faulty("refused 8\n", text, FAKE_BEST_DAY_STATUS="1")
        said = f"{text}\norders: 3 at hour 2, 0 (free), 1 (on) or 2 (off) allowed"
        self.faulty("refused 8\n", said, file_of(orders=[0, 3, 0]))

    def test_answers_that_are_none(self):
        day = "is no line of a best day"
        self.faulty("", f"{FAKE}:1: '' {day}")
        self.faulty("profit x\n", f"{FAKE}:1: 'profit x' {day}")
        self.faulty("profit -53\n1 2\n", f"{FAKE}:2: '1 2' {day}")
        self.faulty("profit -53\n1 2 5\n2 1 3\n", f"{FAKE}:4: '' {day}")
        self.faulty(
            "profit -53\n2 2 5\n", f"{FAKE}:2: '2 2 5' where hour 1 with 5 half-megawatt-hours was expected"
        )
        self.faulty(
            "profit -53\n1 2 4\n", f"{FAKE}:2: '1 2 4' where hour 1 with 5 half-megawatt-hours was expected"
        )
        self.faulty(CASE_7_ANSWER + "4 0 0\n", f"{FAKE}:5: more lines than the 3 hours of the day")
        self.faulty(
            CASE_7_ANSWER.replace("-53", "-52"), f"{FAKE}:1: profit: -52, and the hours earn -53"
        )
        self.faulty(CASE_7_ANSWER, f"{FAKE}: ended with status 3", FAKE_BEST_DAY_STATUS="3")

    def test_program(self):
        self.file("d.case", CASE_7)
        advice = "build it with `tools/build best_day` or set GIQAPSUN_BEST_DAY"
        for name, what in [("none", "No such file or directory"), ("d.case", "Permission denied")]:
            runs = str(self.folder / name)
            self.at_fault(f"{runs}: {what}; {advice}", "best", "d.case", GIQAPSUN_BEST_DAY=runs)

    def test_files(self):
        self.at_fault("e.case: No such file or directory", "best", "e.case", GIQAPSUN_BEST_DAY=str(FAKE))
        fake = {"GIQAPSUN_BEST_DAY": str(FAKE), "FAKE_BEST_DAY_TEXT": CASE_7_ANSWER}
        words = ("best", self.file("d.case", CASE_7), "--plot", "none/d.svg")
        self.at_fault("none/d.svg: No such file or directory", *words, **fake)


class Found(ToolTest):
    """The program itself and the library on the stored cases and the known days."""

    def best(self, data, runs):
        """Status and output of `case best` by a program, or by the library where none is named."""
        status, printed, message = self.run_tool("best", self.file("d.case", data), GIQAPSUN_BEST_DAY=runs)
        return status, printed.decode() + message

    def both(self, data):
        """The answer of the program and that of the library, without the line that says who has found it."""
        for runs, found in (program(), f"the program {program()}"), ("", "the library"):
            status, text = self.best(data, runs)
            line = f"read by the library; found by {found}\n"
            self.assertEqual(text.endswith(line), status == 0)
            yield status, text.removesuffix(line)

    def test_stored_cases(self):
        for data in (CASE_7, SECOND_CASE_7, OLD_CASE_7):
            for answer in self.both(data):
                self.assertEqual(answer, (0, CASE_7_TABLE))
        for data in (SOURCE, SECOND_SOURCE, OLD_SOURCE):
            for status, text in self.both(data):
                self.assertEqual((status, text.splitlines()[-1]), (0, "profit 33546962 half-mills"))

    def test_below_zero(self):
        """Prices and earnings with their signs, in columns of one width."""
        for status, text in self.both(BELOW_ZERO):
            lines = text.splitlines()
            self.assertEqual((status, lines[-1]), (0, "profit 1762365500 half-mills"))
            self.assertEqual([int(line.split()[3]) for line in lines[1:25]], BELOW_ZERO_LIST)
            self.assertEqual(lines[11], "  11  on           -22.000           40          60.0     -3,930.0000")
            self.assertEqual(lines[20], "  20  free       2,750.000          240         240.0    649,920.0000")
            self.assertEqual({len(line) for line in lines[:26]}, {len(lines[0])})

    def test_page(self):
        """What docs/readers/trading-desk.md shows of the stored day below 0 is printed, in its order."""
        page = (ROOT / "docs/readers/trading-desk.md").read_text()
        shown = re.search(r"\n    tools/case/case best cases/below_zero.case\n\n((?:    .*\n)+)", page)[1].splitlines()
        self.assertEqual(len(shown), 10)
        for _, text in self.both(BELOW_ZERO):
            printed = iter(text.splitlines())
            for line in shown:
                self.assertIn(line.removeprefix("    "), printed)

    def test_wide_amounts(self):
        """A column is as wide as its widest amount."""
        data = file_of(capacity=400, rampup=400, initial=400, prices=[10**7] * 3, fixed=10**8)
        for status, text in self.both(data):
            self.assertEqual((status, text), (0, """\
hour  order  price ($/MWh)  output (MW)  energy (MWh)     earnings ($)
   1  free      10,000.000          400         400.0   3,899,996.0000
   2  free      10,000.000          400         400.0   3,899,996.0000
   3  free      10,000.000          400         400.0   3,899,996.0000
total                                         1,200.0  11,699,988.0000
profit 23399976000 half-mills
"""))

    def test_known_days(self):
        for name, initial, elapsed, down, prices, orders, asked, answer in known_days():
            if asked != "best":
                continue
            hours = enumerate(zip(prices.split(","), orders.split(",")), 1)
            csv_text = "hour,price_mills,order\n" + "".join(f"{k},{p},{o}\n" for k, (p, o) in hours)
            data = self.made(unit(initial=initial, elapsed=elapsed, mindown=down), csv_text)
            for status, text in self.both(data):
                with self.subTest(case=name):
                    match answer.split():
                        case ["list", outputs, "profit", profit]:
                            found = re.findall(r"^ +\d+ +\w+ +-?[\d.]+ +(\d+)", text, re.MULTILINE)
                            self.assertEqual((status, ",".join(found)), (0, outputs))
                            self.assertIn(f"\nprofit {profit} half-mills\n", text)
                        case ["refused", number]:
                            self.assertEqual(status, 2)
                            self.assertTrue(text.startswith(f"case: d.case: refused {number}: "))

    def test_refusals(self):
        for number, data, words in [
            (1, b"", "bytes: 0, at least 16 needed"),
            (2, file_of(prices=[1] * 169, orders=[0] * 169), "hours: 169, from 1 to 168 allowed"),
            (4, file_of(minup=25), "minup: 25, from 1 to 24 allowed"),
            (3, file_of(minimum=5), "minimum: 5, from 1 to the capacity 4 allowed"),
            (8, OLD_CASE_7[:-1] + b"\x03", "orders: 3 at hour 3, 0 (free), 1 (on) or 2 (off) allowed"),
            (1, bytes(5000), "byte 0: offset of unit: 0, 20 (16 in the old form) needed"),
            (12, CASE_7[:-2] + b"\x05\x00", "byte 77: form number: 5, 2 or 3 needed"),
            (7, file_of(downstage=3), "downstage: 3, 0 or from 2 to 2 allowed with 2 outputs of fall"),
            (13, file_of(prices=[5, 5, 10**7 + 1]), "prices: 10,000,001 mills ($10,000.001) at hour 3, from "
             "$-10,000.000 to $10,000.000 allowed"),
        ]:
            for status, text in self.both(data):
                self.assertEqual(status, 2)
                self.assertIn(f"refused {number}: ", text)
                self.assertIn(f"case: {words}\n", text)

    def test_program_by_itself(self):
        """As the page for the control room says: status 0 always, the first word is `profit` or `refused`."""
        if "GIQAPSUN_BEST_DAY" in os.environ:
            self.skipTest("a program of another supplier")
        for data, text in [(CASE_7, CASE_7_ANSWER), (b"", "refused 1\n"), (file_of(minimum=5), "refused 3\n")]:
            done = subprocess.run([program()], input=data, capture_output=True, check=False)
            self.assertEqual((done.returncode, done.stdout.decode()), (0, text))

    def test_no_schedule(self):
        """Refusal 11 with what can be said of it."""
        data = file_of(initial=0, prices=[10] * 4, orders=[2, 1, 0, 2])
        text = """\
case: d.case: refused 11: best list asked for, and no list keeps every rule
case: orders: on-line at hour 2
case: orders: off-line at hours 1, 4
case: opening: initial 0 MW, elapsed 2 hours off-line
case: times: minup 1, mindown 1; a start-up takes 2 hours, a shut-down 2
case: the orders before hour 4 can be kept together; with that of hour 4 no list keeps every rule
"""
        for answer in self.both(data):
            self.assertEqual(answer, (2, text))
        status, printed, _ = self.run_tool("best", "d.case", "--json", GIQAPSUN_BEST_DAY="")
        answer = json.loads(printed)
        self.assertEqual((status, answer["refused"], len(answer["details"])), (2, 11, 5))

    def test_no_schedule_after_an_opening_stop(self):
        """A day without orders whose shut-down ends too early for the minimum up time."""
        data = file_of(minup=8, initial=1, elapsed=3, downstage=2)
        text = """\
case: d.case: refused 11: best list asked for, and no list keeps every rule
case: opening: initial 1 MW, elapsed 3 hours on-line, in stage 2 of 2 of a shut-down
case: times: minup 8, mindown 1; a start-up takes 2 hours, a shut-down 2
case: the shut-down that the day opens in has its stop at hour 1, after 3 hours on-line
"""
        for answer in self.both(data):
            self.assertEqual(answer, (2, text))
