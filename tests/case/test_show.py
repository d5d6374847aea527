"""case show: every field of a case, in words, as JSON and CSV, and as the files that make it again."""

import csv
import io
import json
import random
from dataclasses import asdict

from tool import (
    BELOW_ZERO, BOILER, CASE_7, EVENING, MORNING, OLD_CASE_7, READ_ONLY, SECOND_CASE_7, SOURCE, WEEK, ToolTest, file_of,
    giqapsun, random_opening, small,
)

CASE_7_TEXT = """\
form                3               of the file, with stages and signed 32-bit prices
capacity            4 MW
minimum             2 MW            minimum output
rampup              1 MW per hour   ramp-up limit RU
rampdown            1 MW per hour   ramp-down limit RD
minup               1 hours         minimum up time
mindown             1 hours         minimum down time
variable           10 mills         variable cost F, per MWh: $0.010
fixed               1 mills         fixed cost A, per on-line hour: $0.001
startcost           3 mills         start-up cost B, per start: $0.003
stopcost            2 mills         shut-down cost C, per stop: $0.002
initial             3 MW            output p(0) before hour 1
elapsed             2 hours         h, hours on-line before hour 1
rise             1, 2 MW            start-up trajectory PU, UD 2
fall             2, 1 MW            shut-down trajectory PD, DD 2
hours               3               T, the hours of the day

hour  price (mills/MWh)  price ($/MWh)  order
   1                  5          0.005  free
   2                  5          0.005  free
   3                  5          0.005  free

read by the library
"""


class Shown(ToolTest):
    """Cases in words and for programs."""

    def shown(self, data, *words):
        """The text of a case."""
        return self.answered("show", self.file("d.case", data), *words).decode()

    def test_case_7(self):
        self.assertEqual(self.shown(CASE_7), CASE_7_TEXT)

    def test_other_forms(self):
        """The same text under another form."""
        for data, named, prices in ((SECOND_CASE_7, "  2", "signed 32-bit"), (OLD_CASE_7, "old", "16-bit")):
            form, *lines = self.shown(data).splitlines(keepends=True)
            said = f"of the file, with {prices} prices; form 3 is the one that is written\n"
            self.assertEqual(form, f"form              {named}               {said}")
            self.assertEqual(lines, CASE_7_TEXT.splitlines(keepends=True)[1:])

    def test_stages(self):
        """The stage that a day opens in, and nothing of one that it does not."""
        text = self.shown(MORNING)
        self.assertIn("elapsed            17 hours         h, hours on-line before hour 1\n"
                      "downstage           2               the day opens in stage 2 of 3 of a shut-down\n"
                      "rise  ", text)
        self.assertNotIn("upstage", text)
        text = self.shown(file_of(initial=1, elapsed=1, upstage=1))
        self.assertIn("elapsed             1 hours         h, hours on-line before hour 1\n"
                      "upstage             1               the day opens in stage 1 of 2 of a start-up\n"
                      "rise  ", text)
        self.assertNotIn("downstage", text)

    def test_prices_below_zero(self):
        """Minus signs, and columns that stay as they are for the longest price."""
        text = self.shown(file_of(prices=[-10_000_000, -1, 10_000_000]))
        self.assertEqual(text[text.index("hour  price") :], """\
hour  price (mills/MWh)  price ($/MWh)  order
   1          -10000000    -10,000.000  free
   2                 -1         -0.001  free
   3           10000000     10,000.000  free

read by the library
""")

    def test_orders_and_opening(self):
        text = self.shown(file_of(initial=0, prices=[5, 7], orders=[1, 2]))
        self.assertIn("h, hours off-line before hour 1\n", text)
        self.assertIn("   1                  5          0.005  on\n", text)
        self.assertIn("   2                  7          0.007  off\n", text)

    def test_json(self):
        """The record itself, under the record's names."""
        for data, form in (
            (CASE_7, 3), (SOURCE, 3), (BELOW_ZERO, 3), (MORNING, 3), (SECOND_CASE_7, 2), (OLD_CASE_7, "old")
        ):
            answer = json.loads(self.shown(data, "--json"))
            self.assertEqual(list(answer), ["form", "case", "read_by"])
            self.assertEqual((answer["form"], answer["read_by"]), (form, "library"))
            self.assertEqual(list(answer["case"]), list(asdict(giqapsun.Case())))
            self.assertEqual(giqapsun.Case(**answer["case"]), giqapsun.read(data))

    def test_csv(self):
        rows = list(csv.DictReader(io.StringIO(self.shown(file_of(orders=[0, 1, 2]), "--csv"))))
        self.assertEqual(rows.pop(0), {"field": "form", "entry": "", "value": "3"})
        self.assertTrue(self.shown(OLD_CASE_7, "--csv").startswith("field,entry,value\nform,,old\n"))
        self.assertEqual(rows[0], {"field": "capacity", "entry": "", "value": "4"})
        self.assertEqual(rows[-1], {"field": "orders", "entry": "3", "value": "2"})
        case = giqapsun.Case()
        for row in rows:
            if row["entry"]:
                getattr(case, row["field"]).append(int(row["value"]))
            else:
                setattr(case, row["field"], int(row["value"]))
        self.assertEqual(case, small(orders=[0, 1, 2]))

    def test_standard_input(self):
        status, printed, message = self.run_tool("show", "-", given=CASE_7)
        self.assertEqual((status, printed.decode(), message), (0, CASE_7_TEXT, ""))
        message = "case: standard input: refused 1: file under 16 bytes, or pairs not as laid down\n"
        message += "case: bytes: 3, at least 16 needed\n"
        self.assertEqual(self.run_tool("show", "-", given=b"abc"), (2, b"", message))


class MadeAgain(ToolTest):
    """The two files that a case gives back."""

    def again(self, data):
        """The case made of the files that a case gives back."""
        name = self.file("d.case", data)
        self.assertEqual(self.answered("show", name, "--toml", "u.toml", "--prices", "p.csv"), b"")
        return self.answered("make", "u.toml", "p.csv")

    def test_stored_cases(self):
        for data in (BELOW_ZERO, BOILER, CASE_7, EVENING, MORNING, SOURCE, WEEK):
            self.assertEqual(self.again(data), data)
        for old, data in READ_ONLY:
            self.assertEqual(self.again(old), data)
        self.again(SOURCE)
        toml = (self.folder / "u.toml").read_text()
        self.assertNotIn("stage", toml)
        self.assertIn("rampup = 60                               # ramp-up limit RU, MW per hour\n", toml)
        self.assertIn("startcost_dollars = 850.000               # start-up cost B, per start\n", toml)
        self.assertTrue((self.folder / "p.csv").read_text().startswith("hour,price_dollars,order\n1,26.950,free\n"))

    def test_stages(self):
        """A stage has a line of its own, with what it means."""
        self.again(MORNING)
        stage = "shut_down_stage = 2                       # the day opens in stage 2 of 3 of a shut-down\n"
        self.assertIn(stage, (self.folder / "u.toml").read_text())
        self.again(file_of(initial=1, elapsed=1, upstage=1))
        stage = "start_up_stage = 1                        # the day opens in stage 1 of 2 of a start-up\n"
        self.assertIn(stage, (self.folder / "u.toml").read_text())

    def test_random_cases(self):
        """Any case within the limits."""
        chance = random.Random(1)
        number = chance.randint
        for _ in range(30):
            capacity = number(20, 400)
            minimum = number(10, capacity)
            hours = number(1, 168)
            case = giqapsun.Case(
                capacity=capacity, minimum=minimum, rampup=number(1, 400), rampdown=number(1, 400),
                minup=number(1, 24), mindown=number(1, 24), variable=number(0, 10**6), fixed=number(0, 10**8),
                startcost=number(0, 10**8), stopcost=number(0, 10**8), rise=[*range(1, number(1, 8)), minimum],
                fall=[minimum, *range(number(1, 8) - 1, 0, -1)], prices=[number(-(10**7), 10**7) for _ in range(hours)],
                orders=[number(0, 2) for _ in range(hours)], initial=number(minimum, capacity),
                elapsed=number(8, 10_000),
            )
            data = giqapsun.write(random_opening(chance, case) if chance.random() < 0.5 else case)
            self.assertEqual(self.again(data), data)

    def test_one_of_the_two(self):
        self.answered("show", self.file("d.case", CASE_7), "--prices", "p.csv")
        self.assertEqual((self.folder / "p.csv").read_text().splitlines()[3], "3,0.005,free")
        self.assertFalse((self.folder / "u.toml").exists())

    def test_faults(self):
        self.file("d.case", CASE_7)
        self.at_fault("none/u.toml: No such file or directory", "show", "d.case", "--toml", "none/u.toml")
        self.at_fault("output: '-' is no file to write; name one", "show", "d.case", "--prices", "-")
