"""case better: which of two lists to offer and why, both side by side, bad lists, the picture of both."""

import csv
import io
import json
import os
import random
import re
from unittest import mock

from tool import (
    BELOW_ZERO, BELOW_ZERO_LIST, CASE_7, CASES, COLUMNS, EVENING, EVENING_CLOSES, EVENING_LIST, MORNING, OLD_CASE_7,
    ROOT, SECOND_CASE_7, SOURCE, SOURCE_LIST, SVG, PictureTest, file_of, giqapsun, list_text, random_list, texts,
)

from better import compared
from reading import Reading

# the best list of case 7; two lists of equal profit; one that breaks rule 3 at hour 1, and why
BEST, LOW, HIGH, BROKEN = [2, 1, 0], [2, 3, 2], [3, 2, 2], [5, 5, 5]
BREACH = "hour 1: 5 MW; the capacity is 4"

TABLE = """\
                                output (MW)                    earnings ($)
hour  order  price ($/MWh)   first   second           first          second
   1  free           0.005       2 <      3         -0.0135         -0.0160
   2  free           0.005       1 <      2         -0.0085         -0.0135
   3  free           0.005       0 <      2         -0.0045         -0.0110

the first, a.csv, passes: earns $-0.0265 (-53 half-mills)
the second, b.csv, passes: earns $-0.0405 (-81 half-mills)
they differ first at hour 1: 2 MW in the first, 3 MW in the second
offer the first, a.csv: it earns $0.0140 more
read by the library
"""


class PairTest(PictureTest):
    """A test that runs the tool on two lists, a.csv and b.csv."""

    def compared(self, data, first, second, *words):
        """Status and output."""
        self.file("a.csv", list_text(first))
        self.file("b.csv", list_text(second))
        status, printed, message = self.run_tool("better", self.file("d.case", data), "a.csv", "b.csv", *words)
        self.assertEqual(message, "")
        return status, printed.decode()

    def offered(self, data, first, second):
        """Status, and the lines between the table and the one that says who has read the case."""
        status, text = self.compared(data, first, second)
        self.assertTrue(text.endswith("\nread by the library\n"))
        return status, text.split("\n\n")[1].splitlines()[:-1]


class Chosen(PairTest):
    """Each sentence of the order: the list that is offered, and why."""

    def chosen(self, line, first, second, data=CASE_7, status=0):
        """The last line of the answer, with its status; JSON and Python say the same."""
        found, lines = self.offered(data, first, second)
        self.assertEqual((found, lines[-1]), (status, line))
        answer = json.loads(self.compared(data, first, second, "--json")[1])
        given = giqapsun.better(giqapsun.read(data), first, second)
        self.assertEqual((answer["text"], answer["outputs"]), (line, given))
        self.assertIs({"first": first, "second": second}.get(answer["which"], given), given)

    def test_a_list_that_passes_beats_one_that_does_not(self):
        self.chosen("offer the first, a.csv: the second breaks a rule", HIGH, BROKEN)
        self.chosen("offer the second, b.csv: the first breaks a rule", BROKEN, HIGH)

    def test_whatever_the_other_would_earn(self):
        data, greedy = file_of(prices=[500] * 3), [400] * 3
        self.chosen("offer the first, a.csv: the second breaks a rule", [3, 3, 3], greedy, data)
        self.chosen("offer the second, b.csv: the first breaks a rule", greedy, [3, 3, 3], data)

    def test_the_higher_profit_wins(self):
        self.chosen("offer the first, a.csv: it earns $0.0140 more", BEST, HIGH)
        self.chosen("offer the second, b.csv: it earns $0.0140 more", HIGH, BEST)
        self.chosen("offer the second, b.csv: it earns $1.2250 more", [3, 3, 3], [4, 4, 4], file_of(prices=[500] * 3))
        # below 0 the list that gives less, in a spike the one that gives more
        below, spike = file_of(prices=[-500] * 3), file_of(prices=[80_000] * 3)
        self.chosen("offer the first, a.csv: it earns $1.2750 more", [3, 3, 3], [4, 4, 4], below)
        self.chosen("offer the second, b.csv: it earns $199.9750 more", [3, 3, 3], [4, 4, 4], spike)

    def test_equal_profit_and_the_lower_at_the_first_difference(self):
        self.chosen("offer the first, a.csv: equal profit, and lower at hour 1 (2 below 3 MW)", LOW, HIGH)
        self.chosen("offer the second, b.csv: equal profit, and lower at hour 1 (2 below 3 MW)", HIGH, LOW)
        level = file_of(variable=5, fixed=0)
        self.chosen("offer the first, a.csv: equal profit, and lower at hour 2 (3 below 4 MW)", [3, 3, 4], [3, 4, 3],
                    level)
        self.chosen("offer the second, b.csv: equal profit, and lower at hour 3 (2 below 3 MW)", [2, 2, 3], [2, 2, 2],
                    level)

    def test_identical_lists_give_the_first(self):
        self.chosen("offer the first, a.csv: identical lists give the first", BEST, list(BEST))
        self.assertIn("the two lists are identical", self.offered(CASE_7, BEST, BEST)[1])

    def test_neither(self):
        self.chosen("offer neither: both break a rule", BROKEN, [0, 0, 0], status=1)
        self.chosen("offer neither: both break a rule", BROKEN, list(BROKEN), status=1)

    def test_the_same_file_twice(self):
        self.file("d.case", CASE_7)
        printed = self.answered("better", "d.case", self.file("l.csv", list_text(BEST)), "l.csv").decode()
        self.assertIn("\noffer the first, l.csv: identical lists give the first\n", printed)

    def test_random_pairs(self):
        """The reason that the tool finds is that of the library's choice; it would be a fault otherwise."""
        chance, seen = random.Random(11), {}
        for _ in range(3000):
            case, first = random_list(chance)
            second = list(first)
            if chance.random() < 0.8:
                second[chance.randrange(len(second))] = chance.randint(0, case.capacity)
            if chance.random() < 0.5:
                case.prices, case.fixed, case.startcost, case.stopcost = [case.variable] * len(first), 0, 0, 0
            pair = compared("d.case", Reading(case, "library", 3), ("a.csv", first), ("b.csv", second))
            seen.setdefault(pair.reason, set()).add(type(pair.choice))
        both = {giqapsun.First, giqapsun.Second}
        self.assertEqual(seen, {
            "passes": both, "profit": both, "lower": both, "identical": {giqapsun.First}, "neither": {giqapsun.Neither},
        })


class Printed(PairTest):
    """The text, and the answer for programs."""

    def test_text(self):
        for data in (CASE_7, SECOND_CASE_7, OLD_CASE_7):
            self.assertEqual(self.compared(data, BEST, HIGH), (0, TABLE))

    def test_closing(self):
        """A list that closes in a shut-down, beside one that stays at the minimum."""
        status, lines = self.offered(EVENING, [*EVENING_LIST[:23], 112], EVENING_LIST)
        self.assertEqual((status, lines), (0, [
            "the first, a.csv, passes: earns $17,466.7930 (34933586 half-mills)",
            "the second, b.csv, passes: earns $18,065.2930 (36130586 half-mills)",
            f"    {EVENING_CLOSES}",
            "they differ first at hour 24: 112 MW in the first, 70 MW in the second",
            "offer the second, b.csv: it earns $598.5000 more",
        ]))
        answer = json.loads(self.compared(EVENING, [*EVENING_LIST[:23], 112], EVENING_LIST, "--json")[1])
        self.assertEqual([checked["stop_after_day"] for checked in answer["lists"]], [None, 26])

    def test_below_zero(self):
        """A list that stays on-line through the hours below 0, beside one that stops."""
        steady = [140, 80, 120, 180, 240, 200, 140, *[80] * 9, *BELOW_ZERO_LIST[16:]]
        status, text = self.compared(BELOW_ZERO, BELOW_ZERO_LIST, steady)
        self.assertIn("\n  13  free         -90.000       0 <     80          0.0000    -10,640.0000\n", text)
        self.assertEqual((status, text.splitlines()[-2]), (0, "offer the first, a.csv: it earns $26,968.2500 more"))

    def test_wide_amounts(self):
        """A column is as wide as the widest amount, also that of a list that breaks a rule."""
        _, text = self.compared(file_of(prices=[-(10**7), 10**7, 5]), [65535] * 3, BEST)
        self.assertEqual(text.split("\n\n")[0], """\
                                output (MW)                          earnings ($)
hour  order  price ($/MWh)   first   second              first             second
   1  free     -10,000.000   65535 >      2  -327,690,327.6910       -25,000.0260
   2  free      10,000.000   65535 >      1   655,349,344.6490        14,999.9840
   3  free           0.005   65535 >      0          -327.6760            -0.0045""")

    def test_stored_lists(self):
        """What docs/readers/trading-desk.md shows of the stored lists is printed, in its order."""
        os.symlink(CASES, self.folder / "cases")
        command = "tools/case/case better cases/source.case cases/house_a.csv cases/house_b.csv"
        printed = iter(self.answered(*command.split()[1:]).decode().splitlines())
        page = (ROOT / "docs/readers/trading-desk.md").read_text()
        shown = re.search(rf"\n    {command}\n\n((?:    .*\n|\n)+)", page)[1].splitlines()
        self.assertEqual(len(shown), 15 + 1)
        for line in filter(None, shown):
            self.assertIn(line.removeprefix("    "), printed)

    def test_marks(self):
        """Lower, higher and equal."""
        _, text = self.compared(CASE_7, LOW, HIGH)
        marks = re.findall(r"^ +\d+ +free +-?[\d.]+ +\d+ ([<> ]) +\d+ ", text, re.MULTILINE)
        self.assertEqual(marks, ["<", ">", " "])

    def test_breach(self):
        """The verdicts are those of check, the breach with its numbers; what a broken list would earn is not said."""
        status, lines = self.offered(CASE_7, BROKEN, BEST)
        self.assertEqual((status, lines), (0, [
            "the first, a.csv, breaks rule 3 at hour 1: upper limit of the output, with the start-up trajectory",
            f"    {BREACH}",
            "the second, b.csv, passes: earns $-0.0265 (-53 half-mills)",
            "they differ first at hour 1: 5 MW in the first, 2 MW in the second",
            "offer the second, b.csv: the first breaks a rule",
        ]))
        for name, place in (("a.csv", 0), ("b.csv", 2)):
            verdict = self.run_tool("check", "d.case", name)[1].decode().splitlines()[0]
            self.assertTrue(lines[place].endswith(f", {name}, {verdict}"))

    def test_orders(self):
        _, text = self.compared(file_of(orders=[0, 1, 2]), BEST, [2, 2, 2])
        self.assertEqual(re.findall(r"^ +\d+ +(\w+)", text, re.MULTILINE), ["free", "on", "off"])

    def test_json(self):
        status, text = self.compared(CASE_7, BROKEN, BEST, "--json")
        answer = json.loads(text)
        lists, hours = answer.pop("lists"), answer.pop("hours")
        self.assertEqual((status, answer), (0, {
            "which": "second", "file": "b.csv", "profit_half_mills": -53, "profit_dollars": "-0.0265", "outputs": BEST,
            "reason": "passes", "text": "offer the second, b.csv: the first breaks a rule",
            "first_difference": {"hour": 1, "first": 5, "second": 2}, "read_by": "library",
        }))
        for entry, name in zip(lists, ("a.csv", "b.csv"), strict=True):
            verdict = json.loads(self.run_tool("check", "d.case", name, "--json")[1])
            self.assertEqual({**entry, "read_by": "library"}, {"file": name, **verdict})
        self.assertEqual(hours[0], {
            "hour": 1, "order": "free", "price_mills": 5, "first_output": 5, "second_output": 2,
            "first_earnings_half_mills": -42, "second_earnings_half_mills": -27,
            "first_earnings_dollars": "-0.0210", "second_earnings_dollars": "-0.0135",
        })
        self.assertEqual([hour["hour"] for hour in hours], [1, 2, 3])

    def test_json_of_neither(self):
        status, text = self.compared(CASE_7, BROKEN, BROKEN, "--json")
        answer = json.loads(text)
        self.assertEqual((status, answer["which"], answer["reason"], answer["outputs"]), (1, "neither", "neither", []))
        for name in ("file", "profit_half_mills", "profit_dollars", "first_difference"):
            self.assertIsNone(answer[name])
        self.assertEqual([entry["text"] for entry in answer["lists"]], [BREACH] * 2)

    def test_json_of_each_reason(self):
        for first, second, which, reason in [
            (BEST, HIGH, "first", "profit"), (HIGH, LOW, "second", "lower"), (LOW, LOW, "first", "identical"),
        ]:
            answer = json.loads(self.compared(CASE_7, first, second, "--json")[1])
            self.assertEqual((answer["which"], answer["reason"]), (which, reason))

    def test_csv(self):
        other = [120] * 24
        status, text = self.compared(SOURCE, SOURCE_LIST, other, "--csv")
        rows = list(csv.DictReader(io.StringIO(text)))
        self.assertEqual(status, 0)
        for place, outputs in (("first", SOURCE_LIST), ("second", other)):
            self.assertEqual([int(row[f"{place}_output"]) for row in rows], outputs)
            profit = giqapsun.check(giqapsun.read(SOURCE), outputs).profit
            self.assertEqual(sum(int(row[f"{place}_earnings_half_mills"]) for row in rows), profit)
        self.assertEqual((rows[7]["first_earnings_dollars"], rows[7]["price_mills"]), ("-1154.4250", "26950"))
        self.assertEqual(self.compared(CASE_7, BROKEN, BROKEN, "--csv")[0], 1)

    def test_standard_input(self):
        """Any one of the three files."""
        self.compared(CASE_7, BEST, HIGH)
        files = {"d.case": CASE_7, "a.csv": list_text(BEST).encode(), "b.csv": list_text(HIGH).encode()}
        for name, data in files.items():
            words = ["-" if file == name else file for file in files]
            text = TABLE.replace(name, "standard input")
            self.assertEqual(self.run_tool("better", *words, given=data), (0, text.encode(), ""))

    def test_the_best_day_as_a_list(self):
        table = self.answered("best", self.file("d.case", CASE_7), "--csv", GIQAPSUN_BEST_DAY="")
        words = ("better", "d.case", self.file("a.csv", list_text(LOW)), "-", "--json")
        status, printed, message = self.run_tool(*words, given=table)
        self.assertEqual((status, message, json.loads(printed)["file"]), (0, "", "-"))

    def test_strange_names(self):
        """A name that is no text is printed on its line."""
        self.file("d.case", CASE_7)
        self.file("a.csv", list_text(BEST))
        for name, shown in (("x\ny.csv", "x?y.csv"), (os.fsdecode(b"\xff.csv"), "?.csv"), ("<&>.csv", "<&>.csv")):
            printed = self.answered("better", "d.case", "a.csv", self.file(name, list_text(LOW)), "--plot", "p.svg")
            self.assertIn(f"\nthe second, {shown}, passes: ", printed.decode())
            self.assertIn(f"second: {shown}, earns $-0.0405", self.texts(self.drawn()))
            answer = json.loads(self.answered("better", "d.case", "a.csv", name, "--json"))
            self.assertEqual(answer["lists"][1]["file"], name)


class BetterFaults(PairTest):
    """Refusals, files that are no lists, and a library that contradicts itself."""

    def refused(self, first, second, message):
        """Refusal 9, with the files that it is about."""
        self.file("d.case", CASE_7)
        words = ("better", "d.case", self.file("a.csv", list_text(first)), self.file("b.csv", list_text(second)))
        said, *details = message
        lines = [f"{said}: refused 9: {texts('refusals.tsv')[9]}", *details]
        self.at_fault("\n".join(lines), *words)
        status, printed, _ = self.run_tool(*words, "--json")
        self.assertEqual((status, json.loads(printed)), (2, {
            "refused": 9, "text": texts("refusals.tsv")[9], "details": details,
        }))

    def test_length(self):
        """9 names each file that has too few or too many outputs, whatever the other is."""
        needed = "3 (the hours of the case) needed"
        for count in (0, 1, 2, 4, 48, 168, 169, 300):
            wrong, said = [2] * count, f"outputs: {count}, {needed}"
            for other in (BEST, BROKEN):
                self.refused(wrong, other, ["a.csv", f"a.csv: {said}"])
                self.refused(other, wrong, ["b.csv", f"b.csv: {said}"])
            self.refused(
                wrong, [0] * 5, ["a.csv, b.csv", f"a.csv: {said}", f"b.csv: outputs: 5, {needed}"]
            )
        words = ("better", "d.case", self.file("l.csv", list_text([1])), "l.csv")
        said = f"l.csv: refused 9: {texts('refusals.tsv')[9]}\nl.csv: outputs: 1, {needed}"
        self.at_fault(said, *words)

    def test_refused_case(self):
        """The case's refusal comes before 9."""
        self.file("a.csv", list_text([]))
        listed = texts("refusals.tsv")
        for number, data, said in [
            (1, b"abc", "bytes: 3, at least 16 needed"),
            (2, file_of(prices=[1] * 169, orders=[0] * 169), "hours: 169, from 1 to 168 allowed"),
            (3, file_of(minimum=5), "minimum: 5, from 1 to the capacity 4 allowed"),
            (8, file_of(orders=[0, 3, 0]), "orders: 3 at hour 2, 0 (free), 1 (on) or 2 (off) allowed"),
            (12, CASE_7[:-2] + b"\4\0", "byte 77: form number: 4, 2 or 3 needed"),
            (7, file_of(upstage=2), "upstage: 2, 0 or from 1 to 1 allowed with 2 outputs of rise"),
            (13, file_of(prices=[-(10**7) - 1, 5, 5]), "prices: -10,000,001 mills ($-10,000.001) at hour 1, from "
             "$-10,000.000 to $10,000.000 allowed"),
        ]:
            words = ("better", self.file("d.case", data), "a.csv", "a.csv")
            self.at_fault(f"d.case: refused {number}: {listed[number]}\n{said}", *words)

    def test_bad_lists(self):
        """Either place; the first file at fault is named."""
        self.file("d.case", CASE_7)
        self.file("good.csv", list_text(BEST))
        (self.folder / "folder").mkdir()
        for data, what in [
            ("", "l.csv:1: empty; the first line names the columns"),
            (b"hour,output\n1,\xff\n", "l.csv:2: not UTF-8"),
            (b"\xff\xfe\0\1", "l.csv:1: not UTF-8"),
            (b"\0\1", f"l.csv:1: '\\x00\\x01': no such column; there are {COLUMNS}"),
            ("hour,outputs\n1,2\n", f"l.csv:1: 'outputs': no such column; there are {COLUMNS}"),
            ("hour,price_mills\n1,5\n", "l.csv:1: output: the column is missing"),
            ("output\n1\n", "l.csv:1: hour: the column is missing"),
            ("hour,output\n1,2\n3,1\n", "l.csv:3: hour: '3' where hour 2 was expected"),
            ("hour,output\n1,2\n1,1\n", "l.csv:3: hour: '1' where hour 2 was expected"),
            ("hour,output\n1,2,3\n", "l.csv:2: 3 cells where 2 were expected"),
            ("hour,output\n1,2.5\n", "l.csv:2: output: '2.5' is not a whole number of MW"),
            ("hour,output\n1,-1\n", "l.csv:2: output: -1, from 0 to 65,535 allowed"),
            ("hour,output\n1,70000\n", "l.csv:2: output: 70000, from 0 to 65,535 allowed"),
            ('hour,output\n1,"2\n', "l.csv:2: not CSV: unexpected end of data"),
        ]:
            self.file("l.csv", data)
            for words in (("l.csv", "good.csv"), ("good.csv", "l.csv"), ("l.csv", "none.csv")):
                with self.subTest(what=what, words=words):
                    self.at_fault(what, "better", "d.case", *words)
        for name, what in [
            ("none.csv", "none.csv: No such file or directory"), ("folder", "folder: Is a directory"),
            ("/dev/zero", "/dev/zero: more than 1,048,576 bytes, too long for an input"),
        ]:
            self.at_fault(what, "better", "d.case", name, "good.csv")
            self.at_fault(what, "better", "d.case", "good.csv", name)
            self.at_fault(what, "better", name, "good.csv", "good.csv")

    def test_unwritable_picture(self):
        """Nothing is printed where the picture cannot be written."""
        self.compared(CASE_7, BEST, HIGH)
        (self.folder / "folder").mkdir()
        for place, what in [
            ("none/p.svg", "none/p.svg: No such file or directory"), ("folder", "folder: Is a directory"),
            ("-", "output: '-' is no file to write; name one"), ("/dev/full", "/dev/full: No space left on device"),
        ]:
            self.at_fault(what, "better", "d.case", "a.csv", "b.csv", "--plot", place)

    def test_no_picture_of_a_refusal(self):
        """What stood in the picture's place stays."""
        self.file("d.case", CASE_7)
        self.file("p.svg", "old")
        words = ("better", "d.case", self.file("a.csv", list_text([1])), "a.csv", "--plot", "p.svg")
        self.assertEqual((self.run_tool(*words)[0], (self.folder / "p.svg").read_text()), (2, "old"))

    def test_a_choice_that_the_verdicts_do_not_give(self):
        """The tool does not explain away what does not follow."""
        self.compared(CASE_7, BEST, HIGH)
        words = ("better", "d.case", "a.csv", "b.csv")
        for choice in (giqapsun.Second(-81), giqapsun.Neither(), giqapsun.First(-52)):
            with mock.patch.object(giqapsun, "compare", return_value=choice):
                self.at_fault(f"the library: better: {choice}, where the two verdicts give First(profit=-53)", *words)
        with mock.patch.object(giqapsun, "check", return_value=giqapsun.Passes(-50)):
            self.at_fault("a.csv: profit: -50, and the hours earn -53", *words)

    def test_refusals_of_another_library(self):
        """A number that the tool cannot bear out is said as it is."""
        self.compared(CASE_7, BEST, HIGH)
        words = ("better", "d.case", "a.csv", "b.csv")
        for number, files in ((4, "d.case"), (9, "a.csv, b.csv")):
            with mock.patch.object(giqapsun, "compare", side_effect=giqapsun.Refusal(number)):
                self.at_fault(f"{files}: refused {number}: {texts('refusals.tsv')[number]}", *words)


class PlotOfTwo(PairTest):
    """Pictures of two lists."""

    def picture(self, data, first, second):
        """The picture, which changes nothing of the text."""
        answer = self.compared(data, first, second)
        self.assertEqual(self.compared(data, first, second, "--plot", "p.svg"), answer)
        return self.drawn()

    def test_source_day(self):
        texts = self.texts(self.picture(SOURCE, SOURCE_LIST, [120] * 24))
        for label in (
            "Two lists for d.case", "offer the first: it earns $21,784.9310 more", "first: a.csv, earns $16,773.4810",
            "second: b.csv, earns $-5,011.4500", "output p(k) (MW)", "price ($/MWh)", "capacity", "minimum",
            "variable cost F", "they differ",
        ):
            self.assertIn(label, texts)

    def test_sequences_at_the_ends(self):
        """The stop after the day stands beside what the list earns, and how the day opens below its outputs."""
        texts = self.texts(self.picture(EVENING, [*EVENING_LIST[:23], 112], EVENING_LIST))
        self.assertIn("first: a.csv, earns $17,466.7930", texts)
        self.assertIn("second: b.csv, earns $18,065.2930, stop at hour 26", texts)
        self.assertFalse([text for text in texts if text.startswith("opens")])
        morning = [30, *[0] * 23]
        self.assertIn("opens in stage 2 of 3 of a shut-down", self.texts(self.picture(MORNING, morning, morning)))

    def test_told_apart_without_colours(self):
        """The first is a full line with dots, the second a dashed one with squares; both are in the key."""
        picture = self.picture(SOURCE, SOURCE_LIST, [120] * 24)
        style = picture.find(SVG + "style").text
        self.assertRegex(style, r"\.other {[^}]*stroke-dasharray")
        self.assertNotRegex(style, r"\.output {[^}]*stroke-dasharray")
        for line, tag, mark in (("output", "circle", "dot"), ("other", "rect", "square")):
            points = [len(found.get("points").split()) for found in self.kinds(picture, "polyline", line)]
            self.assertEqual(points, [2, 25])
            marks = [found for found in self.kinds(picture, tag, mark) if found.get("class") == mark]
            self.assertEqual(len(marks), 25)
        self.assertEqual(len(self.kinds(picture, "circle", "before")), 1)

    def test_marks(self):
        """A mark at each hour where the lists differ, under its tick."""
        marks = self.kinds(self.picture(CASE_7, LOW, HIGH), "rect", "differs")
        self.assertEqual([float(mark.get("x")) + 4 for mark in marks], [100 + 254, 100 + 2 * 254])
        picture = self.picture(CASE_7, LOW, LOW)
        self.assertEqual(self.kinds(picture, "rect", "differs"), [])
        self.assertNotIn("they differ", self.texts(picture))

    def test_neither(self):
        texts = self.texts(self.picture(CASE_7, BROKEN, [65535, 0, 0]))
        self.assertIn("offer neither: both break a rule", texts)
        self.assertIn("first: a.csv, breaks rule 3 at hour 1", texts)

    def test_hovers(self):
        titles = self.titles(self.picture(file_of(orders=[0, 1, 0]), LOW, HIGH))
        self.assertEqual(len(titles), 3)
        self.assertEqual(
            titles[1],
            "hour 2 (ordered on-line), 0.005 $/MWh: 3 MW in the first, which earns $-0.0135; "
            "2 MW in the second, which earns $-0.0135",
        )

    def test_colours(self):
        self.coloured(self.picture(SOURCE, SOURCE_LIST, [120] * 24))

    def test_long_names(self):
        """The end of a name stands in the key."""
        self.file("d.case", CASE_7)
        name = self.file(f"{'x' * 200}.csv", list_text(BEST))
        self.answered("better", "d.case", name, name, "--plot", "p.svg")
        self.assertIn(f"first: ...{'x' * 53}.csv, earns $-0.0265", self.texts(self.drawn()))

    def test_below_zero(self):
        """The price of each hour in numbers, 0 inside the scale, spikes cut and marked."""
        picture = self.picture(BELOW_ZERO, BELOW_ZERO_LIST, [80] * 24)
        self.assertEqual(len(self.kinds(picture, "polygon", "cut")), 3)
        self.assertIn("\u25b2 3 prices above this scale", self.texts(picture))
        self.assertEqual([text.text for text in self.kinds(picture, "text", "amount")][12], "-90.000")
        self.coloured(picture)

    def test_shortest_and_longest_day(self):
        self.picture(file_of(prices=[-(10**7)], orders=[0]), [3], [4])
        self.picture(file_of(initial=0, variable=0, prices=[0] * 48, orders=[2] * 48), [0] * 48, [0] * 48)
