"""case best --next: the unit as the best list leaves it, and days that follow one another."""

import json
import os
import random
import re
import tomllib
from dataclasses import replace

from tool import (
    BELOW_ZERO, CASES, EVENING, EVENING_CLOSES, EVENING_LIST, FAKE, MORNING, ROOT, SOURCE, ToolTest, file_of, giqapsun,
    list_text, random_list, unit,
)


def opening(case):
    """The opening of a case."""
    return giqapsun.Opening(case.initial, case.elapsed, case.upstage, case.downstage)


class Next(ToolTest):
    """The file of the next day's unit."""

    def left(self, data, *words, **environment):
        """What the tool prints, and the file that it writes."""
        environment = {"GIQAPSUN_BEST_DAY": "", **environment}
        printed = self.answered("best", self.file("d.case", data), "--next", "n.toml", *words, **environment)
        return printed.decode(), (self.folder / "n.toml").read_text()

    def test_stored_days(self):
        """The morning is the evening's unit as the evening leaves it."""
        printed, toml = self.left(EVENING)
        self.assertEqual(printed, self.answered("best", "d.case", GIQAPSUN_BEST_DAY="").decode())
        self.assertEqual(tomllib.loads(toml), tomllib.loads((CASES / "morning.toml").read_text()))
        self.assertEqual(self.answered("make", "n.toml", str(CASES / "morning.csv")), MORNING)

    def test_closing_line(self):
        """The stop after the day has a line below the profit, and names for a program."""
        printed, _ = self.left(EVENING)
        self.assertIn(f"\nprofit 36130586 half-mills\n{EVENING_CLOSES}\nread by", printed)
        answer = json.loads(self.left(EVENING, "--json")[0])
        self.assertEqual([hour["output"] for hour in answer["hours"]], EVENING_LIST)
        self.assertEqual((answer["stop_after_day"], answer["opening_after"]), (
            26, {"initial": 70, "elapsed": 17, "upstage": 0, "downstage": 2},
        ))
        self.assertNotIn("closes", self.left(SOURCE)[0])
        status, table, message = self.run_tool("best", self.file("d.case", EVENING), "--csv", GIQAPSUN_BEST_DAY="")
        self.assertEqual((status, message), (0, f"case: {EVENING_CLOSES}\n"))
        status, printed, _ = self.run_tool("check", "d.case", "-", given=table)
        self.assertEqual((status, printed.decode().splitlines()[1]), (0, EVENING_CLOSES))

    def test_stages(self):
        """Off-line, on-line, and each stage of a start-up and of a shut-down."""
        wide = {"minimum": "3", "rise": "[1, 2, 3]", "fall": "[3, 2, 1]", "elapsed": "9"}
        for initial, prices, opened in [
            (0, [5], (0, 10, 0, 0)), (3, [500], (4, 10, 0, 0)), (0, [500], (1, 1, 1, 0)),
            (0, [-9000, 500], (1, 1, 1, 0)), (0, [500] * 2, (2, 2, 2, 0)), (0, [500] * 3, (3, 3, 0, 0)),
            (3, [-500], (2, 10, 0, 2)), (3, [-500] * 2, (1, 11, 0, 3)), (3, [-500] * 3, (0, 1, 0, 0)),
            (3, [-500] * 5, (0, 3, 0, 0)),
        ]:
            hours = "".join(f"{hour},{price}\n" for hour, price in enumerate(prices, 1))
            data = self.made(unit(**wide, initial=str(initial)), f"hour,price_mills\n{hours}")
            with self.subTest(initial=initial, prices=prices):
                _, toml = self.left(data)
                made = self.made(toml, "hour,price_mills\n1,5\n")
                self.assertEqual(opening(giqapsun.read(made)), giqapsun.Opening(*opened))
                self.assertEqual("start_up_stage" in toml, opened[2] > 0)
                self.assertEqual("shut_down_stage" in toml, opened[3] > 0)

    def test_hours_in_state_stop(self):
        """They are counted up to 10,000."""
        _, toml = self.left(file_of(elapsed=9_998, prices=[500] * 3))
        self.assertIn("\nelapsed = 10000 ", toml)

    def test_by_a_program(self):
        text = "profit -53\n1 2 5\n2 1 3\n3 0 1\n"
        _, toml = self.left(file_of(), GIQAPSUN_BEST_DAY=str(FAKE), FAKE_BEST_DAY_TEXT=text)
        self.assertIn("initial = 0 ", toml)
        self.assertIn("elapsed = 1 ", toml)

    def test_by_a_calendar(self):
        """The list is that of the windows."""
        self.file("y.csv", "order,first,hours\noff,23,5\n")
        _, toml = self.left(SOURCE, "--calendar", "y.csv", "--first", "0")
        self.assertIn("initial = 0 ", toml)
        self.assertIn("elapsed = 1 ", toml)

    def test_places(self):
        """It is written as every other file: whole, over what stood there, or not at all."""
        self.file("n.toml", "old")
        self.left(BELOW_ZERO)
        self.assertEqual(sorted(os.listdir(self.folder)), ["d.case", "n.toml"])
        self.assertNotIn("old", (self.folder / "n.toml").read_text())
        (self.folder / "folder").mkdir()
        for place, what in [
            ("none/n.toml", "none/n.toml: No such file or directory"), ("folder", "folder: Is a directory"),
            ("-", "output: '-' is no file to write; name one"), ("/dev/full", "/dev/full: No space left on device"),
        ]:
            self.at_fault(what, "best", "d.case", "--next", place, GIQAPSUN_BEST_DAY="")

    def test_refused(self):
        """A day that has no list leaves what stood there."""
        self.file("n.toml", "old")
        words = ("best", self.file("d.case", file_of(orders=[2, 0, 0])), "--next", "n.toml")
        self.assertEqual(self.run_tool(*words, GIQAPSUN_BEST_DAY="")[0], 2)
        self.assertEqual((self.folder / "n.toml").read_text(), "old")


class Following(ToolTest):
    """Two days, and both as one."""

    def test_random_days(self):
        """A unit that a best list leaves is accepted, and two best lists of days that follow one another are a list of
        both days as one: it passes and earns their sum."""
        chance, seen = random.Random(5), set()
        for _ in range(400):
            case, _ = random_list(chance)
            day = replace(case, minup=chance.randint(1, 3), orders=[0] * len(case.orders))
            day.prices = [chance.randint(-20, 40) for _ in day.orders]
            later = [chance.randint(-20, 40) for _ in range(chance.randint(1, 6))]
            try:
                first = giqapsun.best(day)
            except giqapsun.Refusal:
                continue
            self.file("d.case", giqapsun.write(day))
            self.answered("best", "d.case", "--next", "n.toml", GIQAPSUN_BEST_DAY="")
            hours = "".join(f"{hour},{price}\n" for hour, price in enumerate(later, 1))
            following = giqapsun.read(self.answered("make", "n.toml", self.file("p.csv", f"hour,price_mills\n{hours}")))
            second = giqapsun.best(following)
            whole = replace(day, prices=day.prices + later, orders=[0] * len(day.prices + later))
            verdict = giqapsun.check(whole, first.outputs + second.outputs)
            self.assertEqual(verdict, giqapsun.Passes(first.profit + second.profit))
            seen.add((following.initial > 0, following.upstage, following.downstage))
        self.assertEqual(seen, {
            (False, 0, 0), (True, 0, 0), (True, 1, 0), (True, 2, 0), (True, 0, 2), (True, 0, 3),
        })

    def test_without_a_best_list(self):
        """A list of two days passes exactly if each day's part does, the second from what the first leaves."""
        chance, seen = random.Random(9), set()
        for _ in range(3000):
            case, outputs = random_list(chance)
            if len(outputs) < 2:
                continue
            cut = chance.randrange(1, len(outputs))
            day = replace(case, prices=case.prices[:cut], orders=case.orders[:cut])
            verdict = giqapsun.check(day, outputs[:cut])
            whole = giqapsun.check(case, outputs)
            seen.add((type(verdict), type(whole)))
            if isinstance(verdict, giqapsun.Breaks):
                self.assertIsInstance(whole, giqapsun.Breaks)
                continue
            left = giqapsun.opening_after(day, outputs[:cut])
            following = replace(
                case, prices=case.prices[cut:], orders=case.orders[cut:], initial=left.initial, elapsed=left.elapsed,
                upstage=left.upstage, downstage=left.downstage,
            )
            later = giqapsun.check(following, outputs[cut:])
            self.assertIs(type(later), type(whole))
            if isinstance(whole, giqapsun.Passes):
                self.assertEqual(whole.profit, verdict.profit + later.profit)
        self.assertEqual(len(seen), 3)


class Page(ToolTest):
    """What docs/readers/trading-desk.md shows of days back to back."""

    def setUp(self):
        super().setUp()
        os.symlink(CASES, self.folder / "cases")
        page = (ROOT / "docs/readers/trading-desk.md").read_text()
        section = re.search(r"\n## Days back to back\n(.*?)\n## ", page, re.DOTALL)[1]
        self.blocks = [block.replace("\n    ", "\n")[4:] for block in re.findall(r"(?<=\n\n)(?:    .*\n)+", section)]

    def test_commands(self):
        """In their order, in one folder: what stands below them is printed, in its order."""
        commands = [block for block in self.blocks if block.startswith("tools/case/case ")]
        tables = [block for block in self.blocks if block.startswith("hour  order")]
        self.assertEqual((len(commands), len(tables)), (2, 2))
        for command, table in zip(commands, tables):
            for line in command.splitlines():
                printed = iter(self.answered(*line.split()[1:], GIQAPSUN_BEST_DAY="").decode().splitlines())
            for line in table.splitlines():
                self.assertIn(line, printed)

    def test_fault(self):
        """The output of another stage."""
        self.answered("best", "cases/evening.case", "--next", "next.toml", GIQAPSUN_BEST_DAY="")
        self.file("next.toml", (self.folder / "next.toml").read_text().replace("initial = 70", "initial = 75"))
        status, _, message = self.run_tool("make", "next.toml", "cases/morning.csv", "-o", "next.case")
        self.assertEqual((status, message.splitlines(keepends=True)[1:]), (2, [self.blocks[4]]))

    def test_breach(self):
        """A stop after the day that comes too early."""
        self.file("l.csv", list_text([1, 2, 2, 1]))
        self.file("d.case", file_of(initial=0, minup=6, prices=[5] * 4, orders=[0] * 4))
        status, printed, _ = self.run_tool("check", "d.case", "l.csv")
        self.assertEqual((status, printed.decode()), (1, self.blocks[5] + "read by the library\n"))
