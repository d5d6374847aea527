"""The Python module: known days, the source's day, every form of a file, prices below 0, days that open and close
inside a sequence, weeks and long minimum times, the better of two lists, days by calendar and by a cost curve,
refusals, numbers that fit no record, the library that it loads, and the module as it is installed."""

import ctypes
import doctest
import math
import os
import pickle
import random
import re
import subprocess
import sys
import tempfile
import typing
import unittest
from array import array
from contextlib import chdir
from dataclasses import asdict, fields, replace
from fractions import Fraction
from itertools import product
from pathlib import Path

import giqapsun
from giqapsun import (
    Breaks, Case, Curved, First, Flat, Neither, Opening, Passes, Plan, Refusal, Second, Straight, best,
    best_by_calendar, best_by_curve, better, check, check_by_curve, compare, opening_after, read, table,
    working_numbers, write,
)
from giqapsun import _boundary as boundary

ROOT = Path(__file__).resolve().parents[2]
CASE_7 = (ROOT / "cases/case7.case").read_bytes()
SOURCE = (ROOT / "cases/source.case").read_bytes()
BELOW_ZERO = (ROOT / "cases/below_zero.case").read_bytes()
EVENING = (ROOT / "cases/evening.case").read_bytes()
MORNING = (ROOT / "cases/morning.case").read_bytes()
WEEK = (ROOT / "cases/week.case").read_bytes()
BOILER = (ROOT / "cases/boiler.case").read_bytes()
SECOND_CASE_7 = (ROOT / "cases/old/form2/case7.case").read_bytes()
SECOND_SOURCE = (ROOT / "cases/old/form2/source.case").read_bytes()
SECOND_BELOW_ZERO = (ROOT / "cases/old/form2/below_zero.case").read_bytes()
OLD_CASE_7 = (ROOT / "cases/old/case7.case").read_bytes()
OLD_SOURCE = (ROOT / "cases/old/source.case").read_bytes()
SOURCE_LIST = [
    120, 112, 70, 30, 0, 0, 0, 37, 75, 112, 172, 232, 292, 294, 294, 294, 294, 294, 294, 294, 294, 244, 194,
    144,
]
ORDERS = {"free": giqapsun.FREE, "on": giqapsun.ON, "off": giqapsun.OFF}


def known_days():
    """The rows of the known days: name, case, what is asked, the answer."""
    for line in (ROOT / "cases/known_days.txt").read_text().splitlines():
        if line.startswith("#"):
            continue
        name, initial, elapsed, mindown, prices, orders, asked, answer = map(str.strip, line.split("|"))
        yield name, Case(
            capacity=4, minimum=2, rampup=1, rampdown=1, minup=1, mindown=int(mindown),
            variable=10, fixed=1, startcost=3, stopcost=2, initial=int(initial), elapsed=int(elapsed),
            rise=[1, 2], fall=[2, 1], prices=numbers(prices), orders=[ORDERS[w] for w in orders.split(",")],
        ), asked.split(), answer.split()


def numbers(text):
    """Numbers with commas between."""
    return [int(word) for word in text.split(",")]


class Days(unittest.TestCase):
    """Answers."""

    def test_known_days(self):
        rows = list(known_days())
        self.assertEqual(len(rows), 12)
        for name, case, asked, answer in rows:
            with self.subTest(case=name):
                self.assertEqual(read(write(case)), case)
                match asked, answer:
                    case ["best"], ["list", outputs, "profit", profit]:
                        plan = Plan(numbers(outputs), int(profit))
                        self.assertEqual(best(case), plan)
                        self.assertEqual(check(case, plan.outputs), Passes(plan.profit))
                    case ["best"], ["refused", number]:
                        with self.assertRaises(Refusal) as caught:
                            best(case)
                        self.assertEqual(caught.exception.number, int(number))
                    case ["check", outputs], ["breaks", rule, "at", hour]:
                        self.assertEqual(check(case, numbers(outputs)), Breaks(int(hour), int(rule)))
                    case _:
                        self.fail("row not understood")

    def test_source_day(self):
        case = read(SOURCE)
        self.assertEqual(check(case, SOURCE_LIST), Passes(33_546_962))
        plan = best(case)
        self.assertEqual(plan.profit, 33_546_962)
        self.assertEqual(check(case, plan.outputs), Passes(plan.profit))
        self.assertEqual(write(case), SOURCE)

    def test_old_files(self):
        """A file of an older form is the same case, with stages 0, and comes back in form 3."""
        for old, file in (
            (OLD_CASE_7, CASE_7), (OLD_SOURCE, SOURCE), (SECOND_CASE_7, CASE_7), (SECOND_SOURCE, SOURCE),
            (SECOND_BELOW_ZERO, BELOW_ZERO),
        ):
            self.assertEqual(read(old), read(file))
            self.assertEqual((read(old).upstage, read(old).downstage), (0, 0))
            self.assertEqual(write(read(old)), file)
        for file in (CASE_7, SOURCE, BELOW_ZERO, EVENING, MORNING, WEEK, BOILER):
            self.assertEqual(file[-2:], b"\x03\x00")
            self.assertEqual(write(read(file)), file)

    def test_below_zero(self):
        """The stored day with prices below 0 and a spike, and what its best list earns."""
        case = read(BELOW_ZERO)
        self.assertEqual((min(case.prices), max(case.prices)), (-90_000, 2_750_000))
        self.assertEqual(write(case), BELOW_ZERO)
        plan = best(case)
        self.assertEqual(check(case, plan.outputs), Passes(1_762_365_500))
        self.assertEqual(plan.profit, 1_762_365_500)
        hours = list(zip(case.prices, case.orders, plan.outputs))
        self.assertTrue(any(price < 0 and order == giqapsun.ON and output > 0 for price, order, output in hours))
        self.assertTrue(any(price < 0 and order == giqapsun.FREE and output == 0 for price, order, output in hours))

    def test_limits_of_a_price(self):
        for price in (giqapsun.PRICE_LEAST, -1, 0, 65_536, giqapsun.PRICE_MOST):
            case = replace(read(CASE_7), prices=[price] * 3)
            self.assertEqual(read(write(case)), case)
            # 13 half-megawatt-hours at the price less F, and A three times
            self.assertEqual(check(case, [2, 2, 2]), Passes(13 * (price - 10) - 6))
            verdicts = [check(case, outputs) for outputs in product(range(5), repeat=3)]
            passed = [verdict.profit for verdict in verdicts if isinstance(verdict, Passes)]
            self.assertEqual(best(case).profit, max(passed))

    def test_bytes_of_any_kind(self):
        for kind in (bytes, bytearray, memoryview):
            self.assertEqual(write(read(kind(CASE_7))), CASE_7)
        with self.assertRaises(TypeError):
            read(16)

    def test_sessions_of_the_pages(self):
        """The sessions printed for the trading desk, as printed."""
        for page in ("trading-desk", "forecast"):
            with chdir(ROOT):
                failed, tried = doctest.testfile(f"docs/readers/{page}.md", module_relative=False)
            self.assertEqual(failed, 0)
            self.assertGreater(tried, 5)


class Listed(list):
    """A list of another kind."""


class Pairs(unittest.TestCase):
    """The better of two lists."""

    # over three hours from 3 MW, at a price of 5: the best list, two that pass, and two that break a rule and would
    # lose less
    BEST, LOW, HIGH = [2, 1, 0], [2, 2, 2], [3, 3, 3]
    BROKEN, OTHER_BROKEN = [0, 0, 0], [2, 0, 0]

    def given(self, case, first, second, answer):
        """The answer, and the very object that it stands for, which stays as it was; so does the case."""
        kept = [asdict(case), list(first), list(second)]
        self.assertEqual(compare(case, first, second), answer)
        self.assertIs(better(case, first, second), first if isinstance(answer, First) else second)
        self.assertEqual([asdict(case), list(first), list(second)], kept)

    def test_one_passes(self):
        case = read(CASE_7)
        for passing in (self.BEST, self.HIGH):
            profit = check(case, passing).profit
            for broken in (self.BROKEN, self.OTHER_BROKEN):
                self.assertIsInstance(check(case, broken), Breaks)
                self.given(case, passing, broken, First(profit))
                self.given(case, broken, passing, Second(profit))

    def test_higher_profit(self):
        case = read(CASE_7)
        self.given(case, self.BEST, self.LOW, First(-53))
        self.given(case, self.LOW, self.BEST, Second(-53))
        self.given(case, self.HIGH, self.LOW, Second(-71))
        # the higher list earns more at a price above F
        case.prices = [11] * 3
        self.given(case, self.LOW, self.HIGH, Second(12))
        self.given(case, self.HIGH, self.LOW, First(12))
        # below 0 the one that gives less, in a spike the one that gives more
        case.prices = [-5] * 3
        self.given(case, self.LOW, self.HIGH, First(13 * -15 - 6))
        case.prices = [giqapsun.PRICE_MOST] * 3
        self.given(case, self.LOW, self.HIGH, Second(18 * 9_999_990 - 6))

    def test_equal_profits(self):
        """At a price of F a list earns what its hours on-line cost; the first hour that differs decides."""
        case = replace(read(CASE_7), prices=[10] * 3)
        for lower, higher in (([2, 2, 2], [3, 3, 3]), ([2, 3, 3], [3, 2, 2]), ([3, 3, 2], [3, 3, 3])):
            self.given(case, lower, higher, First(-6))
            self.given(case, higher, lower, Second(-6))

    def test_identical(self):
        case = read(CASE_7)
        for passing in (self.BEST, self.LOW, self.HIGH):
            first, second = list(passing), list(passing)
            self.given(case, first, second, First(check(case, passing).profit))
            self.given(case, first, first, First(check(case, passing).profit))

    def test_neither(self):
        """An empty part of the first, of its own kind."""
        case = read(CASE_7)
        for kind in (list, tuple, Listed, lambda entries: array("H", entries)):
            first, second = kind(self.BROKEN), kind(self.OTHER_BROKEN)
            for one, other in ((first, second), (second, first), (first, first), (first, [0, 0, 0])):
                self.assertEqual(compare(case, one, other), Neither())
                part = better(case, one, other)
                self.assertEqual((type(part), part), (type(one[:0]), one[:0]))
                self.assertEqual(len(part), 0)
        self.assertEqual(better(case, range(3), self.BROKEN), range(0))

    def test_kinds(self):
        """A list of any kind comes back itself, beside one of another kind too."""
        case = read(CASE_7)
        kinds = (list, tuple, Listed, lambda entries: array("H", entries), lambda entries: list(map(Index, entries)))
        for kind in kinds:
            for other in kinds:
                first, second = kind(self.BEST), other(self.LOW)
                self.assertIs(better(case, first, second), first)
                self.assertIs(better(case, second, first), first)
        self.assertIs(type(better(case, Listed(self.BEST), self.LOW)), Listed)
        self.given(read(SOURCE), tuple(SOURCE_LIST), array("H", [120] * 24), First(33_546_962))

    def test_best_is_not_beaten(self):
        """The best list of each known day against every list of its length."""
        for name, case, _, answer in known_days():
            if answer[0] != "list":
                continue
            with self.subTest(case=name):
                plan = best(case)
                for other in product(range(case.capacity + 1), repeat=len(case.prices)):
                    same = list(other) == plan.outputs
                    self.given(case, other, plan.outputs, (First if same else Second)(plan.profit))
                    self.given(case, plan.outputs, other, First(plan.profit))


class Sequences(unittest.TestCase):
    """Days that open and close inside a start-up or a shut-down, and what a list leaves for the next day."""

    # a unit with start-ups and shut-downs of three hours, which goes on at 4 MW at the most
    UNIT = Case(
        capacity=4, minimum=3, rampup=1, rampdown=1, minup=1, mindown=1, variable=10, fixed=1, startcost=3, stopcost=2,
        initial=4, elapsed=9, rise=[1, 2, 3], fall=[3, 2, 1], prices=[5] * 3, orders=[giqapsun.FREE] * 3,
    )

    def day(self, *opening, **changes):
        """The unit with an opening, as written and read again."""
        case = replace(self.UNIT, **asdict(Opening(*opening)), **changes)
        self.assertEqual(read(write(case)), case)
        return case

    def only(self, case, outputs, profit):
        """Of all lists with the first outputs of these, this one alone passes."""
        self.assertEqual(check(case, outputs), Passes(profit))
        for other in product(range(5), repeat=len(outputs)):
            if list(other) != outputs:
                self.assertIsInstance(check(case, other), Breaks, other)
        self.assertEqual(best(case), Plan(outputs, profit))

    def test_opening_in_a_start_up(self):
        """Hour 1 goes on with the next stage; B is not of this day."""
        hours = {"prices": [10] * 2, "orders": [0] * 2}
        self.only(self.day(1, 1, 1, **hours), [2, 3], -4)
        rising = self.day(2, 2, 2, **hours)
        self.assertEqual([check(rising, outputs) for outputs in ([3, 3], [3, 4])], [Passes(-4)] * 2)
        self.assertEqual(check(rising, [2, 3]), Breaks(1, 1))
        # the whole of it, from the start on, is a day of more hours
        whole = self.day(0, 9, prices=[10] * 3)
        self.assertEqual(check(whole, [1, 2, 3]), Passes(-4 - 2 * 1 - 2 * 3))

    def test_opening_in_a_shut_down(self):
        """Hour 1 goes on with the next stage, and C is of the day that holds the stop."""
        hours = {"prices": [10] * 2, "orders": [0] * 2, "mindown": 8}
        self.only(self.day(2, 4, 0, 2, **hours), [1, 0], -2 * 1 - 2 * 2)
        self.only(self.day(1, 5, 0, 3, **hours), [0, 0], -2 * 2)
        # the stop stands after the day
        self.only(self.day(2, 4, 0, 2, prices=[10], orders=[0]), [1], -2)
        # the minimum up time is not over by then
        with self.assertRaises(Refusal) as caught:
            best(self.day(2, 4, 0, 2, minup=6))
        self.assertEqual(caught.exception.number, 11)
        self.assertEqual(check(self.day(2, 4, 0, 2, minup=6), [1, 0, 0]), Breaks(2, 21))

    def test_closing_in_a_shut_down(self):
        """On PD(2) or later, without C; a start-up that reaches the last hour is none."""
        self.assertEqual(check(self.UNIT, [4, 3, 2]), Passes(-5 * (8 + 7 + 5) - 6))
        self.assertEqual(check(self.UNIT, [3, 2, 1]), Passes(-5 * (7 + 5 + 3) - 6))
        self.assertEqual(check(self.UNIT, [4, 4, 2]), Breaks(2, 4))
        self.assertEqual(best(self.UNIT), Plan([3, 2, 1], -81))
        rising = self.day(0, 9, prices=[10] * 2, orders=[0] * 2)
        self.assertEqual(check(rising, [1, 2]), Passes(-10))
        self.assertEqual(opening_after(rising, [1, 2]), Opening(2, 2, upstage=2))

    def test_hour_above_the_last(self):
        """21 at the stop after the day, for each stage that a list may close on."""
        for outputs, hour in (([4, 3, 2], 5), ([3, 2, 1], 4)):
            self.assertEqual(check(replace(self.UNIT, elapsed=3, minup=8), outputs), Breaks(hour, 21))
            self.assertEqual(Breaks(hour, 21).text, "minimum up time")
            case = replace(self.UNIT, elapsed=9 - hour, minup=8)
            self.assertIsInstance(check(case, outputs), Passes)

    def test_stored_days(self):
        """The morning opens as the evening's best list leaves the unit."""
        evening, morning = read(EVENING), read(MORNING)
        plan = best(evening)
        self.assertEqual((plan.outputs[-3:], plan.profit), ([162, 112, 70], 36_130_586))
        left = opening_after(evening, plan.outputs)
        self.assertEqual(left, Opening(70, 17, downstage=2))
        self.assertEqual(replace(evening, **asdict(left), prices=morning.prices), morning)
        self.assertEqual(best(morning).outputs[:3], [30, 0, 0])

    def test_opening_after(self):
        """Output, hours in state up to 10,000, stages."""
        case = self.UNIT
        for outputs, left in (
            ([], Opening(4, 9)),
            ([4], Opening(4, 10)),
            ([3], Opening(3, 10)),
            ([3, 2], Opening(2, 11, downstage=2)),
            ([3, 2, 1], Opening(1, 12, downstage=3)),
            ([3, 2, 1, 0], Opening(0, 1)),
            ([3, 2, 1, 0, 0], Opening(0, 2)),
            ([3, 2, 1, 0, 1], Opening(1, 1, upstage=1)),
            ([3, 2, 1, 0, 1, 2], Opening(2, 2, upstage=2)),
            ([3, 2, 1, 0, 1, 2, 3], Opening(3, 3)),
            ([3, 2, 1, 0, 1, 2, 3, 2], Opening(2, 4, downstage=2)),
        ):
            self.assertEqual(opening_after(case, outputs), left)
            self.assertEqual(opening_after(case, map(Index, outputs)), left)
        for opening in (Opening(1, 1, 1), Opening(2, 2, 2), Opening(2, 4, 0, 2), Opening(1, 5, 0, 3), Opening(0, 1)):
            self.assertEqual(opening_after(self.day(*asdict(opening).values()), []), opening)
        self.assertEqual(opening_after(self.day(1, 1, 1), [2]), Opening(2, 2, upstage=2))
        self.assertEqual(opening_after(self.day(1, 1, 1), [2, 3]), Opening(3, 3))
        self.assertEqual(opening_after(replace(case, elapsed=9_999), [4] * 168), Opening(4, 10_000))
        self.assertRaises(ValueError, opening_after, case, [65_536])
        self.assertRaises(ValueError, opening_after, case, None)

    def test_days_as_one(self):
        """Every list of four hours, cut after each: it passes exactly if both parts do, and earns their sum."""
        for case in (self.UNIT, self.day(0, 2), self.day(2, 2, 2), self.day(1, 5, 0, 3, minup=5)):
            case = replace(case, prices=[5, -7, 30, 12], orders=[0] * 4)
            passed = 0
            for outputs in map(list, product(range(5), repeat=4)):
                whole = check(case, outputs)
                for cut in (1, 2, 3):
                    self.assertEqual(self.parts(case, outputs, cut), whole if isinstance(whole, Passes) else None)
                passed += isinstance(whole, Passes)
            self.assertGreater(passed, 1)

    @staticmethod
    def parts(case, outputs, cut):
        """The verdict on a list as that of two days, None where either part breaks a rule."""
        first = replace(case, prices=case.prices[:cut], orders=case.orders[:cut])
        second = replace(case, prices=case.prices[cut:], orders=case.orders[cut:])
        before = check(first, outputs[:cut])
        if isinstance(before, Breaks):
            return None
        after = check(replace(second, **asdict(opening_after(first, outputs[:cut]))), outputs[cut:])
        return None if isinstance(after, Breaks) else Passes(before.profit + after.profit)

    def test_older_calls(self):
        """A case without the stages has 0, also by place."""
        case = Case(4, 3, 1, 1, 1, 1, 10, 1, 3, 2, 4, 9, [1, 2, 3], [3, 2, 1], [5] * 3, [0] * 3)
        self.assertEqual(case, self.UNIT)
        self.assertEqual((case.upstage, case.downstage), (0, 0))


class Refusing(unittest.TestCase):
    """Tests of calls of which some are refused."""

    def refused(self, number, call, *arguments):
        """The call is refused with this number."""
        with self.assertRaises(Refusal) as caught:
            call(*arguments)
        self.assertEqual(caught.exception.number, number)


class Weeks(Refusing):
    """Up to 168 hours, minimum times of up to 24, and the numbers that a search is lent to work in."""

    # minimum times, and how many numbers a case with them is lent
    TIMES = [
        (1, 1, 8192), (8, 1, 8192), (1, 8, 8192), (8, 8, 8192), (9, 1, 32_768), (1, 9, 32_768), (9, 8, 32_768),
        (8, 9, 32_768), (20, 12, 32_768), (24, 1, 32_768), (1, 24, 32_768), (24, 24, 32_768),
    ]

    @staticmethod
    def hours(count, price=5, **changes):
        """Case 7's unit on so many hours at a price."""
        return replace(read(CASE_7), prices=[price] * count, orders=[giqapsun.FREE] * count, **changes)

    def test_table_v(self):
        """The source's day repeated earns what the source prints, less 0.05 dollar, and more."""
        day = read(SOURCE)
        for days, tenths, profit in (
            (1, 167_735, 33_546_962), (2, 391_395, 78_279_049), (4, 838_716, 167_743_223), (7, 1_509_697, 301_939_484),
        ):
            case = replace(day, prices=day.prices * days, orders=day.orders * days)
            plan = best(case)
            self.assertEqual((len(plan.outputs), plan.profit), (24 * days, profit))
            self.assertGreaterEqual(plan.profit, 200 * tenths - 100)
            self.assertEqual(check(case, plan.outputs), Passes(profit))
            self.assertEqual(read(write(case)), case)
        self.assertEqual(case, read(WEEK))

    def test_boiler(self):
        """The stored week of a unit with long minimum times: they are kept, and so are the orders."""
        case = read(BOILER)
        self.assertEqual((case.minup, case.mindown, len(case.prices)), (20, 12, 168))
        plan = best(case)
        self.assertEqual(plan.profit, 283_279_650)
        self.assertEqual(check(case, plan.outputs), Passes(plan.profit))
        starts = [k for k, (one, other) in enumerate(zip([0, *plan.outputs], plan.outputs), 1) if one == 0 < other]
        stops = [k for k, (one, other) in enumerate(zip([0, *plan.outputs], plan.outputs), 1) if other == 0 < one]
        self.assertEqual((starts, stops), ([3, 64, 158], [51, 146]))
        self.assertEqual(better(case, [0] * 168, plan.outputs), plan.outputs)
        for name in ("minup", "mindown"):
            self.assertGreaterEqual(best(replace(case, **{name: 8})).profit, plan.profit)

    def test_parts_of_a_week(self):
        """What the first hours leave opens the others, and the profits add up."""
        case = read(BOILER)
        plan = best(case)
        for cut in (1, 24, 49, 120, 167):
            self.assertEqual(Sequences.parts(case, plan.outputs, cut), Passes(plan.profit))

    def test_minimum_times(self):
        """A stop and a start as early as may be, after 2 hours on-line and off-line; an hour earlier is a breach."""
        for time in range(1, 25):
            losing, stop = self.hours(48, minup=time), max(time - 1, 3)
            outputs = best(losing).outputs
            self.assertEqual(outputs.index(0) + 1, stop)
            if stop > 3:
                self.assertEqual(check(losing, [*outputs[1:], 0]), Breaks(stop - 1, 21))
            earning, start = self.hours(48, price=500, mindown=time, initial=0), max(time - 1, 1)
            outputs = best(earning).outputs
            self.assertEqual(next(k for k, output in enumerate(outputs, 1) if output), start)
            if start > 1:
                self.assertEqual(check(earning, [*outputs[1:], 4]), Breaks(start - 1, 22))

    def test_stop_after_the_last_hour(self):
        """21 at hour 169: a start at hour 150 and a shut-down that is cut by the end."""
        case = self.hours(168, minup=24, initial=0, elapsed=24)
        outputs = [0] * 149 + [1] + [2] * 17 + [1]
        self.assertEqual(check(case, outputs), Breaks(169, 21))
        self.assertIsInstance(check(replace(case, minup=19), outputs), Passes)

    def test_limits(self):
        for minup, mindown, _ in self.TIMES:
            for count in (1, 48, 49, 168):
                case = self.hours(count, minup=minup, mindown=mindown)
                self.assertEqual(read(write(case)), case)
                self.assertEqual(len(best(case).outputs), count)
        for count in (169, 256 + 3, 70_000):
            self.refused(2, write, self.hours(count))
            self.refused(2, best, self.hours(count, minup=25))
        for minup, mindown in ((25, 1), (1, 25), (0, 24), (256 + 3, 1), (65_535, 65_535)):
            for call in (write, best):
                self.refused(4, call, self.hours(168, minup=minup, mindown=mindown))

    def test_working_numbers(self):
        """The two minimum times decide, also in a case that is refused; others that no record holds are faults."""
        self.assertEqual((giqapsun.SHORT_TIME, giqapsun.WORK, giqapsun.WORK_MOST), (8, 8192, 32_768))
        for minup, mindown, numbers in self.TIMES:
            for case in (self.hours(3), self.hours(168), self.hours(169), Case(), replace(self.hours(3), rampup=0)):
                self.assertEqual(working_numbers(replace(case, minup=minup, mindown=mindown)), numbers)
        self.assertEqual(working_numbers(Case()), giqapsun.WORK)
        self.assertEqual(working_numbers(Case(minup=25)), giqapsun.WORK_MOST)
        self.assertEqual(working_numbers(Case(mindown=65_535)), giqapsun.WORK_MOST)
        self.assertRaises(ValueError, working_numbers, Case(minup=65_536))
        self.assertRaises(ValueError, working_numbers, Case(minup=True))

    def searched(self, case, lent, off=()):
        """Number and zeroed numbers of a search that is lent so many, by its own orders, and by windows that order the
        same; no number past the zeroed ones has changed."""
        answers = set()
        calls, record, windows = boundary.calls(), giqapsun._record(case), (ctypes.c_uint16 * 2)(*off)
        for calendar in ((), (windows, 0, windows, len(off), 2400, 24)):
            work, outputs = (ctypes.c_int64 * 32_771)(*[-7] * 32_771), (ctypes.c_uint16 * 168)()
            call = calls.best_by_calendar if calendar else calls.best
            number = call(record, *calendar, work, lent, outputs, 168).number
            zeroed = next((i for i, left in enumerate(work) if left), len(work))
            self.assertEqual(set(work[zeroed:]), {-7})
            answers.add((number, zeroed))
        return answers

    def test_lent_numbers(self):
        """One less is 10, with a list and without; on 0 and 11 as many are zeroed as the case asks for."""
        for minup, mindown, numbers in self.TIMES:
            case = self.hours(24, minup=minup, mindown=mindown)
            none = replace(case, orders=[giqapsun.OFF] + [giqapsun.FREE] * 23)
            for lent in (numbers, numbers + 3, 32_771):
                self.assertEqual(self.searched(case, lent), {(0, numbers)})
                self.assertEqual(self.searched(none, lent, (2400, 1)), {(11, numbers)})
            for lent in (0, numbers - 1):
                self.assertEqual(self.searched(case, lent), {(10, 0)})
                self.assertEqual(self.searched(none, lent, (2400, 1)), {(10, 0)})
            # the module lends what the case asks for
            self.assertEqual(len(best(case).outputs), 24)
            self.refused(11, best, none)
            self.refused(11, best_by_calendar, case, [], [2400, 1], 2400, 24)


class Curves(Refusing):
    """Cost curves: tables, and the check and the search by them."""

    PLAIN = Straight(2, 10)

    @staticmethod
    def unit(initial, prices, **changes):
        """Case 7's unit from an output, with these prices."""
        return replace(read(CASE_7), initial=initial, prices=prices, orders=[giqapsun.FREE] * len(prices), **changes)

    def test_whole_coefficients(self):
        """The formula in whole numbers."""
        for a, b, c in ((0, 0, 0), (3, 2, 1), (10**6, 10**6, 10**6), (999_999, 1, 31)):
            self.assertEqual(table(Flat(a)), [a] * 801)
            self.assertEqual(table(Straight(a, float(b))), [b * n + a for n in range(801)])
            self.assertEqual(table(Curved(float(a), b, c)), [(c * n + b) * n + a for n in range(801)])

    def test_rounded_once(self):
        """Python's floats round each operation once too, and a tie to the even number."""
        chance = random.Random(7)
        for _ in range(200):
            a, b, c = (chance.choice((chance.random() * 10 ** chance.randint(-9, 6), chance.randint(0, 2000) / 2))
                       for _ in range(3))
            self.assertEqual(table(Flat(a)), [round(a)] * 801)
            self.assertEqual(table(Straight(a, b)), [round(b * n + a) for n in range(801)])
            self.assertEqual(table(Curved(a, b, c)), [round((c * n + b) * n + a) for n in range(801)])

    def test_ties(self):
        for a, cost in ((0.5, 0), (1.5, 2), (2.5, 2), (0.49999999999999994, 0), (0.5000000000000001, 1), (-0.0, 0)):
            self.assertEqual(table(Flat(a)), [cost] * 801)
        self.assertEqual(table(Straight(2.0**-54, 0.1))[5], 0)

    def test_refused_coefficients(self):
        case = read(CASE_7)
        for number in (math.nan, -math.nan, math.inf, -math.inf, -1, -5e-324, math.nextafter(1e6, math.inf), 1e300):
            for curve in (
                Flat(number), Straight(number, 1), Straight(1, number), Curved(number, 1, 1), Curved(1, number, 1),
                Curved(1, 1, number),
            ):
                with self.subTest(curve=curve):
                    self.refused(16, table, curve)
                    self.refused(16, best_by_curve, case, curve)
                    self.refused(16, check_by_curve, case, curve, [2, 1, 0])
                    # before the case and the list
                    self.refused(16, best_by_curve, Case(), curve)
                    self.refused(16, check_by_curve, Case(), curve, [])
        for number in (0, -0.0, 5e-324, 10**6):
            self.assertEqual(len(table(Curved(number, number, number))), giqapsun.COSTS)

    def test_curve_of_f_and_a(self):
        source = read(SOURCE)
        self.assertEqual(best_by_curve(source, Straight(200_000, 38_000)), best(source))
        for initial, prices in ((3, [5, 5, 5]), (0, [18]), (0, [19]), (2, [5, 5])):
            case = self.unit(initial, prices)
            plan = best(case)
            self.assertEqual(best_by_curve(case, self.PLAIN), plan)
            self.assertEqual(best_by_curve(replace(case, variable=10**6, fixed=10**8), self.PLAIN), plan)
            self.assertEqual(check_by_curve(case, self.PLAIN, plan.outputs), check(case, plan.outputs))
        self.refused(5, best_by_curve, replace(source, variable=1_000_001), self.PLAIN)
        self.refused(9, check_by_curve, source, self.PLAIN, [])
        none = replace(self.unit(0, [10], elapsed=1, mindown=2), orders=[giqapsun.ON])
        self.refused(11, best_by_curve, none, self.PLAIN)

    def test_off_line_hours(self):
        """At rest an hour costs nothing; that of a stop has the entry for 0 taken off."""
        self.assertEqual(best_by_curve(self.unit(0, [0]), Flat(7)), Plan([0], 0))
        stops = self.unit(2, [0, 0])
        self.assertEqual(best_by_curve(stops, Flat(7)), Plan([1, 0], -11))
        for curve, profit in ((Flat(7), -11), (Straight(7, 3), -23), (Curved(7, 3, 2), -43)):
            self.assertEqual(check_by_curve(stops, curve, [1, 0]), Passes(profit))

    def test_makers_day(self):
        source, maker = read(SOURCE), Curved(412_500.5, 29_250.75, 14.3)
        plan = best_by_curve(source, maker)
        self.assertEqual(plan.profit, 44_732_821)
        self.assertEqual(check_by_curve(source, maker, plan.outputs), Passes(plan.profit))
        self.assertEqual(check_by_curve(source, maker, SOURCE_LIST), Passes(43_810_331))
        boiler = read(BOILER)
        week = best_by_curve(boiler, maker)
        self.assertEqual(check_by_curve(boiler, maker, week.outputs), Passes(week.profit))

    def test_lists_past_the_table(self):
        for output in (5, 798, 65_535):
            self.assertEqual(check_by_curve(self.unit(3, [20]), self.PLAIN, [output]), Breaks(1, 3))

    def test_curves_that_are_none(self):
        case = read(CASE_7)
        for curve in (None, 7, 7.0, (1, 2), Flat(None), Flat("1"), Flat(True), Flat(1j), Flat([1]), Straight(1, b"1"),
                      Flat(2**53 + 1), Flat(10**400)):
            for call in (lambda: table(curve), lambda: best_by_curve(case, curve)):
                with self.assertRaises(ValueError):
                    call()
        self.assertEqual(table(Flat(Fraction(5, 2))), [2] * 801)


class Calendar(Refusing):
    """Days by the windows of the year."""

    # windows about hours 2,400 to 2,424 of the year: on-line ones that touch, and off-line ones that touch them
    ON, OFF = [2390, 3, 2393, 2, 2404, 4, 2408, 3, 2424, 1], [2300, 7, 2395, 4, 2411, 3, 2420, 2, 2460, 300]

    @staticmethod
    def day(hours):
        """Case 7's unit, on hours whose prices lead it up and down; its own orders, off-line, are kept by no list."""
        prices = [5 if hour % 9 < 4 else 20 for hour in range(hours)]
        return replace(read(CASE_7), prices=prices, orders=[giqapsun.OFF] * hours)

    @staticmethod
    def filled(on, off, first, hours):
        """The orders that windows stand for."""
        orders = [giqapsun.FREE] * giqapsun.YEAR_HOURS
        for windows, order in ((on, giqapsun.ON), (off, giqapsun.OFF)):
            for begin, length in zip(windows[::2], windows[1::2]):
                orders[begin : begin + length] = [order] * length
        return orders[first : first + hours]

    def planned(self, on, off, first, hours):
        """The list by calendar is the best one by the orders; the case stays as it was."""
        case = self.day(hours)
        plan = best_by_calendar(case, on, off, first, hours)
        self.assertEqual(plan, best(replace(case, orders=self.filled(on, off, first, hours))))
        self.assertEqual(case, self.day(hours))

    def test_days(self):
        """Days of each number of hours, with the hour orders at their ends."""
        self.refused(11, best, self.day(24))
        for hours in giqapsun.DAY_HOURS:
            for first in (0, 2390, 2399, 2400, 2401, giqapsun.YEAR_HOURS - hours):
                with self.subTest(hours=hours, first=first):
                    self.planned(self.ON, self.OFF, first, hours)
                    self.planned([], [], first, hours)
                    self.planned([0, giqapsun.YEAR_HOURS], [], first, hours)
        self.assertEqual(self.filled(self.ON, self.OFF, 2400, 25)[2:14], [0, 0] + [1] * 7 + [2] * 3)

    def test_source_day(self):
        """With no window in the day it is as without a calendar; an outage of its hours 7 to 12 is kept, and costs."""
        case = read(SOURCE)
        self.assertEqual(best_by_calendar(case, [], [2406, 6], 5000, 24), best(case))
        plan = best_by_calendar(case, on=[], off=[2406, 6], first=2400, hours=24)
        self.assertEqual(plan.outputs[6:12], [0] * 6)
        ordered = replace(case, orders=[0] * 6 + [giqapsun.OFF] * 6 + [0] * 12)
        self.assertEqual(check(ordered, plan.outputs), Passes(plan.profit))
        self.assertLess(plan.profit, 33_546_962)

    def test_own_orders(self):
        """Orders of the case are replaced, and tested first."""
        for order in (giqapsun.FREE, giqapsun.ON, giqapsun.OFF):
            case = replace(self.day(24), orders=[order] * 24)
            plan = best_by_calendar(self.day(24), self.ON, self.OFF, 2400, 24)
            self.assertEqual(best_by_calendar(case, self.ON, self.OFF, 2400, 24), plan)
        for hour in (0, 10, 23):
            case = self.day(24)
            case.orders[hour] = 3
            self.refused(8, best_by_calendar, case, self.ON, self.OFF, 2400, 24)

    def test_kinds(self):
        """Lists of any kind, and whole numbers of other kinds."""
        plan = best_by_calendar(self.day(24), self.ON, self.OFF, 2400, 24)
        kinds = (list, tuple, iter, Listed, lambda entries: array("H", entries), lambda entries: map(Index, entries))
        for kind in kinds:
            for other in kinds:
                lists = kind(self.ON), other(self.OFF)
                self.assertEqual(best_by_calendar(self.day(24), *lists, Index(2400), Index(24)), plan)
        for empty in ([], (), array("H"), iter(())):
            self.assertEqual(
                best_by_calendar(self.day(24), empty, self.OFF, 2400, 24),
                best_by_calendar(self.day(24), [], self.OFF, 2400, 24),
            )

    def test_whole_year(self):
        """As many windows as there are hours; more numbers than that are no windows."""
        each = [number for hour in range(giqapsun.YEAR_HOURS) for number in (hour, 1)]
        self.planned(each, [], 2400, 24)
        self.refused(15, best_by_calendar, self.day(24), each, each, 2400, 24)
        self.refused(14, best_by_calendar, self.day(24), each * 6, [], 2400, 24)

    def test_refusals_of_a_list(self):
        """Each reason of 14, in either list, whatever the other is and wherever the day."""
        year = giqapsun.YEAR_HOURS
        self.planned([5, 2, 7, 1, year - 1, 1], [], 2400, 24)
        for wrong in (
            [5], [5, 2, 9],  # not of whole pairs
            [5, 0], [5, 2, 7, 0],  # empty
            [50, 2, 5, 2], [5, 2, 4, 1],  # unsorted
            [5, 2, 6, 1], [5, 2, 5, 2],  # overlapping
            [year - 1, 2], [year, 1], [0, year + 1], [65_535, 1], [65_535, 65_535],  # past the year
        ):
            for other in ([], self.ON, wrong):
                with self.subTest(wrong=wrong, other=other):
                    self.refused(14, best_by_calendar, self.day(24), wrong, other, 2400, 24)
                    self.refused(14, best_by_calendar, self.day(24), other, wrong, 2400, 24)

    def test_refusals_of_a_day(self):
        for hours in (0, 22, 26, 48, 168, 65_535):
            self.refused(14, best_by_calendar, self.day(24), [], [], 2400, hours)
        for hours in giqapsun.DAY_HOURS:
            for first in (giqapsun.YEAR_HOURS - hours + 1, giqapsun.YEAR_HOURS, 65_536 - hours, 65_535):
                self.refused(14, best_by_calendar, self.day(hours), [], [], first, hours)

    def test_both_lists(self):
        """15 looks at the hours of the day alone."""
        for hour in (2400, 2411, 2423):
            self.refused(15, best_by_calendar, self.day(24), [hour, 1], [2390, 60], 2400, 24)
        for hour in (2399, 2424):
            self.planned([2390, 10, hour + 30, 1], [hour + 30, 1], 2400, 24)
            self.assertEqual(
                best_by_calendar(self.day(24), [hour, 1], [hour, 1], 2400, 24),
                best_by_calendar(self.day(24), [], [], 2400, 24),
            )

    def test_order_of_the_tests(self):
        """14, 15, 2, 3, 8, 13, 11."""
        case = replace(self.day(24), prices=[giqapsun.PRICE_MOST + 1] * 24)
        self.refused(13, best_by_calendar, case, [], [2400, 1], 2400, 24)
        case.orders = [3] * 24
        self.refused(8, best_by_calendar, case, [], [2400, 1], 2400, 24)
        case.minimum = 0
        self.refused(3, best_by_calendar, case, [], [2400, 1], 2400, 24)
        for hours in (23, 25):
            self.refused(2, best_by_calendar, case, [], [2400, 1], 2400, hours)
            self.refused(15, best_by_calendar, case, [2400, 1], [2400, 1], 2400, hours)
            self.refused(14, best_by_calendar, case, [2400, 1], [2400, 1, 2401], 2400, hours)
        self.refused(2, best_by_calendar, Case(), [], [], 2400, 24)
        self.refused(2, best_by_calendar, replace(self.day(24), rise=[]), [], [], 2400, 24)
        self.refused(11, best_by_calendar, self.day(24), [], [2400, 1], 2400, 24)


class Refusals(Refusing):
    """Refused calls."""

    def test_of_a_file(self):
        self.refused(1, read, b"")
        for data in (CASE_7, OLD_CASE_7):
            self.refused(1, read, data[:-1])
            self.refused(1, read, data[:15])
        self.refused(1, read, CASE_7[:19])
        self.refused(2, read, OLD_CASE_7[:14] + b"\x04\x00" + OLD_CASE_7[16:60])
        self.refused(3, read, OLD_CASE_7[:16] + b"\x01" + OLD_CASE_7[17:])

    def test_of_a_form(self):
        """2, then 12, then the numbers of the record; a cost of 2^31 or more is one below 0."""
        self.refused(2, read, CASE_7[:18] + b"\x03" + CASE_7[19:] + b"\x00")
        self.refused(2, read, CASE_7[:18] + b"\x00" + CASE_7[19:77])
        # the unit of form 2 has 32 bytes, that of form 3 and of an unknown form 34
        for form in (0, 1, 3, 4):
            self.refused(2, read, SECOND_CASE_7[:75] + form.to_bytes(2, "little"))
        self.refused(2, read, CASE_7[:77] + b"\x02\x00")
        for form in (0, 1, 4, 258, 259, 65_535):
            unknown = CASE_7[:77] + form.to_bytes(2, "little")
            self.refused(12, read, unknown)
            self.refused(12, read, unknown[:20] + b"\x01" + unknown[21:])
        self.refused(3, read, CASE_7[:20] + b"\x01" + CASE_7[21:])
        for data, place in ((CASE_7, 36), (SECOND_CASE_7, 36), (OLD_CASE_7, 32)):
            for cost in (100_000_001, 2**31, 2**32 - 1):
                self.refused(5, read, data[:place] + cost.to_bytes(4, "little") + data[place + 4 :])
        for price in (giqapsun.PRICE_LEAST - 1, giqapsun.PRICE_MOST + 1, -(2**31), 2**31 - 1):
            beyond = CASE_7[:67] + price.to_bytes(4, "little", signed=True) + CASE_7[71:]
            self.refused(13, read, beyond)
            self.refused(8, read, beyond[:76] + b"\x03" + beyond[77:])
        # the stages, beside an output and hours that allow none
        for stages in (b"\1\0", b"\0\2", b"\1\2", b"\xff\0", b"\0\xff"):
            self.refused(7, read, CASE_7[:52] + stages + CASE_7[54:])

    def test_of_an_opening(self):
        """7 by each stage: which stages there are, the output and the hours of each, not both."""
        unit = replace(read(CASE_7), minimum=3, initial=3, elapsed=9, rise=[1, 2, 3], fall=[3, 2, 1])
        write(unit)
        for initial, elapsed, upstage, downstage in (
            (3, 3, 3, 0), (3, 4, 4, 0), (4, 9, 255, 0),  # a start-up stage not below UD
            (1, 2, 1, 0), (1, 9, 1, 0), (2, 1, 2, 0), (2, 3, 2, 0),  # h not the stage
            (2, 1, 1, 0), (1, 2, 2, 0), (0, 1, 1, 0), (3, 1, 1, 0), (3, 2, 2, 0),  # p(0) not PU(stage)
            (3, 9, 0, 1), (1, 9, 0, 4), (3, 9, 0, 255),  # a shut-down stage not from 2 to DD
            (3, 9, 0, 2), (1, 9, 0, 2), (2, 9, 0, 3), (0, 9, 0, 3),  # p(0) not PD(stage)
            (2, 3, 0, 2), (1, 4, 0, 3), (2, 0, 0, 2), (2, 10_001, 0, 2),  # h below UD + stage - 1, or above its limit
            (2, 2, 2, 2), (1, 1, 1, 3), (3, 9, 1, 1),  # both
            (1, 1, 0, 0), (2, 2, 0, 0), (2, 9, 0, 0), (1, 9, 0, 0), (3, 2, 0, 0),  # none set
        ):
            opening = Opening(initial, elapsed, upstage, downstage)
            with self.subTest(opening=opening):
                self.refused(7, write, replace(unit, **asdict(opening)))
                self.refused(7, best, replace(unit, **asdict(opening)))
        for opening in (
            Opening(1, 1, 1), Opening(2, 2, 2), Opening(2, 4, 0, 2), Opening(1, 5, 0, 3), Opening(2, 10_000, 0, 2),
            Opening(3, 3), Opening(0, 1),
        ):
            case = replace(unit, **asdict(opening))
            self.assertEqual(read(write(case)), case)

    def test_of_a_record(self):
        case = read(CASE_7)
        free = [giqapsun.FREE]
        for number, changed in [
            (2, Case()),
            (2, replace(case, prices=[], orders=[])),
            (2, replace(case, prices=[5] * 169, orders=free * 169)),
            (2, replace(case, rise=list(range(1, 10)))),
            (3, replace(case, minimum=5)),
            (4, replace(case, rampup=0)),
            (4, replace(case, minup=0)),
            (4, replace(case, minup=25)),
            (4, replace(case, mindown=25)),
            (5, replace(case, variable=1_000_001)),
            (5, replace(case, variable=-1)),
            (5, replace(case, stopcost=-(2**31))),
            (6, replace(case, rise=[2, 2])),
            (7, replace(case, initial=1)),
            (8, replace(case, orders=[0, 0, 3])),
            (8, replace(case, orders=[0, 0, 3], prices=[5, 5, giqapsun.PRICE_MOST + 1])),
            (13, replace(case, prices=[5, 5, giqapsun.PRICE_MOST + 1])),
            (13, replace(case, prices=[giqapsun.PRICE_LEAST - 1, 5, 5])),
        ]:
            with self.subTest(number=number):
                self.refused(number, write, changed)
                self.refused(number, check, changed, [2, 1, 0])
                self.refused(number, best, changed)
                for call in (compare, better):
                    self.refused(number, call, changed, [2, 1, 0], [2, 2, 2])
                    self.refused(number, call, changed, [2, 1], [])

    def test_of_a_list(self):
        for outputs in ([], [2, 1], [2, 1, 0, 0]):
            self.refused(9, check, read(CASE_7), outputs)

    def test_of_two_lists(self):
        """Either length, whatever the other list is."""
        case = read(CASE_7)
        for call in (compare, better):
            for wrong in ([], [2, 1], [2, 1, 0, 0]):
                for other in ([2, 1, 0], [0, 0, 0], [], [2, 2]):
                    self.refused(9, call, case, wrong, other)
                    self.refused(9, call, case, other, wrong)

    def test_text(self):
        self.assertEqual(str(Refusal(8)), "refused 8: an order byte above 2")
        self.assertEqual(str(Refusal(12)), "refused 12: form number neither 2 nor 3")
        self.assertEqual(str(Refusal(15)), "refused 15: an hour of the day in both lists of windows")
        self.assertEqual((Refusal(17).number, Refusal(17).text), (17, "a number that is not in the refusal list"))
        self.assertEqual(pickle.loads(pickle.dumps(Refusal(3))).number, 3)

    def test_texts_are_those_of_the_tables(self):
        for texts, name in ((giqapsun.REFUSALS, "refusals.tsv"), (giqapsun.RULES, "rules.tsv")):
            rows = (line.split("\t") for line in (ROOT / "texts" / name).read_text().splitlines())
            self.assertEqual(list(texts.items()), [(int(number), text) for number, text in rows])
        self.assertEqual(Breaks(11, 5).text, "ramp-up limit RU")


class Widths(unittest.TestCase):
    """Numbers that no record holds are errors of the caller, not cut to fit."""

    def test_of_a_case(self):
        case = read(CASE_7)
        for changed in (
            {"capacity": 65_536},
            {"capacity": -1},
            {"capacity": 4.0},
            {"capacity": True},
            {"upstage": 256},
            {"upstage": -1},
            {"downstage": 256},
            {"downstage": 1.0},
            {"variable": 2**31},
            {"fixed": -(2**31) - 1},
            {"rise": [1, 65_536]},
            {"rise": [-1, 2]},
            {"prices": [5, 2**31, 5]},
            {"prices": [5, -(2**31) - 1, 5]},
            {"prices": [5, 5.0, 5]},
            {"orders": [0, 0, 256]},
            {"orders": [0, 0, -1]},
            {"orders": [0, 0]},
        ):
            with self.subTest(**changed):
                for call in (write, best, lambda case: best_by_calendar(case, [], [], 0, 24)):
                    self.assertRaises(ValueError, call, replace(case, **changed))
        with self.assertRaises(ValueError) as caught:
            write(replace(case, prices=[5, 5, -(2**40)]))
        fits = "-1099511627776 is not a whole number from -2147483648 to 2147483647"
        self.assertEqual(str(caught.exception), f"prices: {fits}")

    def test_of_a_list(self):
        case = read(CASE_7)
        self.assertIsInstance(check(case, [65_535, 1, 0]), Breaks)
        for output in (65_536, -1, 1.0, "1"):
            self.assertRaises(ValueError, check, case, [output, 1, 0])

    def test_of_two_lists(self):
        """The fault names the list, and what is no list that can be handed back is a fault too."""
        case = read(CASE_7)
        self.assertEqual(compare(case, [65_535, 1, 0], [2, 1, 0]), Second(-53))
        for output in (65_536, -1, 1.0, "1", True, None):
            whole = f"{output!r} is not a whole number from 0 to 65535"
            self.faults(case, [2, 1, output], whole)
        for wrong in (None, 5, 2.5, {2: 1}, {2, 1, 0}, map(int, "210"), (output for output in (2, 1, 0))):
            self.faults(case, wrong, f"{wrong!r} is not a list of whole numbers")

    def test_of_a_calendar(self):
        """The fault names the list, or the number of the day; a list of pairs is none of numbers."""
        for number in (65_536, -1, 1.0, "1", True, None, (2400, 4)):
            whole = f"{number!r} is not a whole number from 0 to 65535"
            for name, wrong in (("on", [2400, number]), ("off", [number]), ("first", number), ("hours", number)):
                self.faulty(f"{name}: {whole}", **{name: wrong})
        for wrong in (None, 5, 2.5):
            for name in ("on", "off"):
                self.faulty(f"{name}: {wrong!r} is not a list of whole numbers", **{name: wrong})

    def faulty(self, text, **wrong):
        """The day by calendar with a wrong argument is the fault."""
        with self.assertRaises(ValueError) as caught:
            best_by_calendar(read(SOURCE), **{"on": [], "off": [], "first": 2400, "hours": 24, **wrong})
        self.assertEqual(str(caught.exception), text)

    def faults(self, case, wrong, text):
        """The wrong list is named in either place, the first where both are wrong."""
        right = [2, 1, 0]
        for call in (compare, better):
            for pair, name in (((wrong, right), "first"), ((right, wrong), "second"), ((wrong, wrong), "first")):
                with self.assertRaises(ValueError) as caught:
                    call(case, *pair)
                self.assertEqual(str(caught.exception), f"{name}: {text}")


class Index:
    """A whole number of another kind, as numpy's are."""

    def __init__(self, number):
        self.number = number

    def __index__(self):
        return self.number


class Kinds(unittest.TestCase):
    """Whole numbers of other kinds, attributes that there are not, and types."""

    def test_whole_numbers_of_other_kinds(self):
        case = read(CASE_7)
        fields_of_others = {
            name: [Index(entry) for entry in value] if isinstance(value, list) else Index(value)
            for name, value in asdict(case).items()
        }
        others = Case(**fields_of_others)
        self.assertEqual(write(others), CASE_7)
        self.assertEqual(best(others), best(case))
        self.assertEqual(check(others, map(Index, [2, 1, 0])), Passes(-53))
        self.assertEqual(check(case, (2, 1, 0)), Passes(-53))
        for wrong in (Index(65_536), Index(-1)):
            self.assertRaises(ValueError, write, replace(case, capacity=wrong))
            self.assertRaises(ValueError, check, case, [wrong, 1, 0])

    def test_lists_that_are_none(self):
        case = read(CASE_7)
        for wrong in (None, 5, 2.5):
            self.assertRaises(ValueError, write, replace(case, rise=wrong))
            self.assertRaises(ValueError, check, case, wrong)

    def test_unknown_attributes(self):
        case = read(CASE_7)
        for name in ("ramp_up", "startup", "price"):
            with self.assertRaises(AttributeError):
                setattr(case, name, 1)
        with self.assertRaises(TypeError):
            Case(ramp_up=1)
        curves = Flat(1.0), Straight(1.0, 2.0), Curved(1.0, 2.0, 3.0)
        for answer in (Passes(1), Breaks(1, 2), best(case), First(1), Second(1), Neither(), Opening(1, 2), *curves):
            with self.assertRaises((AttributeError, TypeError)):
                answer.other = 1
            self.assertEqual(pickle.loads(pickle.dumps(answer)), answer)
        self.assertEqual(pickle.loads(pickle.dumps(case)), case)

    def test_types(self):
        self.assertTrue((Path(giqapsun.__file__).parent / "py.typed").exists())
        calls = (read, write, check, best, best_by_calendar, compare, better, opening_after, working_numbers, table,
                 check_by_curve, best_by_curve)
        for call in (*calls, giqapsun.library_file):
            hints = typing.get_type_hints(call)
            self.assertEqual(len(hints), call.__code__.co_argcount + 1)
        for kind in (Case, Opening, Passes, Breaks, Plan, First, Second, Neither, Flat, Straight, Curved):
            self.assertEqual(set(typing.get_type_hints(kind)), {field.name for field in fields(kind)})

    def test_names_are_those_of_the_header(self):
        """The record's fields, by the same words in the header and in the module."""
        header = (ROOT / "include/giqapsun.h").read_text()
        struct = re.search(r"struct giqapsun_case \{(.*?)\};", header, re.DOTALL)[1]
        names = re.findall(r"^\s*\w+ (\w+)(?:\[\w+\])?;", struct, re.MULTILINE)
        self.assertEqual(names, [field.name for field in fields(Case)] + ["rises", "falls", "hours"])

    def test_constants(self):
        self.assertEqual((giqapsun.HOURS, giqapsun.YEAR_HOURS, giqapsun.DAY_HOURS), (168, 8784, (23, 24, 25)))
        for name in giqapsun.__all__:
            self.assertTrue(hasattr(giqapsun, name), name)

    def test_version(self):
        """The module's version is the header's, where the header says one."""
        self.assertRegex(giqapsun.__version__, r"\A\d+\.\d+\.\d+\Z")
        header = (ROOT / "include/giqapsun.h").read_text()
        for version in re.findall(r'^#define GIQAPSUN_VERSION "(.*)"', header, re.MULTILINE):
            self.assertEqual(giqapsun.__version__, version)


class Library(unittest.TestCase):
    """The library that is loaded, and the module as it is installed."""

    def setUp(self):
        folder = tempfile.TemporaryDirectory()
        self.addCleanup(folder.cleanup)
        self.folder = Path(folder.name)

    def run_python(self, text, **environment):
        """What a program prints, and its last line of complaint."""
        clear = {name: value for name, value in os.environ.items() if not name.startswith(("GIQAPSUN_", "PYTHONPATH"))}
        done = subprocess.run(
            [sys.executable, "-c", text, ROOT], cwd=self.folder, env={**clear, **environment}, text=True,
            capture_output=True, check=False,
        )
        return done.stdout, "".join(done.stderr.splitlines()[-1:])

    def complaint(self, **environment):
        """The last line of complaint of a first call."""
        text = "import giqapsun; giqapsun.read(b'')"
        return self.run_python(text, PYTHONPATH=str(ROOT / "bindings/python"), **environment)[1]

    def test_complaints(self):
        calls = ("read", "write", "check", "best", "better", "best_by_calendar")
        for functions, lacks, reason in (
            (["giqapsun_read"], "giqapsun_read_4", "it is no library of layout 4"),
            ([f"giqapsun_{call}_3" for call in calls], "giqapsun_read_4", "it is no library of layout 4"),
            ([f"giqapsun_{call}_4" for call in calls[:4]], "giqapsun_better_4", "it is of an earlier version"),
            ([f"giqapsun_{call}_4" for call in calls], "giqapsun_work_4", "it is of an earlier version"),
        ):
            text = "".join(f"int {function}(void) {{ return 0; }}\n" for function in functions)
            (self.folder / "stub.c").write_text(text)
            subprocess.run(["gcc", "-shared", "stub.c", "-o", "stub.so"], cwd=self.folder, check=True)
            self.assertEqual(
                self.complaint(GIQAPSUN_LIBRARY="stub.so"),
                f"giqapsun.LibraryError: stub.so has no {lacks}: {reason}; bindings/build.sh builds one",
            )
        self.assertEqual(
            self.complaint(GIQAPSUN_LIBRARY="none.so"),
            "giqapsun.LibraryError: the library none.so cannot be loaded: no such file",
        )

    def test_older_python(self):
        """The module and its backend say which Python is needed."""
        for name, kind in (("giqapsun", "ImportError: "), ("giqapsun_backend", "")):
            text = f"import sys; sys.version_info = (3, 10); import {name}"
            paths = f"{ROOT / 'bindings/python'}:{ROOT / 'bindings/python/backend'}"
            answer = self.run_python(text, PYTHONPATH=paths)
            self.assertEqual(answer, ("", f"{kind}giqapsun: Python 3.11 or later is needed"))

    def test_installed(self):
        """Installed without a network, the package has the library inside and needs nothing else."""
        site = self.folder / "site"
        installing = [sys.executable, "-m", "pip", "install", "--quiet", "--no-index", "--disable-pip-version-check"]
        done = subprocess.run(
            [*installing, "--root-user-action=ignore", "--target", site, ROOT / "bindings/python"],
            capture_output=True, text=True, check=False,
        )
        self.assertEqual((done.returncode, done.stderr), (0, ""))
        text = """
import importlib.metadata, pathlib, sys, giqapsun
case = giqapsun.read(pathlib.Path(sys.argv[1], "cases/source.case").read_bytes())
print(giqapsun.best(case).profit, giqapsun.library_file().relative_to(pathlib.Path.cwd().resolve()))
print(importlib.metadata.version("giqapsun"), pathlib.Path(giqapsun.__file__).with_name("py.typed").exists())
"""
        printed = f"33546962 site/giqapsun/libgiqapsun.so\n{giqapsun.__version__} True\n"
        self.assertEqual(self.run_python(text, PYTHONPATH=str(site)), (printed, ""))
        # without the library the package says so, in a line
        (site / "giqapsun/libgiqapsun.so").unlink()
        missing = "libgiqapsun.so is not built: run bindings/build.sh, or set GIQAPSUN_LIBRARY"
        self.assertEqual(
            self.run_python(text, PYTHONPATH=str(site)), ("", f"giqapsun.LibraryError: {missing}")
        )

    def test_not_installed_without_a_library(self):
        """No wheel is built without the library."""
        text = "import giqapsun_backend; giqapsun_backend.build_wheel('.')"
        printed, message = self.run_python(
            text, PYTHONPATH=str(ROOT / "bindings/python/backend"), GIQAPSUN_LIBRARY="none.so"
        )
        self.assertEqual(printed, "")
        self.assertEqual(message, "giqapsun: none.so is not there: run bindings/build.sh, or set GIQAPSUN_LIBRARY")
        self.assertEqual(list(self.folder.iterdir()), [])


if __name__ == "__main__":
    unittest.main()
