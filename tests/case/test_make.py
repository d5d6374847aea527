"""case make: bytes of the stored cases and of the known days, and every fault of a unit or of prices."""

import struct
from dataclasses import fields

from tool import CASES, PRICES, UNIT, ToolTest, giqapsun, known_days, texts, unit

# the order bytes
ORDERS = {"free": 0, "on": 1, "off": 2}


class Made(ToolTest):
    """Cases that are made."""

    def test_stored_cases(self):
        for name in ("source", "case7", "below_zero", "evening", "morning", "week", "boiler"):
            made = self.made((CASES / f"{name}.toml").read_bytes(), (CASES / f"{name}.csv").read_bytes())
            self.assertEqual(made, (CASES / f"{name}.case").read_bytes())

    def test_keys_are_the_names_of_the_record(self):
        keys = {key.removesuffix("_mills") for key in UNIT}
        stages = {"upstage", "downstage"}
        self.assertEqual(keys, {field.name for field in fields(giqapsun.Case)} - {"prices", "orders"} - stages)

    def test_case_7_bytes(self):
        expected = struct.pack(
            "<10H6H4i2H2B2H2HiBiBiBH", 20, 34, 54, 4, 58, 4, 62, 15, 77, 2, 4, 2, 1, 1, 1, 1, 10, 1, 3, 2, 3, 2,
            0, 0, 1, 2, 2, 1, 5, 0, 5, 0, 5, 0, 3,
        )
        self.assertEqual(self.made(unit(), PRICES), expected)

    def test_stages(self):
        """The two bytes after h; a key that is left out is 0."""
        for changes, stages in [
            ({}, b"\0\0"), ({"start_up_stage": "0", "shut_down_stage": "0"}, b"\0\0"),
            ({"initial": "1", "elapsed": "1", "start_up_stage": "1"}, b"\1\0"),
            ({"initial": "1", "elapsed": "3", "shut_down_stage": "2", "start_up_stage": "0"}, b"\0\2"),
        ]:
            made = self.made(unit(**changes), PRICES)
            self.assertEqual(made[52:54], stages)
            case = giqapsun.read(made)
            self.assertEqual(bytes((case.upstage, case.downstage)), stages)

    def test_known_days(self):
        rows = list(known_days())
        self.assertEqual(len(rows), 12)
        for name, initial, elapsed, down, prices, orders, _, _ in rows:
            hours = list(zip(prices.split(","), orders.split(",")))
            csv = "hour,price_mills,order\n" + "".join(f"{k},{p},{o}\n" for k, (p, o) in enumerate(hours, 1))
            toml = unit(initial=initial, elapsed=elapsed, mindown=down)
            start = struct.pack(
                "<10H6H4i2H2B2H2H", 20, 34, 54, 4, 58, 4, 62, 5 * len(hours), 62 + 5 * len(hours), 2, 4, 2, 1, 1, 1,
                int(down), 10, 1, 3, 2, int(initial), int(elapsed), 0, 0, 1, 2, 2, 1,
            )
            middle = b"".join(struct.pack("<iB", int(price), ORDERS[order]) for price, order in hours)
            with self.subTest(case=name):
                self.assertEqual(self.made(toml, csv), start + middle + b"\3\0")

    def test_dollars_are_exact(self):
        for dollars, mills in [
            ("38", 38000), ("38.0", 38000), ("0.001", 1), ("0.29", 290), ("1.005", 1005), ("4.35", 4350),
            ("1_000", 1000000), ("+2.5", 2500), ("999.999", 999999),
        ]:
            with self.subTest(dollars=dollars):
                made = self.made(unit(variable_mills=None, variable_dollars=dollars), PRICES)
                self.assertEqual(made, self.made(unit(variable_mills=str(mills)), PRICES))
        for dollars, mills in [
            ("0.1", 100), ("65.535", 65535), ("65.536", 65536), ("26.95", 26950), ("0", 0), ("-0", 0), ("-0.001", -1),
            ("-12.5", -12500), ("+2.75", 2750), ("2750.000", 2750000), ("10000", 10**7), ("9999.999", 10**7 - 1),
            ("-10000.000", -(10**7)), ("-9999.999", 1 - 10**7),
        ]:
            with self.subTest(dollars=dollars):
                made = self.made(unit(), f"hour,price_dollars\n1,{dollars}\n")
                self.assertEqual(made, self.made(unit(), f"hour,price_mills\n1,{mills}\n"))
                self.assertEqual(giqapsun.read(made).prices, [mills])

    def test_forms_of_a_prices_file(self):
        expected = self.made(unit(), "hour,price_mills,order\n1,5,on\n2,6,off\n")
        for csv in (
            "order,price_mills,hour\non,5,1\noff,6,2\n",
            "hour,price_mills,order\r\n1,5,on\r\n2,6,off\r\n",
            "\ufeffhour,price_mills,order\n1,5,on\n2,6,off",
            '\nhour, price_mills, order\n1, 5, on\n\n"2","6","off"\n\n',
        ):
            with self.subTest(csv=csv):
                self.assertEqual(self.made(unit(), csv), expected)


class UnitFaults(ToolTest):
    """Faults of the unit's file."""

    def faulty(self, toml, message):
        """The fault that making names."""
        with self.subTest(message=message):
            self.file("u.toml", toml)
            self.at_fault(message, "make", "u.toml", self.file("p.csv", PRICES))

    def test_file(self):
        self.at_fault("u.toml: No such file or directory", "make", "u.toml", "p.csv")
        self.at_fault(".: Is a directory", "make", ".", "p.csv")
        self.faulty(b"capacity = 4\nminimum = \xff\n", "u.toml:2: not UTF-8")
        self.faulty("capacity = 4\nminimum =\n", "u.toml:2: not TOML: Invalid value (at line 2, column 10)")
        self.faulty(
            "capacity = 4\ncapacity = 5\n",
            "u.toml:2: not TOML: Cannot overwrite a value (at line 2, column 13)",
        )

    def test_deep_or_long(self):
        for toml in ("rise = " + "[" * 50_000, unit(capacity="9" * 5000)):
            self.file("u.toml", toml)
            status, printed, message = self.run_tool("make", "u.toml", self.file("p.csv", PRICES))
            self.assertEqual((status, printed), (2, b""))
            self.assertRegex(message, r"\Acase: u\.toml: not TOML: .*\n\Z")

    def test_keys(self):
        self.faulty(unit(ramp="1"), "u.toml:15: ramp: no such key")
        self.faulty("\n[unit]\n" + unit(), "u.toml:2: unit: no such key")
        self.faulty(unit(rampup=None), "u.toml: rampup: the key is missing")
        self.faulty(unit(fall=None), "u.toml: fall: the key is missing")
        self.faulty(
            unit(variable_mills=None), "u.toml: variable: the key variable_dollars or variable_mills is missing"
        )
        self.faulty(
            unit(startcost_dollars="1"), "u.toml:9: startcost_mills: startcost_dollars is given too"
        )

    def test_other_words(self):
        """A key by another word is told the record's."""
        for key, right in [
            ("ramp_up", "rampup"), ("ramp_down", "rampdown"), ("minimum_up", "minup"), ("minimum_down", "mindown"),
            ("start_up", "rise"), ("shut_down", "fall"), ("F_dollars", "variable_dollars"),
            ("A_mills", "fixed_mills"), ("B_dollars", "startcost_dollars"), ("C_mills", "stopcost_mills"),
            ("F", "variable_dollars or variable_mills"), ("stopcost", "stopcost_dollars or stopcost_mills"),
            ("upstage", "start_up_stage"), ("downstage", "shut_down_stage"), ("startup_stage", "start_up_stage"),
        ]:
            self.faulty(unit(**{key: "1"}), f"u.toml:15: {key}: no such key; it is {right}")

    def test_numbers(self):
        for value, what in [
            ("0x1" + "0" * 5000, "a number of more than 15 digits is too large"),
            ("4.0", "4.0 is not a whole number"),
            ("nan", "nan is not a whole number"),
            ("true", "true is not a whole number"),
            ('"4"', "'4' is not a whole number"),
            ("[4]", "a list is not a whole number"),
            ("{ MW = 4 }", "a table is not a whole number"),
            ("2003-05-29", "a date or time is not a whole number"),
        ]:
            self.faulty(unit(capacity=value), f"u.toml:1: capacity: {what}")
        self.faulty(unit(fixed_mills="1.5"), "u.toml:8: fixed_mills: 1.5 is not a whole number")
        self.faulty(unit(start_up_stage='"1"'), "u.toml:15: start_up_stage: '1' is not a whole number")
        self.faulty(unit(shut_down_stage="true"), "u.toml:15: shut_down_stage: true is not a whole number")

    def test_dollars(self):
        decimals = "is not an amount in dollars with up to three decimals"
        for value, what in [
            ("38.0001", f"38.0001 {decimals}"),
            ("1e3", f"1e3 {decimals}"),
            ("nan", f"nan {decimals}"),
            ("-inf", f"-inf {decimals}"),
            ("false", "false is not an amount in dollars"),
            ('"38"', "'38' is not an amount in dollars"),
            ("1" + "0" * 15, f"a number of more than 15 digits {decimals}"),
        ]:
            self.faulty(unit(variable_mills=None, variable_dollars=value), f"u.toml:14: variable_dollars: {what}")

    def test_trajectories(self):
        self.faulty(unit(rise="2"), "u.toml:13: rise: 2 is not a list of outputs")
        self.faulty(unit(fall="[2,\n  1.5]"), "u.toml:14: fall: 1.5 is not a whole number")


class Refused(ToolTest):
    """Cases that would be refused are not made: field, value and limit are named."""

    def refused(self, number, text, toml, place, csv=PRICES):
        """The refusal, with the place of each field at fault."""
        with self.subTest(place=place):
            self.file("u.toml", toml)
            self.at_fault(
                f"u.toml, p.csv: refused {number}: {text}\n{place}",
                "make", "u.toml", self.file("p.csv", csv), "-o", "d.case",
            )
            self.assertFalse((self.folder / "d.case").exists())

    def test_counts(self):
        text = texts("refusals.tsv")[2]
        for hours in (169, 30_000):
            csv = "hour,price_mills\n" + "".join(f"{k},1\n" for k in range(1, hours + 1))
            self.refused(2, text, unit(), f"p.csv: hours: {hours:,}, from 1 to 168 allowed", csv)
        self.refused(2, text, unit(), "p.csv: hours: 0, from 1 to 168 allowed", "hour,price_mills\n")
        self.refused(2, text, unit(rise="[]"), "u.toml:13: rise: 0, from 1 to 8 allowed")
        long = "[" + "1, " * 40_000 + "]"
        self.refused(2, text, unit(fall=long), "u.toml:14: fall: 40,000, from 1 to 8 allowed")

    def test_outputs(self):
        text = "minimum output 0 or above capacity, or capacity above 400"
        self.refused(3, text, unit(minimum="5"), "u.toml:2: minimum: 5, from 1 to the capacity 4 allowed")
        self.refused(3, text, unit(minimum="0"), "u.toml:2: minimum: 0, from 1 to the capacity 4 allowed")
        self.refused(3, text, unit(capacity="401"), "u.toml:1: capacity: 401, from 1 to 400 allowed")
        self.refused(3, text, unit(capacity="70000"), "u.toml:1: capacity: 70,000, from 1 to 400 allowed")
        self.refused(
            3, text, unit(capacity="-1"),
            "u.toml:1: capacity: -1, from 1 to 400 allowed\nu.toml:2: minimum: 2, from 1 to the capacity -1 allowed",
        )

    def test_ramps_and_times(self):
        text = "RU or RD outside 1 to 400, or a minimum time outside 1 to 24"
        self.refused(4, text, unit(rampup="0"), "u.toml:3: rampup: 0, from 1 to 400 allowed")
        self.refused(4, text, unit(rampdown="401"), "u.toml:4: rampdown: 401, from 1 to 400 allowed")
        self.refused(
            4, text, unit(minup="25", mindown="-9"),
            "u.toml:5: minup: 25, from 1 to 24 allowed\nu.toml:6: mindown: -9, from 1 to 24 allowed",
        )

    def test_costs(self):
        text = "F not from 0 to 1,000,000, or A, B or C not from 0 to 100,000,000"
        most = "from 0 to 1,000,000 mills ($1,000.000) allowed"
        self.refused(
            5, text, unit(variable_mills="1000001"), f"u.toml:7: variable: 1,000,001 mills ($1,000.001), {most}"
        )
        self.refused(
            5, text, unit(variable_mills=None, variable_dollars="2000"),
            f"u.toml:14: variable: 2,000,000 mills ($2,000.000), {most}",
        )
        self.refused(
            5, text, unit(stopcost_mills="99999999999"),
            "u.toml:10: stopcost: 99,999,999,999 mills ($99,999,999.999), "
            "from 0 to 100,000,000 mills ($100,000.000) allowed",
        )
        self.refused(5, text, unit(variable_mills="-1"), f"u.toml:7: variable: -1 mills ($-0.001), {most}")
        self.refused(
            5, text, unit(fixed_mills="2147483648"),
            "u.toml:8: fixed: 2,147,483,648 mills ($2,147,483.648), "
            "from 0 to 100,000,000 mills ($100,000.000) allowed",
        )

    def test_trajectories(self):
        text = (
            "PU not strictly rising from 1 or more to the minimum output, "
            "or PD not strictly falling from the minimum output to 1 or more"
        )
        for changes, place in [
            ({"rise": "[2, 2]"}, "u.toml:13: rise: 2, 2, strictly rising allowed"),
            ({"rise": "[0, 2]"}, "u.toml:13: rise: 0, 2, 1 or more allowed"),
            ({"rise": "[1]"}, "u.toml:13: rise: 1, rising to the minimum 2 allowed"),
            ({"fall": "[1, 2]"}, "u.toml:14: fall: 1, 2, strictly falling allowed\n"
                                 "u.toml:14: fall: 1, 2, falling from the minimum 2 allowed"),
            ({"fall": "[2, 0]"}, "u.toml:14: fall: 2, 0, 1 or more allowed"),
        ]:
            self.refused(6, text, unit(**changes), place)

    def test_opening(self):
        text = texts("refusals.tsv")[7]
        self.refused(7, text, unit(elapsed="10001"), "u.toml:12: elapsed: 10,001, from 1 to 10,000 allowed")
        self.refused(7, text, unit(elapsed="0"), "u.toml:12: elapsed: 0, from 1 to 10,000 allowed")
        self.refused(7, text, unit(initial="1"), "u.toml:11: initial: 1, 0 or from 2 to 4 allowed")
        self.refused(7, text, unit(initial="-2"), "u.toml:11: initial: -2, 0 or from 2 to 4 allowed")
        self.refused(
            7, text, unit(elapsed="1"),
            "u.toml:12: elapsed: 1, 2 or more (the outputs of rise) allowed with initial above 0",
        )

    def test_stages(self):
        """7 of an opening inside a sequence: the stage, p(0) and h."""
        text = texts("refusals.tsv")[7]
        inside = {"minimum": "3", "rise": "[1, 2, 3]", "fall": "[3, 2, 1]"}
        rising = "0 or from 1 to 2 allowed with 3 outputs of rise"
        falling = "0 or from 2 to 3 allowed with 3 outputs of fall"
        for changes, place in [
            ({"start_up_stage": "1", "shut_down_stage": "2"},
             "u.toml:16: shut_down_stage: 2, 0 allowed with a start-up stage of 1"),
            ({"start_up_stage": "3"}, f"u.toml:15: start_up_stage: 3, {rising}"),
            ({"start_up_stage": "-1"}, f"u.toml:15: start_up_stage: -1, {rising}"),
            ({"start_up_stage": "1000"}, f"u.toml:15: start_up_stage: 1,000, {rising}"),
            ({"rise": "[3]", "start_up_stage": "1"}, "u.toml:15: start_up_stage: 1, 0 allowed with 1 output of rise"),
            ({"shut_down_stage": "1"}, f"u.toml:15: shut_down_stage: 1, {falling}"),
            ({"shut_down_stage": "4"}, f"u.toml:15: shut_down_stage: 4, {falling}"),
            ({"fall": "[3]", "shut_down_stage": "2"}, "u.toml:15: shut_down_stage: 2, 0 allowed with 1 output of fall"),
            ({"initial": "3", "start_up_stage": "2"}, "u.toml:11: initial: 3, 2 allowed in stage 2 of a start-up"),
            ({"initial": "2", "elapsed": "3", "start_up_stage": "2"},
             "u.toml:12: elapsed: 3, 2 allowed in stage 2 of a start-up"),
            ({"initial": "0", "elapsed": "1", "start_up_stage": "2"},
             "u.toml:11: initial: 0, 2 allowed in stage 2 of a start-up\n"
             "u.toml:12: elapsed: 1, 2 allowed in stage 2 of a start-up"),
            ({"initial": "2", "elapsed": "9", "shut_down_stage": "3"},
             "u.toml:11: initial: 2, 1 allowed in stage 3 of a shut-down"),
            ({"initial": "1", "elapsed": "4", "shut_down_stage": "3"},
             "u.toml:12: elapsed: 4, 5 or more allowed in stage 3 of a shut-down"),
            ({"initial": "1", "elapsed": "10001", "shut_down_stage": "3"},
             "u.toml:12: elapsed: 10,001, from 1 to 10,000 allowed"),
            ({"initial": "2", "elapsed": "9"}, "u.toml:11: initial: 2, 0 or from 3 to 4 allowed"),
        ]:
            self.refused(7, text, unit(**{**inside, **changes}), place)
        for changes in (
            {"initial": "2", "elapsed": "2", "start_up_stage": "2"},
            {"initial": "1", "elapsed": "5", "shut_down_stage": "3"},
            {"initial": "2", "elapsed": "10000", "shut_down_stage": "2"},
        ):
            self.made(unit(**{**inside, **changes}), PRICES)

    def test_prices(self):
        """Hour, value and limit, and the line; also for a price that no record holds."""
        text = "a price outside -10,000,000 to 10,000,000"
        limits = "from $-10,000.000 to $10,000.000 allowed"
        for cell, value in [
            ("10000001", "10,000,001 mills ($10,000.001)"), ("-10000001", "-10,000,001 mills ($-10,000.001)"),
            ("2147483648", "2,147,483,648 mills ($2,147,483.648)"),
            ("-99999999999", "-99,999,999,999 mills ($-99,999,999.999)"),
        ]:
            self.refused(
                13, text, unit(), f"p.csv:4: price_mills: {value} at hour 2, {limits}",
                f"hour,price_mills\n1,5\n\n2,{cell}\n",
            )
        self.refused(
            13, text, unit(),
            f"p.csv:2: price_dollars: 10,000,001 mills ($10,000.001) at hour 1, {limits}\n"
            f"p.csv:4: price_dollars: -20,000,000 mills ($-20,000.000) at hour 3, {limits}",
            "hour,price_dollars,order\n1,10000.001,on\n2,10000,on\n3,-20000,free\n",
        )
        # the costs come before the prices
        costs = "F not from 0 to 1,000,000, or A, B or C not from 0 to 100,000,000"
        most = "from 0 to 1,000,000 mills ($1,000.000) allowed"
        self.refused(
            5, costs, unit(variable_mills="-1"), f"u.toml:7: variable: -1 mills ($-0.001), {most}",
            "hour,price_mills\n1,10000001\n",
        )


class PricesFaults(ToolTest):
    """Faults of the prices' file."""

    def faulty(self, csv, message):
        """The fault that making names."""
        with self.subTest(message=message):
            self.file("p.csv", csv)
            self.at_fault(message, "make", self.file("u.toml", unit()), "p.csv")

    def test_file(self):
        self.at_fault(
            "p.csv: No such file or directory", "make", self.file("u.toml", unit()), "p.csv"
        )
        self.faulty("", "p.csv:1: empty; the first line names the columns")
        self.faulty(b"hour,price_mills\n1,\xff\n", "p.csv:2: not UTF-8")
        self.faulty('hour,price_mills\n1,"5"5\n', "p.csv:2: not CSV: ',' expected after '\"'")

    def test_columns(self):
        there = "no such column; there are hour, price_dollars, price_mills, order"
        self.faulty("hour,price\n1,5\n", f"p.csv:1: 'price': {there}")
        self.faulty("1,5\n2,5\n", f"p.csv:1: '1': {there}")
        self.faulty("hour,price_mills,hour\n", "p.csv:1: hour: the column is given twice")
        self.faulty("price_mills\n5\n", "p.csv:1: hour: the column is missing")
        self.faulty(
            "hour,order\n1,on\n", "p.csv:1: price: the column price_dollars or price_mills is missing"
        )
        self.faulty(
            "hour,price_mills,price_dollars\n", "p.csv:1: price_mills: the column price_dollars is given too"
        )
        self.faulty("hour,price_mills\n1,5\n2\n", "p.csv:3: 1 cells where 2 were expected")
        self.faulty("hour,price_mills\n1,5,on\n", "p.csv:2: 3 cells where 2 were expected")

    def test_hours(self):
        self.faulty("hour,price_mills\n0,5\n", "p.csv:2: hour: '0' where hour 1 was expected")
        self.faulty("hour,price_mills\n1,5\n3,5\n", "p.csv:3: hour: '3' where hour 2 was expected")
        self.faulty("hour,price_mills\n1,5\n1,5\n", "p.csv:3: hour: '1' where hour 2 was expected")
        self.faulty("hour,price_mills\n01:00,5\n", "p.csv:2: hour: '01:00' where hour 1 was expected")

    def test_prices(self):
        mills = "is not a price in whole mills"
        for cell in ("5.0", "", "-", "--5", "x" * 40, "\u0665", "\u22125", "1e3", "9" * 16):
            self.faulty(f"hour,price_mills\n1,5\n2,{cell}\n", f"p.csv:3: price_mills: '{cell}' {mills}")
        self.faulty(f"hour,price_mills\n1,{'x' * 50}\n", f"p.csv:2: price_mills: '{'x' * 40}...' {mills}")
        dollars = "is not a price in dollars with up to three decimals"
        for cell in ("26.9500", "-0.0001", "$5", "-$5", "(5)", "1e1", "5.", "-.5", "1_000", "9" * 16):
            self.faulty(f"hour,price_dollars\n1,{cell}\n", f"p.csv:2: price_dollars: '{cell}' {dollars}")

    def test_orders(self):
        for cell in ("", "ON", "1", "must"):
            self.faulty(
                f"hour,price_mills,order\n1,5,{cell}\n", f"p.csv:2: order: '{cell}' is not free, on or off"
            )
