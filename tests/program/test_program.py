"""What the program best_day prints for an input, byte for byte (document 01, "A program reads a case"; requests F-2 and
F-5 for the forms of a file and for days that open and close inside a sequence, F-6 for a week and for units with long
minimum times)."""

import os
import re
import struct
import subprocess
import unittest
from pathlib import Path

ROOT = Path(__file__).resolve().parents[2]
PROGRAM = os.environ.get("GIQAPSUN_BEST_DAY", str(ROOT / "target/bin/best_day"))
CASES = ROOT / "cases"
CASE7 = (CASES / "case7.case").read_bytes()
SOURCE = (CASES / "source.case").read_bytes()
BELOW_ZERO = (CASES / "below_zero.case").read_bytes()
EVENING = (CASES / "evening.case").read_bytes()
MORNING = (CASES / "morning.case").read_bytes()
WEEK = (CASES / "week.case").read_bytes()
BOILER = (CASES / "boiler.case").read_bytes()
SECOND_CASE7 = (CASES / "old/form2/case7.case").read_bytes()
SECOND_SOURCE = (CASES / "old/form2/source.case").read_bytes()
SECOND_BELOW_ZERO = (CASES / "old/form2/below_zero.case").read_bytes()
OLD_CASE7 = (CASES / "old/case7.case").read_bytes()
OLD_SOURCE = (CASES / "old/source.case").read_bytes()

# case 7 in each form
FORMS = (CASE7, SECOND_CASE7, OLD_CASE7)
DAY7 = b"profit -53\n1 2 5\n2 1 3\n3 0 1\n"

# the price furthest from 0 either way
MOST = 10_000_000


def printed(data):
    """What the program prints for an input."""
    done = subprocess.run([PROGRAM], input=data, capture_output=True, check=True, timeout=60)
    return done.stdout + done.stderr


def long_hours(data, size):
    """A file of so many bytes whose chain holds: the sections of case 7, with hours up to the form number."""
    hours = struct.unpack_from("<H", data, 12)[0]
    pairs = data[:14] + struct.pack("<3H", size - hours - 2, size - 2, 2)
    return (pairs + data[20:hours]).ljust(size - 2, b"\0") + data[-2:]


def old_long_hours(size):
    """The same in the old form, with hours up to the file's end."""
    pairs = struct.pack("<8H", 16, 32, 48, 4, 52, 4, 56, size - 56)
    return (pairs + OLD_CASE7[16:]).ljust(size, b"\0")


def changed(data, place, form, *values):
    """A file with numbers changed from a place on."""
    data = bytearray(data)
    struct.pack_into(form, data, place, *values)
    return bytes(data)


def priced(*prices):
    """The file of case 7 with other prices."""
    data = CASE7
    for hour, price in enumerate(prices):
        data = changed(data, 62 + 5 * hour, "<i", price)
    return data


def opened(initial, elapsed, upstage, downstage):
    """The file of case 7 with another opening."""
    return changed(CASE7, 48, "<2H2B", initial, elapsed, upstage, downstage)


def shortened(data, hours):
    """The first hours of such a file."""
    end = 62 + 5 * hours
    return changed(data[:end], 14, "<2H", 5 * hours, end) + b"\3\0"


def timed(data, minup, mindown):
    """A file with other minimum times, which stand 8 bytes into the unit."""
    return changed(data, data[0] + 8, "<2H", minup, mindown)


def ordered(data, order):
    """A file with another order in hour 1, which stands after its price."""
    return changed(data, struct.unpack_from("<H", data, 12)[0] + (2 if data[0] == 16 else 4), "B", order)


def lasting(data, hours):
    """A file of a form with the first hour of its own so many times over."""
    offset, length = struct.unpack_from("<2H", data, 12)
    entry = length // 3
    pairs = data[:14] + struct.pack("<H", entry * hours)
    if data[0] == 20:
        pairs += struct.pack("<2H", offset + entry * hours, 2)
    return pairs + data[data[0] : offset] + hours * data[offset : offset + entry] + data[offset + length :]


class LimitTest(unittest.TestCase):
    """Inputs about the limit whose chain holds. Their hours are not 1 to 168 entries, so a file is refused by 2."""

    def test_up_to_the_limit_an_input_is_read_as_a_file(self):
        for data, size in ((CASE7, 909), (SECOND_CASE7, 907), (CASE7, 4095), (CASE7, 4096), (SECOND_CASE7, 4096)):
            with self.subTest(size=size):
                self.assertEqual(printed(long_hours(data, size)), b"refused 2\n")
        for size in (563, 4095, 4096):
            with self.subTest(old=size):
                self.assertEqual(printed(old_long_hours(size)), b"refused 2\n")

    def test_above_the_limit_an_input_is_refused_by_1(self):
        for size in (4097, 5000, 65535):
            for data in (long_hours(CASE7, size), long_hours(SECOND_CASE7, size), old_long_hours(size)):
                with self.subTest(size=size, first=data[0]):
                    self.assertEqual(printed(data), b"refused 1\n")

    def test_a_case_with_bytes_after_it_is_refused_by_1(self):
        for data in FORMS:
            for size in (len(data) + 1, 4096, 4097, 5000):
                with self.subTest(first=data[0], size=size):
                    self.assertEqual(printed(data.ljust(size, b"\0")), b"refused 1\n")


class RefusalTest(unittest.TestCase):
    """One line with the number, of one digit or two."""

    def refused(self, number, data):
        """The line of a refusal."""
        with self.subTest(number=number, data=data.hex()):
            self.assertEqual(printed(data), b"refused %d\n" % number)

    def test_an_empty_input(self):
        self.refused(1, b"")

    def test_an_input_that_is_cut(self):
        for data in FORMS:
            for size in (1, 15, 16, 19, 20, len(data) - 1):
                self.refused(1, data[:size])

    def test_a_first_offset_of_no_form(self):
        for data in FORMS:
            for offset in (0, 4, 15, 17, 18, 19, 21, 24, 32, 36 - data[0], 256 + data[0]):
                self.refused(1, changed(data, 0, "<H", offset))

    def test_each_number_of_a_record_in_the_old_form(self):
        for number, place, form, value in [
            (3, 18, "<H", 5), (4, 20, "<H", 0), (5, 28, "<I", 1000001), (5, 32, "<I", 2**31),
            (6, 48, "<H", 2), (7, 44, "<H", 1), (8, 58, "B", 3),
        ]:
            self.refused(number, changed(OLD_CASE7, place, form, value))

    def test_each_number_of_a_record_in_form_2(self):
        for number, place, form, value in [
            (3, 22, "<H", 5), (4, 24, "<H", 0), (5, 32, "<I", 1000001), (5, 36, "<I", 2**31), (5, 44, "<I", 2**32 - 1),
            (6, 52, "<H", 2), (7, 48, "<H", 1), (8, 64, "B", 3), (13, 60, "<i", MOST + 1), (13, 65, "<i", -MOST - 1),
            (13, 70, "<i", -(2**31)), (13, 70, "<i", 2**31 - 1),
        ]:
            self.refused(number, changed(SECOND_CASE7, place, form, value))

    def test_each_number_of_a_record_in_form_3(self):
        for number, place, form, value in [
            (3, 22, "<H", 5), (4, 24, "<H", 0), (5, 32, "<I", 1000001), (5, 36, "<I", 2**31), (5, 44, "<I", 2**32 - 1),
            (6, 54, "<H", 2), (7, 48, "<H", 1), (7, 52, "B", 1), (7, 53, "B", 2), (8, 66, "B", 3),
            (13, 62, "<i", MOST + 1), (13, 67, "<i", -MOST - 1), (13, 72, "<i", -(2**31)), (13, 72, "<i", 2**31 - 1),
        ]:
            self.refused(number, changed(CASE7, place, form, value))

    def test_an_opening_inside_a_sequence(self):
        # stages that there are not, another output, other hours, both stages
        for opening in [
            (2, 2, 2, 0), (3, 9, 255, 0), (2, 1, 1, 0), (1, 2, 1, 0), (2, 9, 0, 1), (1, 9, 0, 3), (2, 9, 0, 2),
            (1, 2, 0, 2), (1, 10001, 0, 2), (1, 1, 1, 2), (1, 1, 0, 0), (1, 9, 0, 0),
        ]:
            self.refused(7, opened(*opening))

    def test_the_form_section(self):
        for form in (0, 1, 4, 256 + 2, 256 + 3, 65535):
            unknown = changed(CASE7, 77, "<H", form)
            self.refused(12, unknown)
            # before every number of the record
            self.refused(12, changed(unknown, 22, "<H", 5))
        # of one byte, of three and of none: 2, whatever it holds
        self.refused(2, changed(CASE7, 18, "<H", 1)[:-1])
        self.refused(2, changed(CASE7, 18, "<H", 3) + b"\0")
        self.refused(2, changed(CASE7, 18, "<H", 0)[:-2])

    def test_an_unknown_form_is_measured_as_form_3(self):
        # a unit of 32 bytes, which form 2 alone has
        for form in (0, 1, 3, 4):
            self.refused(2, changed(SECOND_CASE7, 75, "<H", form))
        self.refused(2, changed(CASE7, 77, "<H", 2))
        # hours of 9 bytes, three entries of the old form
        pairs = struct.pack("<10H", 20, 34, 54, 4, 58, 4, 62, 9, 71, 2)
        for form in (2, 3, 4):
            self.refused(2, pairs + CASE7[20:62] + OLD_CASE7[56:] + form.to_bytes(2, "little"))

    def test_no_schedule(self):
        # on-line at 3 MW, ordered off-line in hour 1
        self.refused(11, changed(CASE7, 66, "B", 2))
        self.refused(11, changed(SECOND_CASE7, 64, "B", 2))
        self.refused(11, changed(OLD_CASE7, 58, "B", 2))
        # a shut-down that the day opens in, with its stop at hour 1 after 3 hours on-line; 4 are needed
        self.refused(11, changed(opened(1, 3, 0, 2), 28, "<H", 4))
        self.assertNotIn(b"refused", printed(changed(opened(1, 3, 0, 2), 28, "<H", 3)))


    def test_hours_past_a_week(self):
        for data in FORMS:
            for hours in (0, 169, 256, 800):
                self.refused(2, lasting(data, hours))
            # before a minimum time
            self.refused(2, timed(lasting(data, 169), 25, 25))

    def test_minimum_times(self):
        for data in FORMS:
            for times in ((0, 1), (1, 0), (25, 1), (1, 25), (256 + 3, 1), (65535, 65535)):
                self.refused(4, timed(data, *times))

    def test_a_long_minimum_time(self):
        """The program has numbers for minimum times of up to 8 hours: a longer one is 10, with a list and without."""
        for data in FORMS:
            # on-line at 3 MW, ordered off-line in hour 1: no list keeps it
            none = ordered(data, 2)
            for times in ((9, 1), (1, 9), (9, 9), (20, 12), (24, 24), (8, 9), (24, 8)):
                self.refused(10, timed(data, *times))
                self.refused(10, timed(none, *times))
                self.refused(10, timed(lasting(data, 168), *times))
            for times in ((8, 8), (8, 1), (1, 8)):
                self.refused(11, timed(none, *times))
                self.assertNotIn(b"refused", printed(timed(data, *times)))
            # after every number of the record
            self.refused(8, timed(ordered(data, 3), 20, 20))
        self.refused(10, BOILER)
        self.refused(13, changed(timed(CASE7, 9, 9), 62, "<i", MOST + 1))
        # a shut-down that the day opens in, with its stop after 3 hours on-line; 9 are needed
        self.refused(10, timed(opened(1, 3, 0, 2), 9, 1))


class DayTest(unittest.TestCase):
    """The lines of a day."""

    def test_case_7(self):
        self.assertEqual(printed(CASE7), DAY7)

    def test_every_form_prints_the_same(self):
        for data in FORMS:
            self.assertEqual(printed(data), DAY7)
        for data in (SECOND_SOURCE, OLD_SOURCE):
            self.assertEqual(printed(data), printed(SOURCE))
        self.assertEqual(printed(SECOND_BELOW_ZERO), printed(BELOW_ZERO))
        # the greatest price of the old form, and an order
        old = changed(changed(OLD_CASE7, 59, "<H", 65535), 58, "B", 1)
        self.assertEqual(printed(old), printed(changed(priced(5, 65535, 5), 66, "B", 1)))

    def test_a_day_that_opens_in_a_sequence(self):
        # on PU(1): up to PU(2), then down; B is not of this day
        self.assertEqual(printed(opened(1, 1, 1, 0)), b"profit %d\n1 2 3\n2 1 3\n3 0 1\n" % (-7 * 5 - 4 - 4))
        # on PD(2): off-line, with C
        self.assertEqual(printed(opened(1, 3, 0, 2)), b"profit %d\n1 0 1\n2 0 0\n3 0 0\n" % (-5 - 4))

    def test_a_day_that_closes_in_a_shut_down(self):
        # cases 4 and 6 of the known days, without C
        self.assertEqual(printed(shortened(changed(priced(10), 48, "<H", 2), 1)), b"profit -2\n1 1 3\n")
        self.assertEqual(printed(shortened(CASE7, 2)), b"profit -44\n1 2 5\n2 1 3\n")

    def test_the_days_of_the_page(self):
        """What docs/readers/control-room.md shows below a command is printed, in its order."""
        page = (ROOT / "docs/readers/control-room.md").read_text(encoding="utf-8")
        shown = re.findall(r"\n    target/bin/best_day < cases/(\w+).case\n(?:[^\n]+\n)*\n((?:    .*\n)+)", page)
        self.assertEqual([name for name, _ in shown], ["evening", "morning", "week", "boiler"])
        for name, text in shown:
            lines = iter(printed((CASES / f"{name}.case").read_bytes()).decode("ascii").splitlines())
            for line in text.splitlines():
                self.assertIn(line.removeprefix("    "), lines)

    def test_case_7_in_two_writes(self):
        for data in FORMS:
            with subprocess.Popen([PROGRAM], stdin=subprocess.PIPE, stdout=subprocess.PIPE) as program:
                for part in (data[:20], data[20:]):
                    program.stdin.write(part)
                    program.stdin.flush()
                program.stdin.close()
                self.assertEqual(program.stdout.read(), DAY7)

    def test_a_profit_above_0(self):
        # three hours at 500 mills: 4, 4, 4 MW earn 490 * (7 + 8 + 8) - 6 half-mills
        self.assertEqual(printed(priced(500, 500, 500)), b"profit 11264\n1 4 7\n2 4 8\n3 4 8\n")

    def test_prices_below_0(self):
        # 2, 1, 0 MW lose 12 * (5 + 3 + 1) + 4 + 4 half-mills at -2 mills
        self.assertEqual(printed(priced(-2, -2, -2)), b"profit -116\n1 2 5\n2 1 3\n3 0 1\n")
        # the last hour is worth going through one below 0
        self.assertEqual(printed(priced(5, -20, 80000)), b"profit 639674\n1 3 6\n2 4 7\n3 4 8\n")

    def test_prices_at_their_limits(self):
        least, most = b"profit %d\n1 2 5\n2 1 3\n3 0 1\n", b"profit %d\n1 4 7\n2 4 8\n3 4 8\n"
        self.assertEqual(printed(priced(-MOST, -MOST, -MOST)), least % (-9 * (MOST + 10) - 8))
        self.assertEqual(printed(priced(MOST, MOST, MOST)), most % (23 * (MOST - 10) - 6))

    def day(self, data, profit, initial, hours=24):
        """The outputs of a day of so many hours; the profit and each line are as they have to be."""
        lines = printed(data).decode("ascii").split("\n")
        self.assertEqual((lines[0], lines[-1]), (f"profit {profit}", ""))
        before, outputs = initial, []
        for hour, line in enumerate(lines[1:-1], 1):
            outputs.append(int(line.split(" ")[1]))
            self.assertEqual(line, f"{hour} {outputs[-1]} {before + outputs[-1]}")
            before = outputs[-1]
        self.assertEqual(len(outputs), hours)
        return outputs

    def test_the_source_day(self):
        for data in (SOURCE, SECOND_SOURCE, OLD_SOURCE):
            self.day(data, 33546962, 170)

    def test_a_week(self):
        """The source's day seven times over: 168 lines, the last with three digits of an hour."""
        outputs = self.day(WEEK, 301939484, 170, 168)
        self.assertEqual(outputs[22:27], [112, 70, 30, 0, 0])
        self.assertEqual(printed(WEEK).splitlines()[-1], b"168 144 338")
        # Table V's other rows; the hours of a unit with three outputs of either trajectory stand 4 bytes later
        for hours, profit in ((48, 78279049), (96, 167743223)):
            end = 66 + 5 * hours
            self.day(changed(WEEK[:end], 14, "<2H", 5 * hours, end) + b"\3\0", profit, 170, hours)

    def test_hours_of_every_form(self):
        for hours in (1, 9, 10, 48, 49, 99, 100, 167, 168):
            said = printed(lasting(CASE7, hours))
            self.assertEqual(said.count(b"\n"), hours + 1)
            for data in FORMS:
                self.assertEqual(printed(lasting(data, hours)), said)

    def test_the_stored_days_back_to_back(self):
        self.assertEqual(self.day(EVENING, 36130586, 170)[21:], [162, 112, 70])
        self.assertEqual(self.day(MORNING, 78477350, 70)[:3], [30, 0, 0])

    def test_the_stored_day_below_0(self):
        outputs = self.day(BELOW_ZERO, 1762365500, 110)
        # on-line by order at -22 dollars in hour 11, off-line where the prices are lowest
        self.assertEqual(outputs[9:14], [80, 40, 0, 0, 30])


if __name__ == "__main__":
    unittest.main()
