"""What the tests of tools/case share: the tool run in a folder of its own, a unit and prices to change."""

import io
import os
import re
import runpy
import subprocess
import sys
import tempfile
import unittest
import xml.etree.ElementTree as ElementTree
from contextlib import chdir, redirect_stderr, redirect_stdout
from dataclasses import replace
from pathlib import Path
from unittest import mock

ROOT = Path(__file__).resolve().parents[2]
CASES = ROOT / "cases"
FAKE = ROOT / "tests/case/fake_best_day"
TOOL = ROOT / "tools/case/case"
SVG = "{http://www.w3.org/2000/svg}"

sys.path.append(str(TOOL.parent))
MAIN = runpy.run_path(str(TOOL))["main"]

from layout import bytes_of  # noqa: E402
from module import giqapsun  # noqa: E402

CASE_7 = (CASES / "case7.case").read_bytes()
SOURCE = (CASES / "source.case").read_bytes()
BELOW_ZERO = (CASES / "below_zero.case").read_bytes()
EVENING = (CASES / "evening.case").read_bytes()
MORNING = (CASES / "morning.case").read_bytes()
WEEK = (CASES / "week.case").read_bytes()
BOILER = (CASES / "boiler.case").read_bytes()
SECOND_CASE_7 = (CASES / "old/form2/case7.case").read_bytes()
SECOND_SOURCE = (CASES / "old/form2/source.case").read_bytes()
SECOND_BELOW_ZERO = (CASES / "old/form2/below_zero.case").read_bytes()
OLD_CASE_7 = (CASES / "old/case7.case").read_bytes()
OLD_SOURCE = (CASES / "old/source.case").read_bytes()

# each stored case in the forms that are only read, and in the one that is written
READ_ONLY = (
    (OLD_CASE_7, CASE_7), (OLD_SOURCE, SOURCE), (SECOND_CASE_7, CASE_7), (SECOND_SOURCE, SOURCE),
    (SECOND_BELOW_ZERO, BELOW_ZERO),
)
SOURCE_LIST = [
    120, 112, 70, 30, 0, 0, 0, 37, 75, 112, 172, 232, 292, 294, 294, 294, 294, 294, 294, 294, 294, 244, 194,
    144,
]
BELOW_ZERO_LIST = [
    140, 80, 120, 180, 240, 240, 200, 140, 80, 80, 40, 0, 0, 30, 60, 80, 140, 200, 240, 240, 240, 240, 180, 120,
]
EVENING_LIST = [
    120, 112, 70, 30, 0, 0, 0, 37, 75, 112, 172, 232, 292, 294, 294, 294, 294, 294, 294, 262, 212, 162, 112, 70,
]

# what is said of that list
EVENING_CLOSES = (
    "closes in stage 2 of 3 of a shut-down, stop at hour 26, 2 hours after the last; C belongs to the day that holds it"
)

# case 7 of the known days, key by key
UNIT = {
    "capacity": "4", "minimum": "2", "rampup": "1", "rampdown": "1", "minup": "1", "mindown": "1",
    "variable_mills": "10", "fixed_mills": "1", "startcost_mills": "3", "stopcost_mills": "2",
    "initial": "3", "elapsed": "2", "rise": "[1, 2]", "fall": "[2, 1]",
}
PRICES = "hour,price_mills\n1,5\n2,5\n3,5\n"

# the columns that a list may have, as a fault names them
COLUMNS = (
    "hour, order, price_mills, output, energy_half_mwh, earnings_half_mills, earnings_dollars, year_hour, "
    "window_first, window_hours, window_line, date, zone"
)


def unit(**changes):
    """The text of the unit with some keys changed, added, or left out where the value is None."""
    keys = {**UNIT, **changes}
    return "".join(f"{key} = {value}\n" for key, value in keys.items() if value is not None)


def small(**changes):
    """The same unit as a record, with three free hours."""
    fields = {
        "capacity": 4, "minimum": 2, "rampup": 1, "rampdown": 1, "minup": 1, "mindown": 1, "variable": 10,
        "fixed": 1, "startcost": 3, "stopcost": 2, "initial": 3, "elapsed": 2, "rise": [1, 2], "fall": [2, 1],
        "prices": [5, 5, 5], "orders": [0, 0, 0],
    }
    return giqapsun.Case(**{**fields, **changes})


def file_of(**changes):
    """The bytes of that record, within the limits or not."""
    return bytes_of(small(**changes))


def known_days():
    """The rows of the known days, cell by cell."""
    for line in (CASES / "known_days.txt").read_text().splitlines():
        if not line.startswith("#"):
            yield [cell.strip() for cell in line.split("|")]


def texts(name):
    """The words for each number, from a table of texts/."""
    rows = (line.split("\t") for line in (ROOT / "texts" / name).read_text().splitlines())
    return {int(number): text for number, text in rows}


def list_text(outputs):
    """The file of a list."""
    return "hour,output\n" + "".join(f"{k},{output}\n" for k, output in enumerate(outputs, 1))


def row_text(prices):
    """The file of a row of prices, in mills."""
    return "hour,price_mills\n" + "".join(f"{k},{price}\n" for k, price in enumerate(prices, 1))


def random_opening(chance, case):
    """The case with an opening that 7 allows: off-line, on-line, or inside a sequence if there is one to be in."""
    sequences = [name for name, outputs in (("upstage", case.rise), ("downstage", case.fall)) if len(outputs) > 1]
    match chance.choice(("off", "on", *sequences)):
        case "upstage":
            stage = chance.randrange(1, len(case.rise))
            return replace(case, initial=case.rise[stage - 1], elapsed=stage, upstage=stage)
        case "downstage":
            stage = chance.randint(2, len(case.fall))
            hours = len(case.rise) + stage - 1 + chance.randint(0, 2)
            return replace(case, initial=case.fall[stage - 1], elapsed=hours, downstage=stage)
        case "on":
            hours = len(case.rise) + chance.randint(0, 2)
            return replace(case, initial=chance.randint(case.minimum, case.capacity), elapsed=hours)
    return replace(case, initial=0, elapsed=chance.randint(1, 4))


def random_list(chance):
    """A small unit and a list near its outputs."""
    number = chance.randint
    minimum = number(1, 3)
    capacity = number(minimum, 5)
    rise = sorted({*(number(1, minimum) for _ in range(2)), minimum})
    fall = sorted({*(number(1, minimum) for _ in range(2)), minimum}, reverse=True)
    hours = number(1, 6)
    case = random_opening(chance, small(
        capacity=capacity, minimum=minimum, rampup=number(1, 3), rampdown=chance.choice((1, 2, 3, 400)),
        minup=number(1, 8), mindown=number(1, 3), rise=rise, fall=fall, prices=[5] * hours,
        orders=[chance.choice((0, 0, 0, 0, 1, 2)) for _ in range(hours)],
    ))
    free = replace(case, minup=1, orders=[0] * hours, prices=[number(-20, 40) for _ in range(hours)])
    outputs = giqapsun.best(free).outputs
    if chance.random() < 0.5:
        return case, [chance.choice((0, 0, *rise, *fall, number(0, capacity + 1))) for _ in range(hours)]
    if chance.random() < 0.8:
        outputs[number(0, hours - 1)] = number(0, capacity + 1)
    return case, outputs


class ToolTest(unittest.TestCase):
    """A test that runs the tool."""

    def setUp(self):
        folder = tempfile.TemporaryDirectory()
        self.addCleanup(folder.cleanup)
        self.folder = Path(folder.name)

    def file(self, name, content):
        """A file in the folder."""
        path = self.folder / name
        path.write_bytes(content if isinstance(content, bytes) else content.encode())
        return name

    def run_tool(self, *words, given=b"", **environment):
        """Status, standard output and standard error of the tool, run in the folder."""
        printed, message = io.TextIOWrapper(io.BytesIO(), "utf-8"), io.StringIO()
        standard = io.TextIOWrapper(io.BytesIO(given), "utf-8")
        with (
            chdir(self.folder), mock.patch.object(sys, "argv", ["case", *words]),
            mock.patch.object(sys, "stdin", standard), mock.patch.dict(os.environ, environment),
            redirect_stdout(printed), redirect_stderr(message),
        ):
            try:
                status = MAIN()
            except SystemExit as end:
                status = end.code
        printed.flush()
        return status, printed.buffer.getvalue(), message.getvalue()

    def run_alone(self, *words, tool=TOOL, **more):
        """The same of the tool as a program of its own."""
        done = subprocess.run([tool, *words], cwd=self.folder, capture_output=True, check=False, **more)
        return done.returncode, done.stdout, done.stderr.decode()

    def answered(self, *words, **environment):
        """What the tool prints, with status 0 and no message."""
        status, printed, message = self.run_tool(*words, **environment)
        self.assertEqual((status, message), (0, ""))
        return printed

    def made(self, toml, csv):
        """The case made of a unit and prices."""
        return self.answered("make", self.file("unit.toml", toml), self.file("day.csv", csv))

    def at_fault(self, message, *words, **environment):
        """The tool names the fault, prints nothing else, and ends with status 2."""
        lines = "".join(f"case: {line}\n" for line in message.splitlines())
        self.assertEqual(self.run_tool(*words, **environment), (2, b"", lines))


class PictureTest(ToolTest):
    """A test of a picture, which the tool has written to p.svg."""

    def drawn(self):
        """The picture."""
        return ElementTree.parse(self.folder / "p.svg").getroot()

    def texts(self, picture):
        """Every text of a picture."""
        return [text.text for text in picture.iter(SVG + "text")]

    def titles(self, picture):
        """The title of each hour."""
        return [group.find(SVG + "title").text for group in picture.iter(SVG + "g")]

    def kinds(self, picture, tag, kind):
        """The elements of a tag that have a class."""
        return [found for found in picture.iter(SVG + tag) if kind in found.get("class", "").split()]

    def coloured(self, picture):
        """Every colour stands in the style, once for light and once for a dark screen; paper has the light ones."""
        style = picture.find(SVG + "style").text
        light, dark = style.split("@media screen and (prefers-color-scheme: dark)")
        for found in picture.iter():
            self.assertFalse({"fill", "stroke", "style"} & set(found.attrib))
        classes = {kind for found in picture.iter() for kind in found.get("class", "").split()}
        for kind in classes:
            self.assertRegex(light, rf"(?m)^\.{kind}\b")
        coloured = {name for name in re.findall(r"(?m)^\.([\w-]+) .*#[0-9a-f]{6}", light)}
        self.assertEqual(coloured - set(re.findall(r"\.([\w-]+)", dark)), set())
