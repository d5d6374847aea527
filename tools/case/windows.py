"""The windows of a year, from a CSV file: the columns order, first and hours, and a line for each window, on-line and
off-line ones in any mixture. `first` is the window's first hour, counted from 0 at the year's first, `hours` how many
it holds.

The library tests them; the faults that are found here explain its refusal.
"""

from typing import NamedTuple

from faults import Fault, quoted
from module import giqapsun
from tables import Table
from words import ORDERS

COLUMNS = ("order", "first", "hours")

# the orders that a window may give
GIVEN = (giqapsun.ON, giqapsun.OFF)


class Window(NamedTuple):
    """A window: its order, first hour and number of hours, and the line where it stands."""

    order: int
    first: int
    hours: int
    line: int

    @property
    def end(self):
        """The hour after its last."""
        return self.first + self.hours

    @property
    def word(self):
        """Its order in words."""
        return f"{ORDERS[self.order]}-line"

    def __str__(self):
        return f"{self.first}+{self.hours}"


class Year:
    """The windows of a file, as they stand there."""

    def __init__(self, file):
        table = Table(file, COLUMNS, COLUMNS)
        self.file = file
        self.windows = [_window(table, line, row) for line, row in table.rows()]

    def listed(self, order):
        """The windows of an order."""
        return [window for window in self.windows if window.order == order]

    def numbers(self, order):
        """The windows of an order as the library takes them, two numbers for each."""
        return [number for window in self.listed(order) for number in (window.first, window.hours)]

    def faults(self):
        """Each window that is empty, past the year, unsorted or overlapping the one before it in its list."""
        pairs = [pair for order in GIVEN for pair in zip([None, *self.listed(order)], self.listed(order))]
        for before, window in sorted(pairs, key=lambda pair: pair[1].line):
            for field, what in _faults(before, window):
                yield str(Fault(self.file, window.line, field, what))


def _window(table, line, row):
    words = [ORDERS[order] for order in GIVEN]
    if row["order"] not in words:
        raise Fault(table.file, line, "order", f"{quoted(row['order'])} is not {' or '.join(words)}")
    first, hours = (table.number(line, row, column, "hours") for column in ("first", "hours"))
    return Window(ORDERS.index(row["order"]), first, hours, line)


def _faults(before, window):
    """The fields of a window that are at fault, with what is wrong; `before` is the one before it in its list."""
    if window.hours == 0:
        yield "hours", "0, a window holds 1 hour or more"
    if window.end > giqapsun.YEAR_HOURS:
        yield "hours", f"{window} ends at {window.end:,}, at most {giqapsun.YEAR_HOURS:,} allowed"
    if before and window.first < before.first:
        yield "first", f"{window.first}, below {before.first} of line {before.line}: {window.word} windows not sorted"
    elif before and window.first < before.end:
        yield "first", f"{window.first}, inside the {before.word} window {before} of line {before.line}"
