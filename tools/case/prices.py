"""The hours of a day, from a CSV file.

The first line names the columns: hour, then price_dollars or price_mills (per MWh), and order if any
hour has one. A line for each hour follows, hours 1, 2, 3 and so on. A price may be below 0. An order is
free, on or off.
"""

from faults import Fault, quoted
from money import dollars_of_mills, machine, mills_of_dollars
from tables import WHOLE, Table, csv_of
from words import ORDERS

PRICES = ("price_dollars", "price_mills")


class Hours:
    """The hours of a file: prices in mills per MWh and order bytes, with the line of each hour. Without the column of
    orders, which `ordered` tells, every hour is free."""

    def __init__(self, file):
        table = Table(file, ("hour", *PRICES, "order"), ("hour",))
        self.file, self.column, self.ordered = file, _price_column(table), "order" in table.columns
        self.prices, self.orders, self.lines = [], [], []
        for line, row in table.hours():
            self.prices.append(_price(file, line, self.column, row[self.column]))
            self.orders.append(_order(file, line, row.get("order", ORDERS[0])))
            self.lines.append(line)

    def fault(self, field, hour, what):
        """A fault of a field of the case that this file gives; with the line of the hour, if it is about one."""
        line = self.lines[hour - 1] if hour else None
        return Fault(self.file, line, self.column if field == "prices" else field, what)


def prices_text(case):
    """The file that gives the hours of a case back."""
    hours = enumerate(zip(case.prices, case.orders), 1)
    rows = ((k, machine(dollars_of_mills(price)), ORDERS[order]) for k, (price, order) in hours)
    return csv_of(("hour", "price_dollars", "order"), rows)


def _price_column(table):
    given = [name for name in PRICES if name in table.columns]
    if not given:
        raise Fault(table.file, table.line, "price", "the column price_dollars or price_mills is missing")
    if len(given) > 1:
        raise Fault(table.file, table.line, given[1], f"the column {given[0]} is given too")
    return given[0]


def _price(file, line, column, cell):
    if column == "price_dollars":
        mills, kind = mills_of_dollars(cell), "a price in dollars with up to three decimals"
    else:
        mills, kind = int(cell) if WHOLE.fullmatch(cell) else None, "a price in whole mills"
    if mills is None:
        raise Fault(file, line, column, f"{quoted(cell)} is not {kind}")
    return mills


def _order(file, line, cell):
    if cell not in ORDERS:
        raise Fault(file, line, "order", f"{quoted(cell)} is not free, on or off")
    return ORDERS.index(cell)
