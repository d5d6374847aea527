"""A list of outputs, from a CSV file: the columns hour and output, and a line for each hour from 1. The table that
`case best --csv` writes is such a file too: its other columns are passed over."""

from best import CALENDAR_COLUMNS, COLUMNS
from tables import Table


def read_list(file):
    """The outputs in MW, hour by hour."""
    table = Table(file, (*COLUMNS, *CALENDAR_COLUMNS), ("hour", "output"))
    return [table.number(line, row, "output", "MW") for line, row in table.hours()]
