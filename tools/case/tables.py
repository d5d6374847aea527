"""A table from a CSV file: the first line names the columns, a line for each row follows; where the rows are the hours
of a day, hours 1, 2, 3 and so on. Also CSV and JSON as the tool writes them."""

import csv
import io
import json
import re

from faults import Fault, quoted
from files import text

WHOLE = re.compile(r"[+-]?[0-9]{1,15}")

# the largest number that 16 bits hold
MOST = 2**16 - 1


class Table:
    """The columns of a file, known ones and all that are needed, and the line that names them; `rows` or `hours` gives
    the cells of each row."""

    def __init__(self, file, known, needed):
        self.file = file
        self._rows = self._read()
        self.line, self.columns = next(self._rows, (1, None))
        if self.columns is None:
            raise Fault(file, 1, None, "empty; the first line names the columns")
        for i, name in enumerate(self.columns):
            if name not in known:
                raise Fault(file, self.line, quoted(name), f"no such column; there are {', '.join(known)}")
            if name in self.columns[:i]:
                raise Fault(file, self.line, name, "the column is given twice")
        for name in needed:
            if name not in self.columns:
                raise Fault(file, self.line, name, "the column is missing")

    def rows(self):
        """The line and the cells of each row, by their columns."""
        for line, cells in self._rows:
            if len(cells) != len(self.columns):
                raise Fault(self.file, line, None, f"{len(cells)} cells where {len(self.columns)} were expected")
            yield line, dict(zip(self.columns, cells))

    def hours(self):
        """The line and the cells of each hour."""
        for expected, (line, row) in enumerate(self.rows(), 1):
            if not WHOLE.fullmatch(row["hour"]) or int(row["hour"]) != expected:
                raise Fault(self.file, line, "hour", f"{quoted(row['hour'])} where hour {expected} was expected")
            yield line, row

    def number(self, line, row, column, unit):
        """The number of a cell, one that 16 bits hold."""
        cell = row[column]
        if not WHOLE.fullmatch(cell):
            raise Fault(self.file, line, column, f"{quoted(cell)} is not a whole number of {unit}")
        if not 0 <= int(cell) <= MOST:
            raise Fault(self.file, line, column, f"{cell}, from 0 to {MOST:,} allowed")
        return int(cell)

    def _read(self):
        reader = csv.reader(io.StringIO(text(self.file), newline=""), strict=True)
        try:
            for cells in reader:
                cells = [cell.strip() for cell in cells]
                if any(cells):
                    yield reader.line_num, cells
        except csv.Error as error:
            raise Fault(self.file, reader.line_num, None, f"not CSV: {error}") from None


def csv_of(columns, rows):
    """The text of a table: a line with the columns, and one for each row."""
    written = io.StringIO(newline="")
    writer = csv.writer(written, lineterminator="\n")
    writer.writerow(columns)
    writer.writerows(rows)
    return written.getvalue()


def json_of(value):
    """The text of a value, with a line end."""
    return json.dumps(value, indent=2) + "\n"
