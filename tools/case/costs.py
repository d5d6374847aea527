"""The table of a cost curve in words: what an hour costs by its energy, and what the next half-megawatt-hour adds."""

from money import dollars_of_half_mills, dollars_of_mills, machine, megawatt_hours
from tables import csv_of, json_of

# the columns of a table as CSV, and the names of an entry as JSON
COLUMNS = ("energy_half_mwh", "cost_half_mills", "cost_dollars", "next_half_mills")

# half-megawatt-hours from a line of the text to the next
APART = 50


def added(table):
    """What the next half-megawatt-hour adds at each energy but the last, in half-mills; that is mills per MWh."""
    return [later - cost for cost, later in zip(table, table[1:])]


def costs_text(curve):
    """Every 50th entry, below the curve."""
    table, more = curve.table, added(curve.table)
    width = max(12, len(dollars_of_half_mills(table[-1])))
    lines = [f"{curve.name}: {curve.words()}", f"energy (MWh)  {'cost ($)':>{width}}  next ($/MWh)"]
    for n in range(0, len(table), APART):
        following = dollars_of_mills(more[n]) if n < len(more) else ""
        lines.append(f"{megawatt_hours(n):>12}  {dollars_of_half_mills(table[n]):>{width}}  {following:>12}".rstrip())
    lines.append("a half-mill is a 2,000th of a dollar; an hour at rest costs nothing, whatever the first line says")
    return "\n".join(lines) + "\n"


def costs_json(curve):
    """Every entry for a program."""
    return json_of({**curve.fields(), "costs": [dict(zip(COLUMNS, row)) for row in _rows(curve.table)]})


def costs_csv(curve):
    """Every entry as a table."""
    return csv_of(COLUMNS, _rows(curve.table))


def _rows(table):
    more = [*added(table), None]
    return [(n, cost, machine(dollars_of_half_mills(cost)), more[n]) for n, cost in enumerate(table)]
