"""The hours of a list in a case: the energy of each and what it earns, plain arithmetic whether the list passes or
not."""

from faults import Fault


def energies(case, outputs):
    """The energy of each hour in half-megawatt-hours."""
    return [before + output for before, output in _ends(case, outputs)]


def earnings(case, outputs, table=None):
    """What each hour earns in half-mills, by F and A or by the table of a cost curve."""
    return [
        price * (before + output) - _costs(case, before, output, table) - _charges(case, before, output)
        for price, (before, output) in zip(case.prices, _ends(case, outputs))
    ]


def agree(file, line, profit, earned):
    """A profit that a file or the library gives is what the hours earn, or it is a fault."""
    if sum(earned) != profit:
        raise Fault(file, line, "profit", f"{profit}, and the hours earn {sum(earned)}")


def _ends(case, outputs):
    """The output before each hour and the one at its end."""
    return zip([case.initial, *outputs], outputs)


def _costs(case, before, output, table):
    """What an hour costs in half-mills: F for its energy and A if on-line; or the table's entry for its energy,
    off-line without that for 0."""
    if table is None:
        return case.variable * (before + output) + 2 * case.fixed * (output > 0)
    return table[before + output] - (table[0] if output == 0 else 0)


def _charges(case, before, output):
    """B for a start and C for a stop, in half-mills."""
    return 2 * (case.startcost * (before == 0 < output) + case.stopcost * (output == 0 < before))
