"""The limits of a case, as the tool itself tests them: it names each field at fault, its value and its limit.

The number that counts is the library's; these words explain it. Where the library is not built they stand
in for it.
"""

from typing import NamedTuple

from module import giqapsun
from money import dollars_of_mills
from words import COSTS, ORDERS, STAGES, counted

OUTPUT, TIME, ELAPSED = 400, 24, 10_000
VARIABLE, CHARGE = 1_000_000, 100_000_000


class Wrong(NamedTuple):
    """A field at fault and what is wrong with it; the hour, counted from 1, if it is about one hour."""

    field: str
    what: str
    hour: int | None = None


def refusal(case):
    """The first number of the refusal list that applies to a case, with each field at fault; 0 and none where none
    applies. The numbers of a case may be any whole numbers."""
    tests = {
        2: _counts, 3: _outputs, 4: _ramps, 5: _costs, 6: _trajectories, 7: _opening, 8: _orders, 13: _prices,
    }
    for number, test in tests.items():
        faults = list(test(case))
        if faults:
            return number, faults
    return 0, []


def outside(field, value, least, most):
    """The fault of a field whose value is not from least to most; none where it is."""
    if not least <= value <= most:
        yield Wrong(field, f"{value:,}, from {least:,} to {most:,} allowed")


def _counts(case):
    yield from outside("rise", len(case.rise), 1, giqapsun.STAGES)
    yield from outside("fall", len(case.fall), 1, giqapsun.STAGES)
    yield from outside("hours", len(case.prices), 1, giqapsun.HOURS)


def _outputs(case):
    yield from outside("capacity", case.capacity, 1, OUTPUT)
    if not 1 <= case.minimum <= case.capacity:
        yield Wrong("minimum", f"{case.minimum:,}, from 1 to the capacity {case.capacity:,} allowed")


def _ramps(case):
    yield from outside("rampup", case.rampup, 1, OUTPUT)
    yield from outside("rampdown", case.rampdown, 1, OUTPUT)
    yield from outside("minup", case.minup, 1, TIME)
    yield from outside("mindown", case.mindown, 1, TIME)


def _costs(case):
    for name in COSTS:
        mills, most = getattr(case, name), VARIABLE if name == "variable" else CHARGE
        if not 0 <= mills <= most:
            yield Wrong(name, f"{_money(mills)}, from 0 to {_money(most)} allowed")


def _money(mills):
    return f"{mills:,} mills (${dollars_of_mills(mills)})"


def _trajectories(case):
    """Upwards from 1 to the minimum for PU, and PD the same from its end."""
    for name, outputs, ends in (("rise", case.rise, "to"), ("fall", case.fall[::-1], "from")):
        way = "rising" if name == "rise" else "falling"
        shown = ", ".join(map(str, getattr(case, name)))
        if outputs[0] < 1:
            yield Wrong(name, f"{shown}, 1 or more allowed")
        if any(later <= earlier for earlier, later in zip(outputs, outputs[1:])):
            yield Wrong(name, f"{shown}, strictly {way} allowed")
        if outputs[-1] != case.minimum:
            yield Wrong(name, f"{shown}, {way} {ends} the minimum {case.minimum} allowed")


def _opening(case):
    yield from outside("elapsed", case.elapsed, 1, ELAPSED)
    if case.upstage and case.downstage:
        yield Wrong("downstage", f"{case.downstage:,}, 0 allowed with a start-up stage of {case.upstage:,}")
    elif case.upstage:
        yield from _inside(case, "upstage", (1, len(case.rise) - 1), (case.upstage, case.upstage))
    elif case.downstage:
        yield from _inside(case, "downstage", (2, len(case.fall)), (len(case.rise) + case.downstage - 1, ELAPSED))
    else:
        yield from _outside_sequences(case)


def _inside(case, name, stages, hours):
    """The opening inside a sequence: the stage, p(0) and h; the stages and the hours that are allowed."""
    stage, (_, sequence, listed) = getattr(case, name), STAGES[name]
    outputs = getattr(case, listed)
    least, most = stages
    if not least <= stage <= most:
        allowed = f"0 or from {least} to {most}" if least <= most else "0"
        yield Wrong(name, f"{stage:,}, {allowed} allowed with {counted(len(outputs), 'output')} of {listed}")
        return
    place = f"allowed in stage {stage} of a {sequence}"
    if case.initial != outputs[stage - 1]:
        yield Wrong("initial", f"{case.initial:,}, {outputs[stage - 1]} {place}")
    if 1 <= case.elapsed <= ELAPSED and not hours[0] <= case.elapsed <= hours[1]:
        more = "" if hours[0] == hours[1] else " or more"
        yield Wrong("elapsed", f"{case.elapsed:,}, {hours[0]}{more} {place}")


def _outside_sequences(case):
    """The opening in no sequence: p(0), and h on-line."""
    if case.initial != 0 and not case.minimum <= case.initial <= case.capacity:
        yield Wrong("initial", f"{case.initial:,}, 0 or from {case.minimum} to {case.capacity} allowed")
    elif case.initial > 0 and 1 <= case.elapsed < len(case.rise):
        least = f"{len(case.rise)} or more (the outputs of rise)"
        yield Wrong("elapsed", f"{case.elapsed}, {least} allowed with initial above 0")


def _orders(case):
    for hour, order in enumerate(case.orders, 1):
        if not 0 <= order < len(ORDERS):
            yield Wrong("orders", f"{order} at hour {hour}, 0 (free), 1 (on) or 2 (off) allowed", hour)


def _prices(case):
    least, most = giqapsun.PRICE_LEAST, giqapsun.PRICE_MOST
    for hour, price in enumerate(case.prices, 1):
        if not least <= price <= most:
            allowed = f"from ${dollars_of_mills(least)} to ${dollars_of_mills(most)} allowed"
            yield Wrong("prices", f"{_money(price)} at hour {hour}, {allowed}", hour)
