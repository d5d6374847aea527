"""The best day as an SVG picture: outputs, prices and earnings one above the other, hours along all three. Losses are
hatched and stand below 0. The windows of a calendar are named above their hours, and their ends have lines. A sequence
that the day opens or closes in is named below its outputs. More than 48 hours are divided into days. By a cost curve
F is left out, and the curve is named."""

from days import divided
from ends import closes
from money import decimal, dollars_of_half_mills, dollars_of_mills, megawatt_hours
from picture import (
    LEFT, Outputs, Panel, Prices, dot, hovers, legend, line, ordered, picture, polyline, rect, runs, scale, short,
    shortened, text,
)
from words import ORDERS, printable

HEIGHT = 916
OUTPUTS, PRICES, EARNINGS = (96, 306), (364, 494), (618, 768)


def svg(day, name):
    """The picture of a day, with the name of its case for a title."""
    case = day.reading.case
    profit, energy = dollars_of_half_mills(day.profit), megawatt_hours(sum(day.energies))
    costs = f"costs by the curve {shortened(day.curve.name)}" if day.curve else (
        f"variable cost F {dollars_of_mills(case.variable)} $/MWh"
    )
    earned = f"profit {profit} $, energy {energy} MWh, {costs}"
    key = legend(case.orders, "{}-line window") if day.calendar else legend(case.orders)
    parts = [
        *_outputs(day),
        *Prices(case, PRICES, by_cost=day.curve is None).drawn(),
        *_earnings(case, day.earnings, day.energies),
        *(_windows(day) if day.calendar else ()),
        *hovers(len(day.outputs), (OUTPUTS[0], EARNINGS[1]), _titles(day)),
    ]
    hours = len(day.outputs)
    best = f"Best {hours} hours of" if divided(hours) else "Best day of"
    return picture(HEIGHT, hours, f"{best} {printable(name)}", earned, key, parts)


def _outputs(day):
    """The output over the day: straight within each hour, a dot at the end of each unless they are divided, and the
    area below; the orders or the windows named above, the sequences at its ends below."""
    case, outputs = day.reading.case, day.outputs
    panel = Outputs(case, outputs, OUTPUTS)
    yield from panel.ground()
    yield from panel.letters(_named(day.calendar) if day.calendar else runs(case.orders))
    yield from panel.ends(32, closes(case, outputs))
    points = panel.points(outputs)
    area = " ".join([panel.point(0, 0), *points, panel.point(panel.hours, 0)])
    yield f'<polygon class="area" points="{area}"/>'
    yield polyline(points, "line output")
    yield dot(points[0], "dot before")
    yield from map(dot, points[1:] if not panel.days else ())


def _earnings(case, earnings, energies):
    """What each hour earns: a bar, and the amount below it, or those of each day with its energy."""
    parts = [5 * earned for earned in earnings]
    panel = Panel(len(earnings), *scale(parts), EARNINGS)
    yield from panel.shades(case.orders)
    yield from panel.frame("earnings ($)", lambda amount: short(decimal(amount, 10_000, 4)))
    for hour, (part, earned) in enumerate(zip(parts, earnings), 1):
        x, width = panel.x(hour - 0.82), panel.x(0.64) - panel.x(0)
        top, bottom = panel.y(panel.level(max(part, 0))), panel.y(panel.level(min(part, 0)))
        yield rect(x, top, width, bottom - top, "gain" if part > 0 else "loss")
        yield from panel.amount(hour, dollars_of_half_mills(earned))
    for day in panel.days:
        earned, energy = sum(day.of(earnings)), sum(day.of(energies))
        yield from panel.of_day(day, f"{dollars_of_half_mills(earned)} $", f"{megawatt_hours(energy)} MWh")
    yield from panel.cuts([parts], "amount", "far")


def _named(calendar):
    """The windows of the day, each by its order, first hour and hours; with the end of the hour before, and that of its
    last."""
    return ((f"{ORDERS[window.order]} {window}", hours[0] - 1, hours[-1]) for window, hours in calendar.runs())


def _windows(day):
    """The calendar below the note, and a line in each panel at both ends of each window."""
    yield text(LEFT, 74, f"calendar {shortened(day.calendar.name)}: {day.calendar.day}", kind="note")
    ends = {end for _, *ends in _named(day.calendar) for end in ends}
    for top, bottom in (OUTPUTS, PRICES, EARNINGS):
        panel = Panel(len(day.outputs), 0, 1, (top, bottom))
        yield from (line(panel.x(end), top, panel.x(end), bottom, "edge") for end in sorted(ends))


def _titles(day):
    """A title for each hour, with the window that gives its order."""
    hours = len(day.outputs)
    windows = day.calendar.windows() if day.calendar else [None] * hours
    for (k, order, *amounts), window in zip(day.hours(), windows):
        by = f" by the window {window}, line {window.line}" if window else ""
        yield _title(ordered(k, hours, order, by), *amounts)


def _title(hour, price, output, energy, earned):
    return (
        f"{hour}: {output} MW at its end, {megawatt_hours(energy)} MWh at {dollars_of_mills(price)} "
        f"$/MWh, earns {dollars_of_half_mills(earned)} $"
    )
