"""The table of a cost curve as an SVG picture: what an hour costs above, and below at what rate the next
half-megawatt-hour adds to it; the energy of the hour along both."""

from costs import added
from money import decimal, dollars_of_half_mills, dollars_of_mills, megawatt_hours
from picture import LEFT, RIGHT, Panel, hovers, line, picture, polyline, scale, short, shortened, text, turned

HEIGHT = 700
COSTS, NEXT = (96, 356), (424, 614)

# half-megawatt-hours from a tick to the next, and of a title that is shown over the panels
TICK, TITLE = 100, 10


class Energies(Panel):
    """A panel with half-megawatt-hours across in place of hours."""

    def __init__(self, halves, least, most, place):
        super().__init__(1, least, most, place)
        self.halves = halves

    def x(self, hour):
        """The place across of an energy."""
        return LEFT + (RIGHT - LEFT) * hour / self.halves

    def frame(self, label, written):
        """Grid, axes, ticks and the label of the upward axis."""
        for amount in range(self.least, self.most + 1, self.step):
            y = self.y(amount)
            yield line(LEFT, y, RIGHT, y, "grid")
            yield text(LEFT - 8, y + 4, written(amount), anchor="end")
        for halves in range(0, self.halves + 1, TICK):
            x = self.x(halves)
            yield line(x, self.bottom, x, self.bottom + 5, "axis")
            yield text(x, self.bottom + 19, short(megawatt_hours(halves)), anchor="middle")
        yield line(LEFT, self.top, LEFT, self.bottom, "axis")
        yield line(LEFT, self.y(0), RIGHT, self.y(0), "axis")
        yield turned(18, (self.top + self.bottom) / 2, label, anchor="middle")

    def through(self, amounts):
        """The points of amounts at the energies from 0 on."""
        return [self.point(halves, amount) for halves, amount in enumerate(amounts)]


def svg_of_costs(curve):
    """The picture of a curve's table."""
    parts = [*_costs(curve.table), *_next(curve.table), *_titles(curve.table)]
    heading = f"Costs of the curve {shortened(curve.name)}"
    return picture(HEIGHT, 1, heading, curve.words(), (), parts, "energy of the hour (MWh)")


def _costs(table):
    """What an hour costs, and the area below."""
    parts = [5 * cost for cost in table]
    panel = Energies(len(table) - 1, 0, max(parts), COSTS)
    yield from panel.frame("cost of an on-line hour ($)", lambda amount: short(decimal(amount, 10_000, 4)))
    points = panel.through(parts)
    ends = panel.point(0, 0), panel.point(panel.halves, 0)
    yield f'<polygon class="area" points="{" ".join([ends[0], *points, ends[1]])}"/>'
    yield polyline(points, "line output")


def _next(table):
    """At what rate the next half-megawatt-hour adds to the cost, level over it."""
    more = added(table)
    panel = Energies(len(table) - 1, *scale(more), NEXT)
    yield from panel.frame("next ($/MWh)", lambda mills: short(dollars_of_mills(mills)))
    points = [panel.point(halves + end, panel.level(mills)) for halves, mills in enumerate(more) for end in (0, 1)]
    yield polyline(points, "line price")


def _titles(table):
    """A title over each few half-megawatt-hours."""
    steps = range(0, len(table) - 1, TITLE)
    words = (
        f"{megawatt_hours(n)} MWh: {dollars_of_half_mills(table[n])} $, the next at "
        f"{dollars_of_mills(table[n + 1] - table[n])} $/MWh"
        for n in steps
    )
    yield from hovers(len(steps), (COSTS[0], NEXT[1]), words)
