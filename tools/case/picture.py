"""The parts of an SVG picture of a day: panels one above the other with hours along each, the prices, the hatches of
ordered hours. Up to 48 hours have their amounts below, hour by hour. More are divided into days by lines, and have the
amounts of each day; the panels are then wide enough for the hours.

Nothing is told by colour alone: ordered hours are hatched and lettered. Every colour has a class, so that a dark
screen gets colours of its own and paper those of the light.
"""

from html import escape
from itertools import groupby

from days import days_of, divided, named
from ends import stage_of
from money import dollars_of_mills
from words import ORDERS, counted

# where the panels of undivided hours end to the left and to the right, and the room beside them there
LEFT, RIGHT, MARGIN = 100, 862, 114

# the width of an hour at the least where hours are divided into days
HOUR = 8

# the width of a letter above a panel, at the most
LETTER = 6.5

# letters of a file's name that a line has room for
MOST = 60

# from the bottom of a panel to the amounts that stand below it, from a line of those of a day to the next, and from a
# row of those of the hours to the next
BELOW, LINE, ROW = 28, 14, 68

# hours from a number below a panel to the next, and from a mark of a list to the next, where hours are divided
APART = 6

STYLE = """\
text { font-family: 'DejaVu Sans', Verdana, sans-serif; font-size: 12px; fill: #1a1a1a; }
.paper { fill: #ffffff; }
.title { font-size: 16px; font-weight: bold; }
.note { fill: #4a4a4a; }
.letters { font-size: 9.5px; }
.amount { font-size: 10px; }
.grid { stroke: #d5d5d5; stroke-width: 1; }
.axis { stroke: #1a1a1a; stroke-width: 1; }
.limit { stroke: #4a4a4a; stroke-width: 1; stroke-dasharray: 6 4; }
.line { fill: none; stroke-width: 2.5; }
.output { stroke: #1f5fa8; }
.other { stroke: #8a2f7c; stroke-dasharray: 7 4; }
.price { stroke: #a34a17; }
.forecast { stroke: #1d6f6a; stroke-dasharray: 4 3; }
.cut { fill: #a34a17; }
.far { fill: #1a1a1a; }
.area { fill: #1f5fa8; fill-opacity: 0.12; }
.dot { fill: #1f5fa8; stroke: #1f5fa8; stroke-width: 1.5; }
.before { fill: #ffffff; }
.square { fill: none; stroke: #8a2f7c; stroke-width: 1.5; }
.differs { fill: #1a1a1a; }
.gain { fill: #2e6e4e; stroke: #1a1a1a; stroke-width: 0.7; }
.loss { fill: url(#loss); stroke: #1a1a1a; stroke-width: 0.7; }
.on { fill: url(#on); }
.off { fill: url(#off); }
.swatch { stroke: #4a4a4a; stroke-width: 1; }
.edge { stroke: #4a4a4a; stroke-width: 1.5; }
.shade-on { fill: #e3f1e3; }
.shade-off { fill: #f5e2e2; }
.shade-loss { fill: #f3d9c9; }
.hatch-on { stroke: #5d8f5d; stroke-width: 1.2; }
.hatch-off { stroke: #a86060; stroke-width: 1.2; }
.hatch-loss { stroke: #8a3b12; stroke-width: 1.4; }
.hour { fill: #1a1a1a; fill-opacity: 0; }
.hour:hover { fill-opacity: 0.1; }
@media screen and (prefers-color-scheme: dark) {
text { fill: #ececec; }
.paper { fill: #16181c; }
.note { fill: #b8b8b8; }
.grid { stroke: #3b3f46; }
.axis, .gain, .loss { stroke: #ececec; }
.limit, .swatch, .edge { stroke: #b8b8b8; }
.output { stroke: #7ab3f2; }
.other { stroke: #e59ad8; }
.price { stroke: #f0a070; }
.forecast { stroke: #6fd3cb; }
.cut { fill: #f0a070; }
.far { fill: #ececec; }
.area { fill: #7ab3f2; fill-opacity: 0.2; }
.dot { fill: #7ab3f2; stroke: #7ab3f2; }
.before { fill: #16181c; }
.square { stroke: #e59ad8; }
.differs { fill: #ececec; }
.gain { fill: #4fa67a; }
.shade-on { fill: #20301f; }
.shade-off { fill: #38211f; }
.shade-loss { fill: #4a2a18; }
.hatch-on { stroke: #7fb77f; }
.hatch-off { stroke: #d08a8a; }
.hatch-loss { stroke: #f0a070; }
.hour { fill: #ececec; }
}"""

# how each row of prices is drawn, by its word
ROWS = {"": "line price", "forecast": "line forecast", "actual": "line price"}

# a hatch for each: lines that rise, lines that cross, lines that fall
HATCHES = {"on": "M0,8 L8,0", "off": "M0,0 L8,8 M0,8 L8,0", "loss": "M0,0 L8,8"}


class Panel:
    """A panel: hours across, an amount up from the least, which is 0 or below, to the most."""

    def __init__(self, hours, least, most, place):
        self.hours, (self.top, self.bottom), self.right = hours, place, right_of(hours)
        self.days = days_of(hours)
        self.step = _step(most - least)
        self.least = least // self.step * self.step
        self.most = max(self.least + self.step, -(-most // self.step) * self.step)

    def x(self, hour):
        """The place across of the end of an hour."""
        return LEFT + (self.right - LEFT) * hour / self.hours

    def y(self, amount):
        """The place up of an amount."""
        return self.bottom - (self.bottom - self.top) * (amount - self.least) / (self.most - self.least)

    def point(self, hour, amount):
        """The place of an amount at the end of an hour."""
        return f"{self.x(hour):.1f},{self.y(amount):.1f}"

    def frame(self, label, written):
        """Grid, axes, ticks, the ends of days and the label of the upward axis."""
        for amount in range(self.least, self.most + 1, self.step):
            y = self.y(amount)
            yield line(LEFT, y, self.right, y, "grid")
            yield text(LEFT - 8, y + 4, written(amount), anchor="end")
        apart = APART if self.days else 1 if self.hours <= 24 else 2
        for hour in range(self.hours + 1):
            x = self.x(hour)
            yield line(x, self.bottom, x, self.bottom + 5, "axis")
            if hour % apart == 0:
                yield text(x, self.bottom + 19, str(hour), anchor="middle")
        for day in self.days[:-1]:
            yield line(self.x(day.last), self.top, self.x(day.last), self.bottom + 5, "edge")
        yield line(LEFT, self.top, LEFT, self.bottom, "axis")
        yield line(LEFT, self.y(0), self.right, self.y(0), "axis")
        yield turned(18, (self.top + self.bottom) / 2, label, anchor="middle")

    def shades(self, orders):
        """A hatch behind the hours that have an order."""
        for order, start, end in runs(orders):
            yield rect(self.x(start), self.top, self.x(end) - self.x(start), self.bottom - self.top, order)

    def letters(self, names):
        """The name of each run of hours, above the panel; its first word alone where the run is too short for it. Where
        hours are divided, a run too short for that has its hatch alone."""
        for name, start, end in names:
            room = self.x(end) - self.x(start)
            words = name if LETTER * len(name) <= room else name.split()[0]
            if not self.days or LETTER * len(words) <= room:
                yield text(self.x((start + end) / 2), self.top - 4, words, anchor="middle", kind="letters")

    def amount(self, hour, words, below=BELOW):
        """An amount of an hour, upwards and so far below the panel; none where hours are divided."""
        if not self.days:
            yield turned(self.x(hour - 0.5) + 3.5, self.bottom + below, words, anchor="end", kind="amount")

    def of_day(self, day, *lines):
        """The name of a day and lines below it, in its middle; from its beginning on where it is too short for them."""
        start, end, lines = self.x(day.first - 1), self.x(day.last), (f"day {day.number}", *lines)
        fits = LETTER * max(map(len, lines)) <= end - start
        x, anchor = ((start + end) / 2, "middle") if fits else (start, "start")
        for i, words in enumerate(lines, 1):
            yield text(x, self.bottom + BELOW + LINE * i, words, anchor, "amount")

    def level(self, amount):
        """An amount, or the end of the scale where it is off it."""
        return min(max(amount, self.least), self.most)

    def cuts(self, rows, noun, kind):
        """A triangle for each hour whose amount in a row is off the scale, at the edge that it passes; how many there
        are."""
        amounts = [pair for row in rows for pair in enumerate(row, 1)]
        words = []
        for mark, side, edge, way in (("\u25b2", "above", self.top, 1), ("\u25bc", "below", self.bottom, -1)):
            hours = [hour for hour, amount in amounts if way * amount > way * self.level(amount)]
            half = min(5, (self.x(1) - self.x(0)) / 2)
            yield from (triangle(self.x(hour - 0.5), half, edge, way, kind) for hour in hours)
            if hours:
                words.append(f"{mark} {counted(len(hours), noun)} {side} this scale")
        if words:
            yield text(LEFT, self.top - 12, ", ".join(words), kind="note")

    def limits(self, amounts, gap=14):
        """Dashed lines for amounts with a name; the names stand to the right, kept apart."""
        lowest = self.bottom + 4
        for amount, name in sorted(amounts):
            y = self.y(amount)
            lowest = min(y + 4, lowest - gap)
            yield line(LEFT, y, self.right, y, "limit")
            yield text(self.right + 8, lowest, name, kind="note")


def right_of(hours):
    """Where the panels of so many hours end to the right."""
    return max(RIGHT, LEFT + HOUR * hours) if divided(hours) else RIGHT


def scale(amounts):
    """The ends of a scale for amounts, 0 among them. It is made for those at most three times as far from 0 as three
    quarters of the amounts are, zeros not counted, so that a spike does not flatten all others."""
    sizes = sorted(abs(amount) for amount in amounts if amount) or [0]
    far = 3 * sizes[-(-3 * len(sizes) // 4) - 1]
    near = [amount for amount in amounts if abs(amount) <= far]
    return min(0, *near), max(0, *near)


def picture(height, hours, heading, note, key, parts, across=None):
    """A picture of a height and of so many hours: a heading, a note below it, the key of the hatches, and the parts;
    `across` names the axis where it is not that of hours."""
    width = right_of(hours) + MARGIN
    ticks = "each tick is the end of its hour, each line that of a day" if divided(hours) else (
        "each tick is the end of its hour"
    )
    lines = [
        f'<svg xmlns="http://www.w3.org/2000/svg" width="{width}" height="{height}" '
        f'viewBox="0 0 {width} {height}" role="img">',
        f"<title>{escape(heading)}: {escape(note)}</title>",
        f"<style>{STYLE}</style>",
        *_hatches(),
        rect(0, 0, width, height, "paper"),
        text(LEFT, 34, heading, kind="title"),
        text(LEFT, 56, note, kind="note"),
        *key,
        *parts,
        text((LEFT + right_of(hours)) / 2, height - 14, across or f"hour k ({ticks})", "middle"),
        "</svg>",
    ]
    return "\n".join(lines) + "\n"


class Outputs(Panel):
    """The panel of outputs, high enough for the capacity and for every output."""

    def __init__(self, case, outputs, place):
        super().__init__(len(case.prices), 0, max(case.capacity, case.initial, *outputs), place)
        self.case = case

    def ground(self):
        """Orders, grid and limits, behind the lists."""
        yield from self.shades(self.case.orders)
        yield from self.frame("output p(k) (MW)", str)
        yield from self.limits([(self.case.capacity, "capacity"), (self.case.minimum, "minimum")])

    def ends(self, below, closes=None):
        """So far below the panel: the stage that the day opens in on the left, and how it closes on the right."""
        stage, y = stage_of(self.case, self.case), self.bottom + below
        if stage:
            yield text(LEFT, y, f"opens in {stage}", kind="note")
        if closes:
            yield text(self.right, y, closes, anchor="end", kind="note")

    def points(self, outputs):
        """The place of p(0) and of each output."""
        return [self.point(hour, output) for hour, output in enumerate([self.case.initial, *outputs])]


class Prices(Panel):
    """The panel of prices: those of the case, or rows of them by their words. F is on it unless it would more than
    double the scale, or is disregarded."""

    def __init__(self, case, place, by_cost=True, rows=None):
        self.case, self.by_cost, self.rows = case, by_cost, rows or {"": case.prices}
        low, high = scale([price for prices in self.rows.values() for price in prices])
        self.holds_cost = by_cost and case.variable - low <= 2 * (high - low)
        super().__init__(len(case.prices), low, max(high, case.variable if self.holds_cost else 0), place)

    @property
    def end(self):
        """Where a picture ends whose last panel it is."""
        return self.bottom + 130 + ROW * (len(self.rows) - 1)

    def drawn(self):
        """The price of each hour, level from its beginning to its end, with its number below, or the least and the most
        of each day; and F."""
        cost = self.case.variable
        yield from self.shades(self.case.orders)
        yield from self.frame("price ($/MWh)", lambda mills: short(dollars_of_mills(mills)))
        if self.holds_cost:
            yield from self.limits([(cost, "variable cost F")])
        elif self.by_cost:
            words = f"variable cost F {dollars_of_mills(cost)} $/MWh is above this scale"
            yield text(self.right, self.top - 12, words, anchor="end", kind="note")
        yield from self._ends() if self.days else self._numbers()
        yield from self.cuts(self.rows.values(), "price", "cut")
        for word, prices in self.rows.items():
            yield from (polyline(points, ROWS[word]) for points in self._lines(prices) if len(set(points)) > 1)

    def _numbers(self):
        """The price of each hour below the panel, row by row, each with its word if it has one."""
        for place, (word, prices) in enumerate(self.rows.items()):
            below = BELOW + ROW * place
            if word:
                yield text(LEFT - 8, self.bottom + below + 10, word, anchor="end", kind="note")
            for hour, price in enumerate(prices, 1):
                yield from self.amount(hour, dollars_of_mills(price), below)

    def _ends(self):
        """The least and the most price of each day, row by row, each with its word if it has one."""
        for day in self.days:
            lines = []
            for word, prices in self.rows.items():
                least, most = (dollars_of_mills(end(day.of(prices))) for end in (min, max))
                lines += filter(None, [word, f"least {least}", f"most {most}"])
            yield from self.of_day(day, *lines)

    def _lines(self, prices):
        """The points of each line: one for the whole day, with a gap where a price is off the scale."""
        points = []
        for hour, price in enumerate(prices, 1):
            points.append(self.point(hour - 1, self.level(price)))
            if self.level(price) != price:
                yield points
                points = []
            points.append(self.point(hour, self.level(price)))
        yield points


def hovers(hours, place, titles):
    """A title for each hour, from the top to the bottom of a place."""
    panel = Panel(hours, 0, 1, place)
    for k, title in enumerate(titles, 1):
        over = rect(panel.x(k - 1), panel.top, panel.x(1) - panel.x(0), panel.bottom - panel.top, "hour")
        yield f"<g><title>{escape(title)}</title>{over}</g>"


def ordered(k, hours, order, by=""):
    """An hour of so many and its order, at the beginning of a title; `by` says what gives the order."""
    return named(k, hours) if order == "free" else f"{named(k, hours)} (ordered {order}-line{by})"


def _hatches():
    """The hatches, each on a shade of its own."""
    yield "<defs>"
    for name, lines in HATCHES.items():
        yield (
            f'<pattern id="{name}" width="8" height="8" patternUnits="userSpaceOnUse">'
            f'<rect class="shade-{name}" width="8" height="8"/><path class="hatch-{name}" d="{lines}"/></pattern>'
        )
    yield "</defs>"


def runs(orders):
    """The runs of hours that have the same order: its word, the end of the hour before, the end of the last."""
    end = 0
    for order, run in groupby(orders):
        start, end = end, end + len(list(run))
        if order:
            yield ORDERS[order], start, end


def legend(orders, meaning="ordered {}-line"):
    """What the hatches of hours mean, if any hour has an order."""
    names = sorted({ORDERS[order] for order in orders if order}, reverse=True)
    for i, order in enumerate(names):
        x = right_of(len(orders)) - 150 * (len(names) - i)
        yield rect(x, 24, 20, 14, f"{order} swatch")
        yield text(x + 26, 35, f"{order}: {meaning.format(order)}", kind="note")


def rect(x, y, width, height, kind):
    """A rectangle by its upper left corner."""
    return f'<rect class="{kind}" x="{x:.1f}" y="{y:.1f}" width="{width:.1f}" height="{height:.1f}"/>'


def polyline(points, kind):
    """A line through points."""
    return f'<polyline class="{kind}" points="{" ".join(points)}"/>'


def dot(point, kind="dot"):
    """A dot at a point."""
    x, y = point.split(",")
    return f'<circle class="{kind}" cx="{x}" cy="{y}" r="3.5"/>'


def square(point):
    """A square about a point, which leaves room for a dot in it."""
    x, y = map(float, point.split(","))
    return rect(x - 5.5, y - 5.5, 11, 11, "square")


def triangle(x, half, y, way, kind):
    """A triangle of half a width on an edge that points away from it, up (1) or down (-1)."""
    ends = f"{x - half:.1f},{y:.1f} {x + half:.1f},{y:.1f}"
    return f'<polygon class="{kind}" points="{ends} {x:.1f},{y - 8 * way:.1f}"/>'


def line(x1, y1, x2, y2, kind):
    """A straight line."""
    return f'<line class="{kind}" x1="{x1:.1f}" y1="{y1:.1f}" x2="{x2:.1f}" y2="{y2:.1f}"/>'


def text(x, y, words, anchor="start", kind="", more=""):
    """A text that runs to the right."""
    attributes = "".join(f" {word}" for word in (f'class="{kind}"' if kind else "", more) if word)
    return f'<text x="{x:.1f}" y="{y:.1f}" text-anchor="{anchor}"{attributes}>{escape(words)}</text>'


def turned(x, y, words, anchor, kind=""):
    """A text that runs upwards."""
    return text(x, y, words, anchor, kind, f'transform="rotate(-90 {x:.1f} {y:.1f})"')


def _step(span):
    """A round step that divides a span into 3 to 6 parts."""
    step = 1
    while True:
        for factor in (1, 2, 5):
            if span <= 6 * factor * step:
                return factor * step
        step *= 10


def shortened(name):
    """A name, or its end where it is longer than there is room for."""
    return name if len(name) <= MOST else f"...{name[3 - MOST:]}"


def short(amount):
    """An amount without the zeros at its end."""
    return amount.rstrip("0").rstrip(".")
