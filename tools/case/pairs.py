"""Two lists of outputs for one case side by side: the verdict on each, which of them is the better and why, and both
hour by hour."""

from dataclasses import dataclass

from check import Checked, checked
from days import column, days_of
from faults import named
from hours import earnings
from money import dollars_of_half_mills, dollars_of_mills, machine, widest
from reading import Reading
from tables import csv_of
from words import ORDERS, printable


@dataclass
class Side:
    """One of two lists: its place, the word that tells it from the other; the file that it comes from; its verdict, and
    what each hour earns in half-mills."""

    place: str
    file: str
    checked: Checked
    earnings: list

    @property
    def outputs(self):
        """The list, in MW."""
        return self.checked.outputs

    @property
    def profit(self):
        """What the list earns in half-mills, if it passes."""
        return self.checked.verdict.profit

    def earned_in(self, day):
        """What the hours of a day earn in half-mills, None where the list breaks a rule."""
        return sum(day.of(self.earnings)) if self.checked.passes else None

    @property
    def name(self):
        """The name of the file in a text."""
        return printable(named(self.file))


@dataclass
class Pair:
    """Two lists for a case, and why one is the better: `passes`, `profit`, `lower`, `identical` or `neither`."""

    reading: Reading
    first: Side
    second: Side
    reason: str

    @property
    def sides(self):
        """Both lists."""
        return self.first, self.second

    @property
    def curve(self):
        """The curve that their profits are reckoned by, None where it is F and A."""
        return self.first.checked.curve

    @property
    def rows(self):
        """The rows of prices, each by its word, which is empty where there is one."""
        return {"": self.reading.case.prices}

    def hours(self):
        """Each hour with its order, its price in each row, both outputs and both earnings."""
        first, second = self.sides
        words, prices = (ORDERS[order] for order in self.reading.case.orders), zip(*self.rows.values())
        outputs, earned = zip(first.outputs, second.outputs), zip(first.earnings, second.earnings)
        return zip(range(1, len(first.outputs) + 1), words, prices, outputs, earned)


def side_of(reading, place, file, outputs, curve=None):
    """A list with its verdict, and what its hours earn, by a curve if there is one."""
    table = curve.table if curve else None
    return Side(place, file, checked(reading, file, outputs, curve), earnings(reading.case, outputs, table))


def better_of(first, second):
    """The better of two lists by their verdicts, None where neither passes; and the reason."""
    passing = [side for side in (first, second) if side.checked.passes]
    if not passing:
        return None, "neither"
    if len(passing) == 1:
        return passing[0], "passes"
    if first.profit != second.profit:
        return first if first.profit > second.profit else second, "profit"
    hour = difference(first, second)
    if hour is None:
        return first, "identical"
    return first if first.outputs[hour - 1] < second.outputs[hour - 1] else second, "lower"


def lower(chosen, other):
    """In words that of two lists of equal profit one is the lower."""
    hour = difference(chosen, other)
    low, high = chosen.outputs[hour - 1], other.outputs[hour - 1]
    return f"equal profit, and lower at hour {hour} ({low} below {high} MW)"


def difference(first, second):
    """The first hour where two lists differ, None where they are identical."""
    pairs = enumerate(zip(first.outputs, second.outputs), 1)
    return next((hour for hour, (one, other) in pairs if one != other), None)


def difference_fields(pair):
    """The first hour where the lists differ and both outputs, for a program; None where they are identical."""
    hour = difference(*pair.sides)
    return hour and {"hour": hour, **{side.place: side.outputs[hour - 1] for side in pair.sides}}


def hours_fields(pair):
    """Every hour for a program."""
    columns = _columns(pair)
    return [dict(zip(columns, row)) for row in _rows(pair)]


def pair_csv(pair):
    """The two lists as a table."""
    return csv_of(_columns(pair), _rows(pair))


def _columns(pair):
    """The columns of both lists as CSV, and the names of an hour as JSON."""
    amounts = ("output", "earnings_half_mills", "earnings_dollars")
    prices = (f"{word or 'price'}_mills" for word in pair.rows)
    return ("hour", "order", *prices, *(f"{side.place}_{amount}" for amount in amounts for side in pair.sides))


def _rows(pair):
    for hour, order, prices, outputs, earned in pair.hours():
        dollars = (machine(dollars_of_half_mills(amount)) for amount in earned)
        yield hour, order, *prices, *outputs, *earned, *dollars


def table(pair):
    """A line for each hour and each of their days, below those of the columns."""
    hours, names = len(pair.first.outputs), [side.place for side in pair.sides]
    days = {day.last: [day.number, *(side.earned_in(day) for side in pair.sides)] for day in days_of(hours)}
    sums = [earned for _, *of_both in days.values() for earned in of_both if earned is not None]
    width = widest([*pair.first.earnings, *pair.second.earnings, *sums])
    head, places = column(hours)
    prices_of = [f"{word or 'price'} ($/MWh)" for word in pair.rows]
    left = "  ".join([f"hour{head}", "order", *prices_of])
    yield f"{'':{len(left)}}  {'output (MW)':>15}  {'earnings ($)':>{2 * width + 2}}"
    yield f"{left}  {names[0]:>6}   {names[1]:>6}{_both(*names, width)}"
    for (k, order, prices, outputs, earned), place in zip(pair.hours(), places):
        priced = (f"{dollars_of_mills(price):>{len(name)}}" for price, name in zip(prices, prices_of))
        hour = "  ".join([f"{k:4}{place}", f"{order:5}", *priced, _marked(*outputs)])
        yield hour + _both(*map(dollars_of_half_mills, earned), width)
        if k in days:
            number, *earned = days[k]
            amounts = ("" if amount is None else dollars_of_half_mills(amount) for amount in earned)
            yield f"{f'day {number}':{len(hour)}}{_both(*amounts, width)}".rstrip()


def _marked(first, second):
    """Both outputs of an hour, with a mark between them where they differ."""
    mark = "<" if first < second else ">" if first > second else " "
    return f"{first:6} {mark} {second:6}"


def _both(first, second, width):
    """The last two columns."""
    return f"  {first:>{width}}  {second:>{width}}"
