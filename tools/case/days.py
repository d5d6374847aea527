"""The days of 24 hours, counted from hour 1, that tables and pictures divide the hours of a case into where there are
more than 48; up to 48 hours stand undivided."""

from typing import NamedTuple

HOURS = 24

# the most hours that stand undivided
UNDIVIDED = 48

# the head of the column of a table that has the place of each hour, as day 6, hour 15
COLUMN = "day-hour"


class Day(NamedTuple):
    """A day by its number, its first hour and its last."""

    number: int
    first: int
    last: int

    def of(self, amounts):
        """The amounts of its hours, of those of all hours."""
        return amounts[self.first - 1 : self.last]


def divided(hours):
    """Whether so many hours are divided into days."""
    return hours > UNDIVIDED


def days_of(hours):
    """The days that so many hours are divided into; none where they stand undivided."""
    if not divided(hours):
        return []
    firsts = enumerate(range(1, hours + 1, HOURS), 1)
    return [Day(number, first, min(first + HOURS - 1, hours)) for number, first in firsts]


def column(hours):
    """The cells of the column, its head first, each with the space before it; all are empty where hours stand
    undivided."""
    if not divided(hours):
        return "", [""] * hours
    places = (f"{day}-{hour:02}" for day, hour in map(_place, range(1, hours + 1)))
    return f"  {COLUMN}", [f"  {place:>{len(COLUMN)}}" for place in places]


def named(hour, hours):
    """An hour by its number, and by its place in its day where so many hours are divided."""
    if not divided(hours):
        return f"hour {hour}"
    day, place = _place(hour)
    return f"hour {hour}, day {day} hour {place}"


def _place(hour):
    """The number of an hour's day, and of the hour in it."""
    day, place = divmod(hour - 1, HOURS)
    return day + 1, place + 1
