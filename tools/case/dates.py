"""A day of a year in hours: named by its first hour, or by a date in a time zone."""

import re
import struct
import zoneinfo
from argparse import ArgumentTypeError
from dataclasses import asdict, dataclass
from datetime import date, datetime, time, timedelta

from faults import Fault, quoted
from tables import MOST, WHOLE

HOUR = timedelta(hours=1)

# what to do where a date does not serve
OTHERWISE = "name the day by --first and --hours"


@dataclass(frozen=True)
class Span:
    """The hours of a day: the first, counted from 0 at the year's first, and how many, None for as many as the case
    has; the date and the zone that it was named by, if it was."""

    first: int
    hours: int | None
    date: str | None = None
    zone: str | None = None

    @property
    def length(self):
        """How many hours it has, in words."""
        if self.date is None:
            return f"the day has {self.hours} hours"
        return f"{self.date} has {self.hours} hours in {self.zone}"

    def fields(self):
        """The same for a program."""
        return asdict(self)

    def __str__(self):
        named = "" if self.date is None else f", {self.date} in {self.zone}"
        return f"{self.hours} hours, {self.first} to {self.first + self.hours - 1} of the year{named}"


def hour_number(word):
    """A number of the command line that 16 bits hold."""
    if not WHOLE.fullmatch(word) or not 0 <= int(word) <= MOST:
        raise ArgumentTypeError(f"{quoted(word)} is not a whole number from 0 to {MOST:,}")
    return int(word)


def iso_date(word):
    """A date of the command line; the next day is a date too."""
    try:
        found = date.fromisoformat(word) if re.fullmatch(r"[0-9]{4}-[0-9]{2}-[0-9]{2}", word) else date.max
    except ValueError:
        found = date.max
    if found == date.max:
        raise ArgumentTypeError(f"{quoted(word)} is not a date from 0001-01-01 to 9999-12-30, written so")
    return found


def span_of(day, name):
    """The hours of a date in a zone: those that pass from local midnight of 1 January to that of the date, and from
    there to the next."""
    zone = _zone(name)
    year, begin, end = (_midnight(at, zone) for at in (day.replace(month=1, day=1), day, day + timedelta(days=1)))
    first, hours = begin - year, end - begin
    for passed, what in ((first, "begins {} after its year"), (hours, "has {}")):
        if passed % HOUR:
            words = f"{day} {what.format(_clock(passed))} in {name}; whole hours needed"
            raise Fault("--date", None, None, words)
    return Span(first // HOUR, hours // HOUR, day.isoformat(), name)


def _zone(name):
    try:
        return zoneinfo.ZoneInfo(name)
    except (zoneinfo.ZoneInfoNotFoundError, ValueError, OSError, struct.error):
        pass
    if not zoneinfo.available_timezones():
        raise Fault("--zone", None, None, f"this machine has no zone data: install tzdata, or {OTHERWISE}")
    raise Fault("--zone", None, None, f"{quoted(name)} is no zone of this machine's data; a name is like Europe/Madrid")


def _midnight(day, zone):
    """The time of local midnight, the first of two where the clock shows it twice."""
    local = datetime.combine(day, time(), zone)
    if local.utcoffset() < local.replace(fold=1).utcoffset():
        raise Fault("--date", None, None, f"{day} has no midnight in {zone.key}; {OTHERWISE}")
    return local.replace(tzinfo=None) - datetime.min - local.utcoffset()


def _clock(passed):
    minutes, seconds = divmod(passed // timedelta(seconds=1), 60)
    return f"{minutes // 60}:{minutes % 60:02}:{seconds:02} hours"
