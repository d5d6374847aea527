"""A day of a year with windows: the orders that they give, and what can be said where the library refuses.

The library fills the orders and schedules by them. They are filled here again only to be shown and to explain.
"""

from dataclasses import dataclass, replace
from itertools import product

from dates import Span
from faults import Fault, Refused, named
from module import giqapsun
from windows import GIVEN, Year
from words import ORDERS, hours_listed, ordered_hours, printable

# the most faults of a refusal that are said
SAID = 10


@dataclass(frozen=True)
class Calendar:
    """The windows of a year, a day of it, and the case's own orders, which the windows replace."""

    year: Year
    day: Span
    own: tuple = ()

    @property
    def file(self):
        """The file of the windows."""
        return self.year.file

    @property
    def name(self):
        """The name of the file in a text."""
        return printable(named(self.file))

    def of(self, case):
        """The same for a case: where the day's number of hours was not given, it has as many as the case."""
        hours = len(case.prices) if self.day.hours is None else self.day.hours
        return replace(self, day=replace(self.day, hours=hours), own=tuple(case.orders))

    def best(self, case):
        """The library's plan for a case with the orders of the windows."""
        on, off = map(self.year.numbers, GIVEN)
        return giqapsun.best_by_calendar(case, on, off, self.day.first, self.day.hours)

    def test(self):
        """Raises 14 and 15, which come before any case: a record of no hours gets them too. Where the day has as many
        hours as the case, they wait for it."""
        if self.day.hours is not None:
            try:
                self.best(giqapsun.Case())
            except giqapsun.Refusal as refused:
                if refused.number in (14, 15):
                    raise self.refused(refused.number) from None

    def refused(self, number, file=None, details=()):
        """The refusal of a call, 14 and 15 of this file alone, others of the case's file too; with what can be said of
        it before the details."""
        files = named(self.file) if number in (14, 15) else f"{named(file)}, {named(self.file)}"
        faults = {14: self._misplaced, 15: self._meetings, 2: self._other_length}.get(number, tuple)
        said = list(faults())
        more = [f"and {len(said) - SAID} more"] if len(said) > SAID else []
        return Refused(files, number, [*said[:SAID], *more, *details])

    def windows(self):
        """The window of each hour of the day, None for an hour in none."""
        windows = [None] * self.day.hours
        for window in self.year.windows:
            for hour in self._hours_in(window):
                windows[hour - 1] = window
        return windows

    def orders(self):
        """The order of each hour of the day."""
        return [window.order if window else giqapsun.FREE for window in self.windows()]

    def runs(self):
        """The windows that hold hours of the day, in its order, with those hours."""
        held = ((window, self._hours_in(window)) for window in self.year.windows)
        return sorted(((window, hours) for window, hours in held if hours), key=lambda run: run[1].start)

    def replaced(self):
        """A line with the case's own orders, if there are any but free."""
        if any(self.own):
            yield f"the case's own orders are replaced: {'; '.join(ordered_hours(self.own))}"

    def fields(self):
        """The file, the day and the case's own orders for a program."""
        replaced = [{"hour": hour, "order": ORDERS[order]} for hour, order in enumerate(self.own, 1) if order]
        return {"file": str(self.file), **self.day.fields(), "replaced": replaced}

    def held(self):
        """A line for each window that holds hours of the day."""
        for window, hours in self.runs():
            yield str(Fault(self.file, window.line, None, f"{window.word} {window} holds {_of_the_day(hours)}"))

    def _hours_in(self, window):
        """The hours of the day, from 1, that a window holds."""
        start, end = (at - self.day.first for at in (window.first, window.end))
        return range(max(start, 0) + 1, min(end, self.day.hours) + 1)

    def _misplaced(self):
        """14: the day and the windows."""
        if self.day.hours not in giqapsun.DAY_HOURS:
            like = ", as many as the case" if self.own and self.day.hours == len(self.own) else ""
            yield f"{self.day.length}{like}; 23, 24 or 25 needed"
        end = self.day.first + self.day.hours
        if end > giqapsun.YEAR_HOURS:
            yield f"the day: {self.day.first}+{self.day.hours} ends at {end:,}, at most {giqapsun.YEAR_HOURS:,} allowed"
        yield from self.year.faults()

    def _meetings(self):
        """15: each window of one list that meets one of the other within the day."""
        on, off = ([run for run in self.runs() if run[0].order == order] for order in GIVEN)
        for (one, held), (other, also) in product(on, off):
            hours = sorted({*held} & {*also})
            if hours:
                what = f"{one.word} {one}, and line {other.line}, {other.word} {other}, hold {_of_the_day(hours)}"
                yield str(Fault(self.file, one.line, None, what))

    def _other_length(self):
        """2: T is not the day's number of hours."""
        if self.day.hours != len(self.own):
            yield f"T is {len(self.own)}, and {self.day.length}"


def _of_the_day(hours):
    return f"{hours_listed(hours)} of the day"
