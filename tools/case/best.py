"""The best day of a case, as the library or the program best_day finds it, and its table. Where a calendar gives the
orders, or a curve the costs, the library alone finds it."""

import os
import re
import subprocess
from bisect import bisect_left
from dataclasses import asdict, dataclass, replace
from pathlib import Path

from calendars import Calendar
from curves import Curve
from days import column, days_of
from ends import closing, stage_of, stop_after
from faults import Fault, Refused
from hours import agree, earnings, energies
from layout import case_of
from module import giqapsun
from money import amount_fields, dollars_of_half_mills, dollars_of_mills, machine, megawatt_hours, widest
from reading import BY, Reading, built, explained, read_case
from tables import csv_of, json_of
from words import ORDERS, counted, ordered_hours

# the columns of a day as CSV, and the names of an hour as JSON
COLUMNS = (
    "hour", "order", "price_mills", "output", "energy_half_mwh", "earnings_half_mills", "earnings_dollars",
)

# those that a calendar adds: the hour of the year, the window that holds it and its line; for CSV the day's date too
WINDOW_COLUMNS = ("year_hour", "window_first", "window_hours", "window_line")
CALENDAR_COLUMNS = (*WINDOW_COLUMNS, "date", "zone")


@dataclass
class Day:
    """The best day: outputs in MW, energies in half-megawatt-hours, earnings and profit in half-mills; who has found
    it, `library` or the program's file; the calendar that the orders of its case come from, and the curve that its
    costs do, if they do."""

    reading: Reading
    outputs: list
    energies: list
    earnings: list
    profit: int
    found_by: str
    calendar: Calendar | None = None
    curve: Curve | None = None

    def hours(self):
        """Each hour with its order, price, output, energy and earnings."""
        case = self.reading.case
        words = (ORDERS[order] for order in case.orders)
        return zip(range(1, len(self.outputs) + 1), words, case.prices, self.outputs, self.energies, self.earnings)

    def closing(self):
        """A line if the day closes in a shut-down."""
        return closing(self.reading.case, self.outputs)

    def notes(self):
        """What a table of hours has no place for: that orders are replaced, a stop after the day, and a curve."""
        yield from self.calendar.replaced() if self.calendar else ()
        yield from self.closing()
        yield from self.by_curve()

    def by_curve(self):
        """A line if the costs are those of a curve."""
        yield from [self.curve.line()] if self.curve else ()


def program():
    """The program: GIQAPSUN_BEST_DAY, or the one that the repository builds; None where the library serves."""
    named = os.environ.get("GIQAPSUN_BEST_DAY")
    if named:
        return Path(named)
    return None if built() else Path(__file__).resolve().parents[2] / "target/bin/best_day"


def best_day(file, data, calendar=None, curve=None):
    """The best day of the bytes of a file, with its own orders or with those of a calendar, or with the costs of a
    curve."""
    if calendar is not None:
        return _by_calendar(file, data, calendar)
    runs = program()
    if curve is not None:
        _no_program("curve")
    elif runs is not None:
        return _answered(runs, file, data)
    return found(file, read_case(file, data), curve)


def found(file, reading, curve=None):
    """The best day of a case by the library, with the costs of a curve if there is one; `file` is the case's. The hours
    earn its profit, or it is a fault."""
    try:
        plan = giqapsun.best_by_curve(reading.case, curve.curve) if curve else giqapsun.best(reading.case)
    except giqapsun.Refusal as refused:
        details = contradiction(reading.case) if refused.number == 11 else ()
        raise Refused(file, refused.number, details) from None
    return _day(reading, plan.outputs, plan.profit, "library", curve)


def _no_program(what):
    """A fault where a program is named, which takes no such thing."""
    runs = os.environ.get("GIQAPSUN_BEST_DAY")
    if runs:
        raise Fault(runs, None, None, f"a program takes no {what}; without GIQAPSUN_BEST_DAY the library serves")


def _by_calendar(file, data, calendar):
    """The best day with the orders of a calendar. It keeps the orders that are shown with it, or it is a fault."""
    _no_program("calendar")
    calendar.test()
    reading = read_case(file, data)
    calendar = calendar.of(reading.case)
    filled = replace(reading, case=replace(reading.case, orders=calendar.orders()))
    try:
        plan = calendar.best(reading.case)
    except giqapsun.Refusal as refused:
        details = [*calendar.held(), *contradiction(filled.case)] if refused.number == 11 else ()
        raise calendar.refused(refused.number, file, details) from None
    verdict = giqapsun.check(filled.case, plan.outputs)
    if verdict != giqapsun.Passes(plan.profit):
        raise Fault("the library", None, "best by calendar", f"{plan}, and with the orders of the windows {verdict}")
    return replace(_day(filled, plan.outputs, plan.profit, "library"), calendar=calendar)


def contradiction(case):
    """What can be said where no list keeps every rule. Without orders a unit can stay as it opens, or go on with the
    sequence that it opens in; so it is some of the orders that cannot be kept, or that sequence is a shut-down which
    ends too early."""
    state = "on-line" if case.initial else "off-line"
    stage = stage_of(case, case)
    inside = f", in {stage}" if stage else ""
    yield from (f"orders: {words}" for words in ordered_hours(case.orders))
    yield f"opening: initial {case.initial} MW, elapsed {counted(case.elapsed, 'hour')} {state}{inside}"
    yield (
        f"times: minup {case.minup}, mindown {case.mindown}; a start-up takes {counted(len(case.rise), 'hour')}, "
        f"a shut-down {len(case.fall)}"
    )
    if case.downstage:
        stop = len(case.fall) + 1 - case.downstage
        hours = counted(case.elapsed + stop - 1, "hour")
        yield f"the shut-down that the day opens in has its stop at hour {stop}, after {hours} on-line"
    hour = _first_not_kept(case) if built() else None
    if hour is not None:
        yield f"the orders before hour {hour} can be kept together; with that of hour {hour} no list keeps every rule"


def _first_not_kept(case):
    """The first hour whose order cannot be kept together with those before it. Orders that cannot be kept together
    cannot with others besides, so halving finds it."""
    ordered = [hour for hour, order in enumerate(case.orders, 1) if order != giqapsun.FREE]
    first = bisect_left(ordered, True, key=lambda hour: not _kept_up_to(case, hour))
    return ordered[first] if first < len(ordered) else None


def _kept_up_to(case, hour):
    """Whether a list keeps every rule with the orders up to an hour alone."""
    later = [giqapsun.FREE] * (len(case.orders) - hour)
    try:
        giqapsun.best(replace(case, orders=[*case.orders[:hour], *later]))
    except giqapsun.Refusal:
        return False
    return True


def too_few_numbers(case):
    """What can be said where a program lends too few numbers to work in: the minimum times that ask for more."""
    times = {name: getattr(case, name) for name in ("minup", "mindown")}
    longer = {name: hours for name, hours in times.items() if hours > giqapsun.SHORT_TIME}
    for name, hours in longer.items():
        lent = f"a program that lends {giqapsun.WORK:,} numbers to work in; {giqapsun.WORK_MOST:,} are needed"
        yield f"{name}: {hours}, from 1 to {giqapsun.SHORT_TIME} allowed by {lent}"
    if longer:
        yield "the library is lent as many as a case needs: bindings/build.sh builds it; set no GIQAPSUN_BEST_DAY"


def _answered(runs, file, data):
    """The best day by a program."""
    try:
        done = subprocess.run([runs], input=data, capture_output=True, check=False)
    except OSError as error:
        what = f"{error.strerror}; build it with `tools/build best_day` or set GIQAPSUN_BEST_DAY"
        raise Fault(runs, None, None, what) from None
    lines = done.stdout.decode("ascii", "replace").splitlines()
    refused = re.fullmatch(r"refused ([0-9]{1,9})", lines[0]) if len(lines) == 1 else None
    if refused:
        raise Refused(file, int(refused[1]), _refused(int(refused[1]), data))
    if done.returncode != 0:
        raise Fault(runs, None, None, f"ended with status {done.returncode}")
    return _printed(runs, read_case(file, data), lines)


def _refused(number, data):
    own, case, _ = case_of(data)
    words = {10: too_few_numbers, 11: contradiction}.get(number)
    return words(case) if words and own == 0 else explained(number, data)


def _printed(runs, reading, lines):
    """The day that a program has printed."""
    profit = _numbers(runs, lines, 0, r"profit (-?[0-9]{1,18})")[0]
    outputs, before = [], reading.case.initial
    for k in range(1, len(reading.case.prices) + 1):
        hour, output, energy = _numbers(runs, lines, k, r"([0-9]{1,5}) ([0-9]{1,5}) ([0-9]{1,6})")
        if (hour, energy) != (k, before + output):
            what = f"hour {k} with {before + output} half-megawatt-hours was expected"
            raise Fault(runs, k + 1, None, f"{lines[k]!r} where {what}")
        outputs.append(output)
        before = output
    if len(lines) != 1 + len(outputs):
        raise Fault(runs, len(outputs) + 2, None, f"more lines than the {len(outputs)} hours of the day")
    return _day(reading, outputs, profit, str(runs))


def _numbers(runs, lines, place, form):
    line = lines[place] if place < len(lines) else ""
    match = re.fullmatch(form, line)
    if match is None:
        raise Fault(runs, place + 1, None, f"{line[:60]!r} is no line of a best day")
    return [int(number) for number in match.groups()]


def _day(reading, outputs, profit, found_by, curve=None):
    earned = earnings(reading.case, outputs, curve.table if curve else None)
    file, line = ("the library", None) if found_by == "library" else (found_by, 1)
    agree(file, line, profit, earned)
    return Day(reading, outputs, energies(reading.case, outputs), earned, profit, found_by, curve=curve)


def best_text(day):
    """The day hour by hour, with totals; more than 48 hours have those of each of their days too."""
    lines = list(_table(day))
    if day.calendar is not None:
        windows = (f"{window}, line {window.line}" if window else "" for window in day.calendar.windows())
        beside = ["window (first+hours)", *windows, ""]
        lines = [f"{line}  {words}".rstrip() for line, words in zip(lines, beside)]
    lines += [f"profit {day.profit} half-mills", *day.closing(), *day.by_curve()]
    if day.calendar is not None:
        lines += [f"calendar {day.calendar.name}: {day.calendar.day}", *day.calendar.replaced()]
    found = "the library" if day.found_by == "library" else f"the program {day.found_by}"
    lines.append(f"{BY[day.reading.by]}; found by {found}")
    return "\n".join(lines) + "\n"


def _table(day):
    """A line for each hour and each of their days, below that of the columns, and the total."""
    days = {ended.last: ended for ended in days_of(len(day.outputs))}
    earned_in = {ended: sum(ended.of(day.earnings)) for ended in days.values()}
    width = widest([*day.earnings, *earned_in.values(), day.profit])
    head, places = column(len(day.outputs))
    yield f"hour{head}  order  price ($/MWh)  output (MW)  energy (MWh)  {'earnings ($)':>{width}}"
    for (k, order, price, output, *amounts), place in zip(day.hours(), places):
        yield f"{k:4}{place}  {order:5}  {dollars_of_mills(price):>13}  {output:11}{_amounts(*amounts, width)}"
        if k in days:
            energy, earned = sum(days[k].of(day.energies)), earned_in[days[k]]
            yield f"{f'day {days[k].number}':{39 + len(head)}}{_amounts(energy, earned, width)}"
    yield f"{'total':{39 + len(head)}}{_amounts(sum(day.energies), day.profit, width)}"


def _amounts(energy, earned, width):
    """The last two columns."""
    return f"  {megawatt_hours(energy):>12}  {dollars_of_half_mills(earned):>{width}}"


def best_json(day):
    """The day for a program."""
    calendar = {} if day.calendar is None else {"calendar": day.calendar.fields()}
    curve = {} if day.curve is None else {"curve": day.curve.fields()}
    return json_of({
        **amount_fields("profit", day.profit),
        "energy_half_mwh": sum(day.energies),
        "stop_after_day": stop_after(day.reading.case, day.outputs),
        "opening_after": asdict(giqapsun.opening_after(day.reading.case, day.outputs)),
        **calendar,
        **curve,
        "hours": [dict(zip((*COLUMNS, *WINDOW_COLUMNS), row)) for row in _rows(day)],
        "read_by": day.reading.by,
        "found_by": day.found_by,
    })


def best_csv(day):
    """The day as a table."""
    if day.calendar is None:
        return csv_of(COLUMNS, _rows(day))
    fields = day.calendar.day.fields()
    return csv_of((*COLUMNS, *CALENDAR_COLUMNS), [(*row, fields["date"], fields["zone"]) for row in _rows(day)])


def _rows(day):
    """The row of each hour, which ends with its window if there is a calendar."""
    rows = [(*hour, machine(dollars_of_half_mills(hour[-1]))) for hour in day.hours()]
    if day.calendar is None:
        return rows
    windows = enumerate(day.calendar.windows(), day.calendar.day.first)
    return [(*row, *_of_the_year(hour, window)) for row, (hour, window) in zip(rows, windows)]


def _of_the_year(hour, window):
    return (hour, window.first, window.hours, window.line) if window else (hour, None, None, None)
