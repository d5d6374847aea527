"""The day of one thermal power unit: case files are read and written, a list of hourly outputs is checked
against the rules of the day, the list that earns most is found, by the case's own hour orders or by those of the
year's calendar, the better of two lists is told, and what a list leaves for the next day. A list is checked and the
best one found by a boiler maker's cost curve too.

Outputs are whole megawatts, prices and costs mills (thousandths of a dollar), profits half-mills (2,000 to
the dollar, exact). A price may be below 0: it is from PRICE_LEAST to PRICE_MOST. Hours are counted from 1;
hour 0 is the one before the day. A day is the hours of one case, up to the 168 of a week. It may open inside a
start-up or a shut-down, and close inside one; C belongs to the day that holds the stop.

    import giqapsun

    with open("cases/source.case", "rb") as file:
        case = giqapsun.read(file.read())
    plan = giqapsun.best(case)
    print(plan.profit / 2000, "dollars")
    print(plan.outputs)

A calendar is two lists of windows of the year, on-line and off-line, each with two numbers for a window: its first
hour, counted from 0 at the year's first hour, and its length in hours.

    by_calendar = giqapsun.best_by_calendar(case, on=[], off=[2406, 6], first=2400, hours=24)

A cost curve is Flat(a), Straight(a, b) or Curved(a, b, c), of floats: an hour of n half-megawatt-hours costs a,
b n + a or (c n + b) n + a half-mills, in place of what F and A give.

    by_curve = giqapsun.best_by_curve(case, giqapsun.Curved(200000.0, 38000.0, 0.05))

Days follow one another: the next one opens as the list leaves the unit.

    opening = giqapsun.opening_after(case, plan.outputs)
    tomorrow = dataclasses.replace(case, **dataclasses.asdict(opening), prices=prices)

The module loads libgiqapsun.so at its first call: the one that GIQAPSUN_LIBRARY names, or the one inside
this package, or the one that bindings/build.sh makes in target/bindings of the repository.
"""

import sys

if sys.version_info < (3, 11):
    raise ImportError("giqapsun: Python 3.11 or later is needed")

import ctypes
import operator
from collections.abc import Iterable, Sequence
from dataclasses import dataclass, field, fields
from functools import lru_cache
from typing import SupportsIndex, TypeVar

from ._boundary import (
    COEFFICIENT_MOST, COSTS, CURVED, DAY_LEAST, DAY_MOST, FILE_MOST, FLAT, HOURS, PRICE_LEAST, PRICE_MOST, SHORT_TIME,
    STAGES, STRAIGHT, WORK, WORK_MOST, YEAR_HOURS,
)
from ._boundary import Case as _Case
from ._boundary import Curve as _Curve
from ._boundary import LibraryError, calls, library_file
from ._texts import REFUSALS, RULES

__version__ = "4.2.0"

__all__ = [
    "Case", "Opening", "Passes", "Breaks", "Plan", "First", "Second", "Neither", "Refusal", "LibraryError",
    "Flat", "Straight", "Curved", "read", "write", "check", "best", "best_by_calendar", "compare", "better", "table",
    "check_by_curve", "best_by_curve", "opening_after", "working_numbers", "library_file", "FREE", "ON", "OFF",
    "STAGES", "HOURS", "SHORT_TIME", "WORK", "WORK_MOST", "PRICE_LEAST", "PRICE_MOST", "YEAR_HOURS", "DAY_HOURS",
    "COSTS", "COEFFICIENT_MOST", "REFUSALS", "RULES",
]

# orders of an hour
FREE, ON, OFF = 0, 1, 2

# how many hours a day of the calendar can have
DAY_HOURS = tuple(range(DAY_LEAST, DAY_MOST + 1))

# hours in state are counted up to this number, which 7 allows
_ELAPSED_MOST = 10_000


class Refusal(Exception):
    """A refused call: `number` is that of the refusal list, `text` its condition."""

    def __init__(self, number: int) -> None:
        super().__init__(number)
        self.number = number
        self.text = REFUSALS.get(number, "a number that is not in the refusal list")

    def __str__(self) -> str:
        return f"refused {self.number}: {self.text}"


@dataclass(slots=True)
class Case:
    """A case. The lengths of the lists are the counts UD, DD and T."""

    capacity: int = 0  # MW
    minimum: int = 0  # minimum output, MW
    rampup: int = 0  # RU, MW per hour
    rampdown: int = 0  # RD, MW per hour
    minup: int = 0  # minimum up time, hours, 1 to 24
    mindown: int = 0  # minimum down time, hours, 1 to 24
    variable: int = 0  # F, mills per MWh
    fixed: int = 0  # A, mills per on-line hour
    startcost: int = 0  # B, mills per start
    stopcost: int = 0  # C, mills per stop
    initial: int = 0  # p(0), MW
    elapsed: int = 0  # h, hours on-line or off-line before hour 1
    upstage: int = field(default=0, kw_only=True)  # start-up stage: 0, or i below UD where the day opens on PU(i)
    downstage: int = field(default=0, kw_only=True)  # shut-down stage: 0, or i from 2 where the day opens on PD(i)
    rise: list[int] = field(default_factory=list)  # PU, MW
    fall: list[int] = field(default_factory=list)  # PD, MW
    prices: list[int] = field(default_factory=list)  # mills per MWh, below 0 too, that of hour k at k - 1
    orders: list[int] = field(default_factory=list)  # FREE, ON or OFF, that of hour k at k - 1


@dataclass(frozen=True, slots=True)
class Flat:
    """A cost curve: an hour costs a, in half-mills."""

    a: float


@dataclass(frozen=True, slots=True)
class Straight:
    """A cost curve: an hour of n half-megawatt-hours costs b n + a half-mills; b is half-mills per
    half-megawatt-hour."""

    a: float
    b: float


@dataclass(frozen=True, slots=True)
class Curved:
    """A cost curve: an hour of n half-megawatt-hours costs (c n + b) n + a half-mills; c is half-mills per
    half-megawatt-hour squared."""

    a: float
    b: float
    c: float


@dataclass(frozen=True, slots=True)
class Opening:
    """How a day opens: the state of the unit before hour 1, by the names of Case."""

    initial: int  # p(0), MW
    elapsed: int  # h, hours on-line or off-line before hour 1
    upstage: int = 0  # start-up stage
    downstage: int = 0  # shut-down stage


@dataclass(frozen=True, slots=True)
class Passes:
    """A list that keeps every rule, and what it earns in half-mills."""

    profit: int


@dataclass(frozen=True, slots=True)
class Breaks:
    """The earliest hour at which a list breaks a rule, and the lowest rule broken there. An hour above T is that of a
    stop after the day, too early for the minimum up time."""

    hour: int
    rule: int

    @property
    def text(self) -> str:
        """The words for the rule."""
        return RULES.get(self.rule, "a number that is no rule's")


@dataclass(frozen=True, slots=True)
class Plan:
    """The best list, that of hour k at k - 1, in MW, and what it earns in half-mills."""

    outputs: list[int]
    profit: int


@dataclass(frozen=True, slots=True)
class First:
    """The first of two lists is the better, and what it earns in half-mills."""

    profit: int


@dataclass(frozen=True, slots=True)
class Second:
    """The second of two lists is the better, and what it earns in half-mills."""

    profit: int


@dataclass(frozen=True, slots=True)
class Neither:
    """Neither of two lists passes."""


# the kinds of two lists, which may be different ones
_One = TypeVar("_One", bound=Sequence[SupportsIndex])
_Other = TypeVar("_Other", bound=Sequence[SupportsIndex])


def read(file: bytes | bytearray | memoryview) -> Case:
    """The case in the bytes of a file, of form 3, of form 2 or of the old form; refusals 1 to 8, 12 and 13."""
    file = bytes(memoryview(file))
    reading = calls().read(_lent(ctypes.c_uint8, file), len(file))
    _test(reading.number)
    record = reading.c
    case = Case(**{name: getattr(record, name) for name in _NUMBERS})
    case.rise, case.fall = record.rise[: record.rises], record.fall[: record.falls]
    case.prices, case.orders = record.prices[: record.hours], record.orders[: record.hours]
    return case


def write(case: Case) -> bytes:
    """The bytes of a case's file, of form 3; refusals 2 to 8 and 13."""
    lent = _lent(ctypes.c_uint8, bytes(FILE_MOST))
    written = calls().write(_record(case), lent, FILE_MOST)
    _test(written.number)
    return bytes(lent[: written.length])


def check(case: Case, outputs: Iterable[SupportsIndex]) -> Passes | Breaks:
    """Passes or Breaks, for a list of outputs; refusals 2 to 8, 13 and 9."""
    listed = _listed("outputs", outputs)
    return _judged(calls().check(_record(case), *listed))


def best(case: Case) -> Plan:
    """The list that keeps every rule and earns most; refusals 2 to 8, 13 and 11.

    Among equal earners it is the list that is lower at the first hour where two differ.
    """
    return _planned(calls().best, case)


def best_by_calendar(
    case: Case, on: Iterable[SupportsIndex], off: Iterable[SupportsIndex], first: SupportsIndex, hours: SupportsIndex
) -> Plan:
    """The list of `best` for the case with the hour orders of a calendar; refusals 14, 15, 2 to 8, 13 and 11.

    `on` and `off` are the on-line and the off-line windows of the year, sorted, two numbers for each: its first hour,
    counted from 0 at the year's first hour, and its length. A window holds its first hour and not the hour after its
    last; windows may touch. The day has `hours` hours from hour `first` of the year. Its hours in a window of `on` are
    ordered ON, those in one of `off` OFF, all others FREE. These orders replace the case's own, which are still tested.
    """
    windows = *_listed("on", on), *_listed("off", off)
    day = _number("first", first, ctypes.c_uint16), _number("hours", hours, ctypes.c_uint16)
    return _planned(calls().best_by_calendar, case, *windows, *day)


def table(curve: Flat | Straight | Curved) -> list[int]:
    """What an hour costs by a curve, in half-mills, that of n half-megawatt-hours at n, from 0 to 800; refusal 16.

    Each operation is rounded once, in the order written; the last is taken to the nearest whole number, a tie to the
    even one. Coefficients are from 0 to COEFFICIENT_MOST; one that is not a number or infinite is refused, -0.0 is 0.
    """
    costs = (ctypes.c_int64 * COSTS)()
    _test(calls().table(*_coefficients(curve), costs, COSTS))
    return costs[:]


def check_by_curve(
    case: Case, curve: Flat | Straight | Curved, outputs: Iterable[SupportsIndex]
) -> Passes | Breaks:
    """The verdict of `check`, with the profit by the table of a curve; refusals 16, 2 to 8, 13 and 9.

    An hour costs the table's entry in place of what F and A give; in an off-line hour, that of a stop included, the
    entry for 0 is taken off. F and A are still tested.
    """
    listed = _listed("outputs", outputs)
    costs = (ctypes.c_int64 * COSTS)()
    return _judged(calls().check_by_curve(_record(case), *_coefficients(curve), *listed, costs, COSTS))


def best_by_curve(case: Case, curve: Flat | Straight | Curved) -> Plan:
    """The list that keeps every rule and earns most by the table of a curve; refusals 16, 2 to 8, 13 and 11.

    Among equal earners it is the list that is lower at the first hour where two differ.
    """
    costs = (ctypes.c_int64 * COSTS)()
    return _planned(calls().best_by_curve, case, *_coefficients(curve), costs, COSTS)


def compare(
    case: Case, first: Sequence[SupportsIndex], second: Sequence[SupportsIndex]
) -> First | Second | Neither:
    """First, Second or Neither, for two lists of outputs; refusals 2 to 8, 13 and 9.

    A list that passes beats one that does not; then the higher profit wins; then the lower output at the first
    hour where they differ. Identical lists give First.
    """
    lent = *_sliceable("first", first), *_sliceable("second", second)
    choice = calls().better(_record(case), *lent)
    _test(choice.number)
    if choice.which == 0:
        return Neither()
    return First(choice.profit) if choice.which == 1 else Second(choice.profit)


def better(case: Case, first: _One, second: _Other) -> _One | _Other:
    """The better of two lists by `compare`: the very object that was given, or first[:0] where neither passes;
    refusals 2 to 8, 13 and 9."""
    match compare(case, first, second):
        case First():
            return first
        case Second():
            return second
    return first[:0]


def opening_after(case: Case, outputs: Iterable[SupportsIndex]) -> Opening:
    """The opening that a list which passes leaves for the next day; no call of the library.

    Its last output; how many hours the unit has then been on-line or off-line, counted up to 10,000; and the stage of
    the start-up or of the shut-down that the day closes in. An accepted case has its own opening after no hours.
    """
    initial, elapsed = (_number(name, getattr(case, name), _KINDS[name]) for name in ("initial", "elapsed"))
    for output in _entries("outputs", outputs, ctypes.c_uint16):
        changes = (output > 0) != (initial > 0)
        initial, elapsed = output, 1 if changes else min(elapsed + 1, _ELAPSED_MOST)
    if initial == 0:
        return Opening(initial, elapsed)
    if elapsed <= len(case.rise):
        return Opening(initial, elapsed, upstage=elapsed if elapsed < len(case.rise) else 0)
    later = _entries("fall", case.fall, ctypes.c_uint16)[1:]
    return Opening(initial, elapsed, downstage=later.index(initial) + 2 if initial in later else 0)


def working_numbers(case: Case) -> int:
    """How many numbers a search of a case is lent to work in: WORK where both minimum times are at most SHORT_TIME,
    WORK_MOST otherwise, for a case that would be refused too. `best`, `best_by_calendar` and `best_by_curve` lend as
    many."""
    return calls().work(_record(case))


_LISTS = ("rise", "fall", "prices", "orders")
_NUMBERS = tuple(f.name for f in fields(Case) if f.name not in _LISTS)
_KINDS = dict(_Case._fields_)


def _record(case):
    """The record of a case. A number that does not fit its width is a ValueError."""
    record = _Case()
    for name in _NUMBERS:
        setattr(record, name, _number(name, getattr(case, name), _KINDS[name]))
    counts = {}
    for name in _LISTS:
        room = getattr(record, name)
        entries = _entries(name, getattr(case, name), room._type_)
        counts[name] = len(entries)
        # a longer list cannot be held; its count alone is refused
        room[: min(len(entries), len(room))] = entries[: len(room)]
    if counts["prices"] != counts["orders"]:
        raise ValueError(f"{counts['prices']} prices and {counts['orders']} orders")
    record.rises, record.falls, record.hours = counts["rise"], counts["fall"], counts["prices"]
    return record


@lru_cache(maxsize=None)
def _limits(kind):
    """The least and the largest number of a width."""
    numbers = 256 ** ctypes.sizeof(kind)
    least = -numbers // 2 if kind(-1).value < 0 else 0
    return least, least + numbers - 1


def _entries(name, values, kind):
    try:
        listed = list(values)
    except TypeError:
        raise ValueError(f"{name}: {values!r} is not a list of whole numbers") from None
    return [_number(name, value, kind) for value in listed]


def _listed(name, values):
    """A list of 16-bit numbers to lend, and its length."""
    entries = _entries(name, values, ctypes.c_uint16)
    return _lent(ctypes.c_uint16, entries), len(entries)


def _sliceable(name, values):
    """The same of a list that has parts and can be handed back as it was."""
    try:
        values[:0]
    except (TypeError, LookupError):
        raise ValueError(f"{name}: {values!r} is not a list of whole numbers") from None
    return _listed(name, values)


def _number(name, value, kind):
    """A whole number of any kind that says what it is as an index, but no truth value; one that fits the width."""
    try:
        number = None if isinstance(value, bool) else operator.index(value)
    except TypeError:
        number = None
    least, most = _limits(kind)
    if number is None or not least <= number <= most:
        raise ValueError(f"{name}: {value!r} is not a whole number from {least} to {most}")
    return number


def _lent(kind, entries):
    """An array of the entries; never of none, so that its pointer is always a valid one."""
    return (kind * max(1, len(entries)))(*entries)


def _coefficients(curve):
    """The number of a curve's kind, and its record."""
    match curve:
        case Flat():
            kind, names = FLAT, "a"
        case Straight():
            kind, names = STRAIGHT, "ab"
        case Curved():
            kind, names = CURVED, "abc"
        case _:
            raise ValueError(f"curve: {curve!r} is not Flat, Straight or Curved")
    return kind, _Curve(*(_float(name, getattr(curve, name)) for name in names))


def _float(name, value):
    """A float, or a whole number that is one, but no truth value and no text."""
    try:
        if isinstance(value, (bool, str, bytes, bytearray)):
            raise TypeError
        number = float(value)
    except (TypeError, ValueError, OverflowError):
        raise ValueError(f"{name}: {value!r} is not a number that a float holds") from None
    if isinstance(value, int) and number != value:
        raise ValueError(f"{name}: {value!r} is not a number that a float holds")
    return number


def _judged(verdict):
    """The verdict of a check."""
    _test(verdict.number)
    return Breaks(verdict.hour, verdict.rule) if verdict.rule else Passes(verdict.profit)


def _planned(call, case, *beside):
    """The plan that a call finds, with as many numbers to work in as the case needs and room for the outputs lent;
    what stands between the case and these is given."""
    record = _record(case)
    numbers = calls().work(record)
    work, outputs = (ctypes.c_int64 * numbers)(), (ctypes.c_uint16 * HOURS)()
    plan = call(record, *beside, work, numbers, outputs, HOURS)
    _test(plan.number)
    return Plan(outputs[: len(case.prices)], plan.profit)


def _test(number):
    if number != 0:
        raise Refusal(number)
