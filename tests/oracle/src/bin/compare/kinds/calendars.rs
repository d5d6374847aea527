//! The kinds of calendars (request F-3): what 14 and 15 are given for, which number comes first of two, where windows
//! stand about the day, and what becomes of the case's own orders.

use super::{kind, Kind};
use crate::calls::{Pair, Windows};
use oracle::answers::Schedule;
use oracle::calendar::{day, year, Fault, Year, YEAR_HOURS};
use oracle::case::{Case, FREE, MOST_HOURS, OFF_LINE};
use oracle::refusals::{self, working_numbers, PRICES, SHORT_TIME, WORKING_NUMBERS};
use std::ops::Range;

/// A calendar that a day was filled from, and its answer.
pub struct Met {
    case: Case,
    on: List,
    off: List,
    begins: Option<usize>,
    first: usize,
    hours: usize,
    day: Result<Range<usize>, Fault>,
    numbers: usize,
    outputs: usize,
    answer: Schedule,
    own: Option<Schedule>,
}

/// A list of windows, and the year of its hours.
struct List {
    numbers: Vec<u16>,
    year: Result<Box<Year>, Fault>,
}

/// One of the lists of what was met.
type Which = fn(&Met) -> &List;

/// The two lists.
const ON: Which = |met| &met.on;
const OFF: Which = |met| &met.off;

/// Numbers of a long list.
const LONG: usize = 10_000;

/// All kinds.
pub const KINDS: [Kind<Met>; 97] = [
    kind("14: on-line, not of pairs", |met| met.by_list(ON, Fault::NotOfPairs)),
    kind("on-line, empty", |met| met.by_list(ON, Fault::Empty)),
    kind("on-line, unsorted", |met| met.by_list(ON, Fault::Unsorted)),
    kind("on-line, overlapping", |met| met.by_list(ON, Fault::Overlapping)),
    kind("on-line, overlapping by one hour", |met| met.by_list_alone(ON) && met.on.overlaps_by_one()),
    kind("on-line, past the year", |met| met.by_list(ON, Fault::PastYear)),
    kind("on-line, past by one", |met| met.by_list_alone(ON) && met.on.is_past_by_one()),
    kind("on-line, in the year if sums wrap", |met| met.by_list_alone(ON) && met.on.is_within_if_sums_wrap()),
    kind("on-line, after many windows", |met| met.by_list_alone(ON) && met.on.is_refused_late()),
    kind("on-line, at once of many windows", |met| met.by_list_alone(ON) && met.on.is_refused_at_once()),
    kind("on-line, 100,000 numbers", |met| met.by_list_alone(ON) && met.on.is_longest()),
    kind("off-line, not of pairs", |met| met.by_list(OFF, Fault::NotOfPairs)),
    kind("off-line, empty", |met| met.by_list(OFF, Fault::Empty)),
    kind("off-line, unsorted", |met| met.by_list(OFF, Fault::Unsorted)),
    kind("off-line, overlapping", |met| met.by_list(OFF, Fault::Overlapping)),
    kind("off-line, overlapping by one hour", |met| met.by_list_alone(OFF) && met.off.overlaps_by_one()),
    kind("off-line, past the year", |met| met.by_list(OFF, Fault::PastYear)),
    kind("off-line, past by one", |met| met.by_list_alone(OFF) && met.off.is_past_by_one()),
    kind("off-line, in the year if sums wrap", |met| {
        met.by_list_alone(OFF) && met.off.is_within_if_sums_wrap()
    }),
    kind("off-line, after many windows", |met| met.by_list_alone(OFF) && met.off.is_refused_late()),
    kind("off-line, at once of many windows", |met| met.by_list_alone(OFF) && met.off.is_refused_at_once()),
    kind("off-line, 100,000 numbers", |met| met.by_list_alone(OFF) && met.off.is_longest()),
    kind("both lists", |met| met.refused(14) && met.on.year.is_err() && met.off.year.is_err()),
    kind("a day of 22 hours", |met| met.by_day_alone(Fault::DayLength) && met.hours == 22),
    kind("of 26 hours", |met| met.by_day_alone(Fault::DayLength) && met.hours == 26),
    kind("of 0 hours", |met| met.by_day_alone(Fault::DayLength) && met.hours == 0),
    kind("of 280 hours", |met| met.by_day_alone(Fault::DayLength) && met.hours == 256 + 24),
    kind("T hours, but not of a day", |met| met.by_day_alone(Fault::DayLength) && met.has_t_hours()),
    kind("a day past the year by one", |met| {
        met.by_day_alone(Fault::PastYear) && met.end() == YEAR_HOURS + 1
    }),
    kind("a day in the year if sums wrap", |met| met.by_day_alone(Fault::PastYear) && met.end() >= 1 << 16),
    kind("14 before 15", |met| met.refused(14) && met.some_hour_in_both()),
    kind("14 before 2 by T", |met| met.refused(14) && !met.has_t_hours()),
    kind("14 before 3 to 7", |met| met.refused(14) && matches!(met.limit(), Some(3..=7))),
    kind("14 before 8", |met| met.refused(14) && met.limit() == Some(8)),
    kind("14 before 13", |met| met.refused(14) && met.limit() == Some(13)),
    kind("14 before 10", |met| met.refused(14) && met.is_short()),
    kind("15", |met| met.refused(15)),
    kind("15 by hour 1 alone", |met| met.refused(15) && met.in_both().eq([1])),
    kind("15 by the last hour alone", |met| met.refused(15) && met.in_both().eq([met.hours])),
    kind("15 before 2 by T", |met| met.refused(15) && !met.has_t_hours()),
    kind("15 before 3 to 7", |met| met.refused(15) && matches!(met.limit(), Some(3..=7))),
    kind("15 before 8", |met| met.refused(15) && met.limit() == Some(8)),
    kind("15 before 13", |met| met.refused(15) && met.limit() == Some(13)),
    kind("15 before 10", |met| met.refused(15) && met.is_short()),
    kind("2 by T alone", |met| met.refused(2) && !met.has_t_hours() && met.limit().is_none()),
    kind("T one less", |met| met.refused(2) && met.case.t == met.hours - 1),
    kind("T one more", |met| met.refused(2) && met.case.t == met.hours + 1),
    kind("T 65,536 more", |met| met.refused(2) && met.case.t == met.hours + 65_536),
    kind("2 by T before 3 to 7", |met| met.refused(2) && matches!(met.limit(), Some(3..=7))),
    kind("2 by T before 8", |met| met.refused(2) && met.limit() == Some(8)),
    kind("2 by T before 13", |met| met.refused(2) && met.limit() == Some(13)),
    kind("2 by UD or DD alone", |met| met.refused(2) && met.has_t_hours()),
    kind("3", |met| met.refused(3)),
    kind("4", |met| met.refused(4)),
    kind("5", |met| met.refused(5)),
    kind("6", |met| met.refused(6)),
    kind("7", |met| met.refused(7)),
    kind("8 in a window", |met| met.refused(8) && met.some_refused_order(true)),
    kind("8 in no window", |met| met.refused(8) && met.some_refused_order(false)),
    kind("8 before 13", |met| met.refused(8) && met.some_price_outside()),
    kind("order above 2 past T", |met| met.is_searched() && met.some_refused_order_past_t()),
    kind("13", |met| met.refused(13)),
    kind("2 before 10", |met| met.refused(2) && met.is_short()),
    kind("3 to 8 before 10", |met| matches!(met.answer.number, 3..=8) && met.is_short()),
    kind("13 before 10", |met| met.refused(13) && met.is_short()),
    kind("10 by numbers alone", |met| met.refused(10) && met.outputs >= met.hours),
    kind("10 by outputs alone", |met| met.refused(10) && met.numbers >= working_numbers(&met.case)),
    kind("11", |met| met.refused(11)),
    kind("found: 23 hours", |met| met.refused(0) && met.hours == 23),
    kind("24 hours", |met| met.refused(0) && met.hours == 24),
    kind("25 hours", |met| met.refused(0) && met.hours == 25),
    kind("own orders give another list", |met| {
        met.refused(0) && met.own_gives(0) && !met.own_gives_the_same()
    }),
    kind("own orders give no list", |met| met.refused(0) && met.own_gives(11)),
    kind("no list by the calendar alone", |met| met.refused(11) && met.own_gives(0)),
    kind("searched: no window in the day", |met| met.is_searched() && met.ordered() == 0),
    kind("every hour in a window", |met| met.is_searched() && met.ordered() == met.hours),
    kind("across the first hour", |met| {
        met.some_window(|at, day| at.start < day.start && at.end > day.start)
    }),
    kind("across the last hour", |met| met.some_window(|at, day| at.start < day.end && at.end > day.end)),
    kind("longer than the day", |met| met.some_window(|at, day| at.start < day.start && at.end > day.end)),
    kind("just the day", |met| met.some_window(|at, day| at == day)),
    kind("ends at the first hour", |met| met.some_window(|at, day| at.end == day.start)),
    kind("begins after the last hour", |met| met.some_window(|at, day| at.start == day.end)),
    kind("windows touch in the day", |met| met.is_searched() && met.windows_touch_in_the_day()),
    kind("an hour outside the day in both", |met| met.is_searched() && met.some_hour_in_both_lists()),
    kind("the day begins at 0", |met| met.is_searched() && met.first == 0),
    kind("the day ends at 8,784", |met| met.is_searched() && met.end() == YEAR_HOURS),
    kind("a window ends at 8,784", |met| met.some_window(|at, _| at.end == YEAR_HOURS)),
    kind("many windows", |met| met.is_searched() && met.on.is_long() && met.off.is_long()),
    kind("same memory", |met| met.is_searched() && met.is_same_memory() && !met.on.numbers.is_empty()),
    kind("overlapping memory", |met| met.is_searched() && met.memory_overlaps()),
    kind("15 of the same memory", |met| met.refused(15) && met.is_same_memory()),
    kind("a day of 168 hours", |met| met.by_day_alone(Fault::DayLength) && met.hours == 168),
    kind("T 168", |met| met.refused(2) && met.case.t == 168),
    kind("found, a minimum time above 8", |met| met.refused(0) && met.has_long_time()),
    kind("11, a minimum time above 8", |met| met.refused(11) && met.has_long_time()),
    kind("10 by 8,192 numbers, a minimum time above 8", |met| {
        met.refused(10) && met.numbers == WORKING_NUMBERS && met.outputs >= met.hours
    }),
    kind("4 by a minimum time of 25", |met| {
        met.refused(4) && (met.case.min_up == 25 || met.case.min_down == 25)
    }),
];

impl List {
    /// A list with the year of its hours.
    fn new(numbers: &[u16]) -> List {
        List { numbers: numbers.to_vec(), year: year(numbers) }
    }

    /// The whole windows, each as the hours from its first on.
    fn windows(&self) -> impl Iterator<Item = Range<usize>> + '_ {
        let hours = |first: u16, length: u16| usize::from(first)..usize::from(first) + usize::from(length);
        self.numbers.chunks_exact(2).map(move |window| hours(window[0], window[1]))
    }

    /// Each window with the next.
    fn neighbours(&self) -> impl Iterator<Item = (Range<usize>, Range<usize>)> + '_ {
        self.windows().zip(self.windows().skip(1))
    }

    /// Whether the first fault is that a window has one hour of the next, which is sorted.
    fn overlaps_by_one(&self) -> bool {
        let by_one = |(one, next): (Range<usize>, Range<usize>)| next.start + 1 == one.end && next.len() > 1;
        self.year == Err(Fault::Overlapping) && self.neighbours().any(by_one)
    }

    /// Whether the first fault is that a window ends one hour past the year.
    fn is_past_by_one(&self) -> bool {
        self.year == Err(Fault::PastYear) && self.windows().any(|window| window.end == YEAR_HOURS + 1)
    }

    /// Whether the first fault is that a window ends past the year, where the sum modulo 65,536 does not.
    fn is_within_if_sums_wrap(&self) -> bool {
        let within = |window: Range<usize>| window.end >= 1 << 16 && window.end % (1 << 16) <= YEAR_HOURS;
        self.year == Err(Fault::PastYear) && self.windows().any(within)
    }

    /// Whether it has many windows.
    fn is_long(&self) -> bool {
        self.numbers.len() >= LONG
    }

    /// Whether it has as many numbers as any list here.
    fn is_longest(&self) -> bool {
        self.numbers.len() >= 100_000
    }

    /// Whether it is refused, and so many numbers from its front are not.
    fn is_refused_late(&self) -> bool {
        self.is_long() && year(&self.numbers[..LONG]).is_ok()
    }

    /// Whether it has many windows, and the first is refused.
    fn is_refused_at_once(&self) -> bool {
        self.is_long() && year(&self.numbers[..2]).is_err()
    }

    /// Whether a window holds this hour of the year, be the list refused or not.
    fn holds(&self, hour: usize) -> bool {
        self.windows().any(|window| window.contains(&hour))
    }
}

impl Met {
    /// A calendar with what was lent, its answer, and the answer by the case's own orders.
    pub fn new(
        case: &Case,
        windows: &Windows,
        (numbers, outputs): (usize, usize),
        answer: &Schedule,
        own: Option<&Schedule>,
    ) -> Met {
        let Windows { lists: Pair { first: on, second: off, begins }, first, hours } = *windows;
        Met {
            case: *case,
            on: List::new(on),
            off: List::new(off),
            begins,
            first: first.into(),
            hours: hours.into(),
            day: day(first, hours),
            numbers,
            outputs,
            answer: answer.clone(),
            own: own.cloned(),
        }
    }

    /// Whether this is the number of the answer.
    fn refused(&self, number: u32) -> bool {
        self.answer.number == number
    }

    /// Whether the day was filled and searched.
    fn is_searched(&self) -> bool {
        self.refused(0) || self.refused(11)
    }

    /// Whether 14 is for this list, and not for the other one or the day.
    fn by_list_alone(&self, which: Which) -> bool {
        let faults = [self.on.year.is_err(), self.off.year.is_err(), self.day.is_err()];
        self.refused(14) && which(self).year.is_err() && faults.iter().filter(|&&fault| fault).count() == 1
    }

    /// Whether 14 is for this list alone, and this is its first fault.
    fn by_list(&self, which: Which, fault: Fault) -> bool {
        self.by_list_alone(which) && which(self).year.as_ref().err() == Some(&fault)
    }

    /// Whether 14 is for the day alone, and this is its fault.
    fn by_day_alone(&self, fault: Fault) -> bool {
        self.refused(14) && self.on.year.is_ok() && self.off.year.is_ok() && self.day == Err(fault)
    }

    /// The hour after the last of the day.
    fn end(&self) -> usize {
        self.first + self.hours
    }

    /// Whether T is the day's number of hours.
    fn has_t_hours(&self) -> bool {
        self.case.t == self.hours
    }

    /// The refusal of the record, whatever the calendar is.
    fn limit(&self) -> Option<u32> {
        refusals::record(&self.case).err()
    }

    /// Whether a minimum time is above 8 hours.
    fn has_long_time(&self) -> bool {
        self.case.min_up > SHORT_TIME || self.case.min_down > SHORT_TIME
    }

    /// Whether the lent memory is shorter than the day needs.
    fn is_short(&self) -> bool {
        self.numbers < working_numbers(&self.case) || self.outputs < self.hours
    }

    /// The hours of the day, from 1 on, that both lists hold.
    fn in_both(&self) -> impl Iterator<Item = usize> + '_ {
        let both = |hour: usize| self.on.holds(hour) && self.off.holds(hour);
        (1..=self.hours.min(MOST_HOURS)).filter(move |k| both(self.first + k - 1))
    }

    /// Whether there is one.
    fn some_hour_in_both(&self) -> bool {
        self.in_both().next().is_some()
    }

    /// Whether the years of both lists have an hour in common.
    fn some_hour_in_both_lists(&self) -> bool {
        match (&self.on.year, &self.off.year) {
            (Ok(on), Ok(off)) => on.iter().zip(&off[..]).any(|(on, off)| *on && *off),
            _ => false,
        }
    }

    /// How many hours of the day are in a window.
    fn ordered(&self) -> usize {
        (self.first..self.end()).filter(|&hour| self.on.holds(hour) || self.off.holds(hour)).count()
    }

    /// Whether an order of hours 1 to T is above 2, in an hour that a window holds or not.
    fn some_refused_order(&self, in_window: bool) -> bool {
        let held = |k: usize| self.on.holds(self.first + k) || self.off.holds(self.first + k);
        (0..self.hours).any(|k| self.case.orders[k] > OFF_LINE && held(k) == in_window)
    }

    /// Whether one past T is.
    fn some_refused_order_past_t(&self) -> bool {
        self.case.orders[self.hours..].iter().any(|&order| order > OFF_LINE)
    }

    /// Whether a price of hours 1 to T is outside the range.
    fn some_price_outside(&self) -> bool {
        self.case.prices[..self.hours].iter().any(|price| !PRICES.contains(price))
    }

    /// Whether the case's own orders, one of which at least is not free, give this number.
    fn own_gives(&self, number: u32) -> bool {
        let ordered = self.case.orders[..self.hours].iter().any(|&order| order != FREE);
        ordered && self.own.as_ref().is_some_and(|own| own.number == number)
    }

    /// Whether they give the same list.
    fn own_gives_the_same(&self) -> bool {
        self.own.as_ref().is_some_and(|own| own.list == self.answer.list)
    }

    /// Whether a window of a calendar that was searched stands so about the day.
    fn some_window(&self, test: fn(&Range<usize>, &Range<usize>) -> bool) -> bool {
        let day = self.first..self.end();
        self.is_searched() && self.on.windows().chain(self.off.windows()).any(|window| test(&window, &day))
    }

    /// Whether two windows of a list touch between two hours of the day.
    fn windows_touch_in_the_day(&self) -> bool {
        let within = |hour: usize| self.first < hour && hour < self.end();
        let touch =
            |list: &List| list.neighbours().any(|(one, next)| one.end == next.start && within(one.end));
        touch(&self.on) || touch(&self.off)
    }

    /// Whether both lists are the same memory.
    fn is_same_memory(&self) -> bool {
        self.begins == Some(0) && self.on.numbers.len() == self.off.numbers.len()
    }

    /// Whether the memory of both lists overlaps, and is not the same.
    fn memory_overlaps(&self) -> bool {
        let overlaps = self.begins.is_some_and(|begins| begins < self.on.numbers.len());
        overlaps && !self.off.numbers.is_empty() && !self.is_same_memory()
    }
}
