//! Calendars with the answer that request F-3 gives, worked out by hand. Days begin at hour 1,000 of the year unless a
//! row says otherwise, so that hour k of the day is hour 999 + k of the year. Three units are used: that of the known
//! days, and two of 1 MW, of which the best list shows the orders of the day, hour by hour.

use crate::answers::Schedule;
use crate::calendar::Calendar;
use crate::case::{Case, MOST_HOURS, OFF_LINE, ON_LINE};
use crate::days::{known_unit, refused_cases, source_day, with_orders, SOURCE_LIST, SOURCE_PROFIT};
use crate::opening::Opening;
use crate::refusals::{MOST_WORKING_NUMBERS, WORKING_NUMBERS};
use std::ops::RangeInclusive;

/// A calendar with its answer.
#[derive(Clone, Debug)]
pub struct KnownCalendar {
    pub name: &'static str,
    pub case: Case,
    pub on: Vec<u16>,
    pub off: Vec<u16>,
    pub first: u16,
    pub hours: u16,
    /// Numbers lent to work in, and outputs lent.
    pub numbers: usize,
    pub outputs: usize,
    pub answer: Schedule,
}

impl KnownCalendar {
    /// The calendar itself.
    pub fn calendar(&self) -> Calendar<'_> {
        Calendar { on: &self.on, off: &self.off, first: self.first, hours: self.hours }
    }
}

/// How many calendars there are.
pub const COUNT: u64 = 477;

/// All calendars, by the sentences of the request.
pub fn known_calendars() -> Vec<KnownCalendar> {
    let filled =
        [windows(), edges_of_the_day(), edges_of_the_year(), both_lists(), trajectories(), replaced()];
    let refused = [lists_not_as_laid_down(), days_not_as_laid_down(), in_both_lists(), other_hours()];
    let first =
        [before_the_case(), refused_records(), short_memory(), inside_a_sequence(), long_minimum_times()];
    [filled.concat(), refused.concat(), first.concat()].concat()
}

/// The first hour of the days.
const FIRST: u16 = 1_000;

/// Two lists of windows, on-line and off-line.
type Lists<'a> = (&'a [u16], &'a [u16]);

/// Hours of the day, from 1 on.
type Hours<'a> = &'a [RangeInclusive<usize>];

/// Hours in no window are free. A window holds its first hour and not the hour after its last. Windows may touch.
fn windows() -> Vec<KnownCalendar> {
    let every_hour: Vec<u16> = (0..8_784).flat_map(|hour| [hour, 1]).collect();
    let every_second: Vec<u16> = (0..8_784).step_by(2).flat_map(|hour| [hour, 1]).collect();
    let seconds: Vec<RangeInclusive<usize>> = (1..=24).step_by(2).map(|k| k..=k).collect();
    [
        shown("no window", (&[], &[]), FIRST, 24, &[], &[]),
        shown("one hour on-line", (&[1_005, 1], &[]), FIRST, 24, &[6..=6], &[]),
        shown("one hour off-line", (&[], &[1_005, 1]), FIRST, 24, &[], &[6..=6]),
        shown("three hours of each", (&[1_001, 3], &[1_010, 3]), FIRST, 24, &[2..=4], &[11..=13]),
        shown("on-line windows touch", (&[1_004, 2, 1_006, 3], &[]), FIRST, 24, &[5..=9], &[]),
        shown("off-line windows touch", (&[], &[1_004, 2, 1_006, 3]), FIRST, 24, &[], &[5..=9]),
        shown("an hour between two windows", (&[1_004, 2, 1_007, 2], &[]), FIRST, 24, &[5..=6, 8..=9], &[]),
        shown("on-line touches off-line", (&[1_004, 2], &[1_006, 3]), FIRST, 24, &[5..=6], &[7..=9]),
        shown("off-line touches on-line", (&[1_006, 3], &[1_004, 2]), FIRST, 24, &[7..=9], &[5..=6]),
        shown("every hour of the year on-line", (&every_hour, &[]), FIRST, 24, &[1..=24], &[]),
        shown("every hour of the year off-line", (&[], &every_hour), FIRST, 24, &[], &[1..=24]),
        shown("every second hour of the year", (&every_second, &[]), FIRST, 24, &seconds, &[]),
    ]
    .concat()
}

/// Windows about the first hour of the day and about its last, on days of 23, 24 and 25 hours.
fn edges_of_the_day() -> Vec<KnownCalendar> {
    let of_hours = |hours: u16| {
        let (count, end) = (usize::from(hours), FIRST + hours);
        let (within, last) = (end - 1, count..=count);
        [
            shown(
                "at the first hour and the last",
                (&[FIRST, 1], &[within, 1]),
                FIRST,
                hours,
                &[1..=1],
                &[last],
            ),
            shown("just the day, on-line", (&[FIRST, hours], &[]), FIRST, hours, &[1..=count], &[]),
            shown("just the day, off-line", (&[], &[FIRST, hours]), FIRST, hours, &[], &[1..=count]),
            shown("ends at the first hour", (&[990, 10], &[980, 20]), FIRST, hours, &[], &[]),
            shown("ends after the first hour", (&[990, 11], &[]), FIRST, hours, &[1..=1], &[]),
            shown("begins at the hour after the last", (&[end, 5], &[end, 9]), FIRST, hours, &[], &[]),
            shown("begins at the last hour", (&[], &[within, 5]), FIRST, hours, &[], &[count..=count]),
        ]
        .concat()
    };
    let of_24 = [
        shown("begins before the day", (&[990, 13], &[]), FIRST, 24, &[1..=3], &[]),
        shown("begins before the day, off-line", (&[], &[0, 1_003]), FIRST, 24, &[], &[1..=3]),
        shown("ends after the day", (&[], &[1_020, 100]), FIRST, 24, &[], &[21..=24]),
        shown("longer than the day, on-line", (&[999, 26], &[]), FIRST, 24, &[1..=24], &[]),
        shown("longer than the day, off-line", (&[], &[0, 8_784]), FIRST, 24, &[], &[1..=24]),
        shown("touch at the first hour", (&[990, 10, 1_000, 2], &[]), FIRST, 24, &[1..=2], &[]),
        shown("touch after the last hour", (&[], &[1_022, 2, 1_024, 9]), FIRST, 24, &[], &[23..=24]),
    ];
    [[23, 24, 25].map(of_hours).concat(), of_24.concat()].concat()
}

/// First hour plus length of the day and of a window may be 8,784, and the first hour may be 0.
fn edges_of_the_year() -> Vec<KnownCalendar> {
    let at_the_end = |hours: u16| {
        let (first, count) = (8_784 - hours, usize::from(hours));
        let both: Lists = (&[first, 1], &[8_783, 1]);
        [
            shown("the day ends at 8,784", (&[], &[]), first, hours, &[], &[]),
            shown("the last hour of the year", both, first, hours, &[1..=1], &[count..=count]),
        ]
        .concat()
    };
    let elsewhere = [
        shown("the day begins at 0", (&[0, 1], &[1, 1]), 0, 24, &[1..=1], &[2..=2]),
        shown("ends at 8,784, far from the day", (&[8_783, 1], &[5_000, 3_784]), FIRST, 24, &[], &[]),
        shown("the whole year", (&[0, 8_784], &[]), 0, 25, &[1..=25], &[]),
    ];
    [[23, 24, 25].map(at_the_end).concat(), elsewhere.concat()].concat()
}

/// Both lists may hold an hour of the year that is not one of the day's.
fn both_lists() -> Vec<KnownCalendar> {
    let beside: Lists = (&[900, 50, 1_000, 2], &[949, 1, 1_022, 10]);
    [
        shown("both far from the day", beside, FIRST, 24, &[1..=2], &[23..=24]),
        shown("both at the hour before the day", (&[999, 1], &[999, 1]), FIRST, 24, &[], &[]),
        shown("both at the hour after 23", (&[1_023, 1], &[1_023, 1]), FIRST, 23, &[], &[]),
        shown("both at the hour after 24", (&[1_024, 1], &[1_024, 1]), FIRST, 24, &[], &[]),
        shown("both at the hour after 25", (&[1_025, 1], &[1_025, 1]), FIRST, 25, &[], &[]),
        shown("both at 0", (&[0, 1, 1_000, 1], &[0, 1]), FIRST, 24, &[1..=1], &[]),
    ]
    .concat()
}

/// The unit of the known days at price 10, margin 0: an on-line hour costs 2 A = 2, a start 2 B = 6 and a stop 2 C = 4
/// half-mills. From 0 MW an on-line hour asks for 1, 2, 1, 0, which costs 3 * 2 + 6 + 4 = 16, as case 8 of the known
/// days does; the lowest list begins it at that hour. Four hours before the end of the day, 1, 2, 2, 1 costs
/// 4 * 2 + 6 = 14 and closes on PD(2), and at the last hour 1 costs 2 + 6 = 8. From 2 MW the unit shuts down, 1, 0, for
/// 2 + 4 = 6, unless it is ordered on-line all day, at 2 for each hour, the last on PD(2); off-line at hour 1 it cannot
/// be. The source's day keeps its list where the calendar orders what the list does.
fn trajectories() -> Vec<KnownCalendar> {
    let (off, on) = (known_unit(0, &[10; 24]), known_unit(2, &[10; 24]));
    let like_the_list: Lists = (&[1_000, 4, 1_007, 17], &[1_004, 3]);
    vec![
        found("a start in the day", off, (&[1_005, 1], &[]), at(6, &[1, 2, 1]), -16),
        found("a start before the end", off, (&[1_020, 1], &[]), at(21, &[1, 2, 2, 1]), -14),
        found("a start at the last hour", off, (&[1_023, 9], &[]), at(24, &[1]), -8),
        found("the orders of case 8", off, (&[1_001, 1], &[1_003, 1]), at(1, &[1, 2, 1]), -16),
        found("off-line all day", off, (&[], &[0, 8_784]), at(1, &[]), 0),
        found("a stop of its own", on, (&[], &[]), at(1, &[1]), -6),
        found("off-line from hour 2", on, (&[], &[1_001, 99]), at(1, &[1]), -6),
        found("on-line for 24 hours", on, (&[999, 99], &[]), kept_on_line(24), -48),
        found("on-line for 23 hours", known_unit(2, &[10; 23]), (&[999, 99], &[]), kept_on_line(23), -46),
        found("on-line for 25 hours", known_unit(2, &[10; 25]), (&[999, 99], &[]), kept_on_line(25), -50),
        refused("off-line at hour 1", on, (&[], &[1_000, 1]), FIRST, 11),
        refused("on-line all day, off-line at hour 1", on, (&[1_001, 99], &[0, 1_001]), FIRST, 11),
        refused("the orders of case 12", off, (&[1_001, 1], &[1_000, 1, 1_003, 1]), FIRST, 11),
        found("the source's day", source_day(), (&[], &[]), SOURCE_LIST.to_vec(), SOURCE_PROFIT),
        found("its own list ordered", source_day(), like_the_list, SOURCE_LIST.to_vec(), SOURCE_PROFIT),
    ]
}

/// The orders of the lists replace the case's own, which 8 still tests. The unit of the known days from 2 MW cannot be
/// off-line at hour 1.
fn replaced() -> Vec<KnownCalendar> {
    let (off, on) = (known_unit(0, &[10; 24]), known_unit(2, &[10; 24]));
    let own = |case: Case, k: usize, order: u8| {
        let mut case = case;
        case.orders[k - 1] = order;
        case
    };
    let (stopped, started) = (at(1, &[1]), at(6, &[1, 2, 1]));
    let impossible = own(on, 1, OFF_LINE);
    let always = |order: u8| with_orders(off, &[order; 24]);
    vec![
        found("own orders without a list", impossible, (&[], &[]), stopped.clone(), -6),
        found("and a window elsewhere", impossible, (&[1_024, 1], &[990, 10]), stopped.clone(), -6),
        found("on-line of its own", always(ON_LINE), (&[], &[]), vec![0; 24], 0),
        found("off-line of its own", always(OFF_LINE), (&[1_005, 1], &[]), started, -16),
        found("the opposite of its own", always(ON_LINE), (&[], &[1_000, 24]), vec![0; 24], 0),
        refused("no list by the calendar", on, (&[], &[1_000, 1]), FIRST, 11),
        refused("nor by its own", impossible, (&[], &[1_000, 1]), FIRST, 11),
        found("order 3 past T", own(on, 25, 3), (&[], &[]), stopped, -6),
        refused("order 3 in an on-line window", own(on, 6, 3), (&[1_005, 1], &[]), FIRST, 8),
        refused("order 3 in an off-line window", own(on, 6, 3), (&[], &[1_005, 1]), FIRST, 8),
        refused("order 3 in no window", own(on, 6, 3), (&[1_006, 1], &[1_004, 1]), FIRST, 8),
        refused("order 3 at hour 1", own(on, 1, 3), (&[], &[]), FIRST, 8),
        refused("order 255 at hour T", own(on, 24, 255), (&[0, 8_784], &[]), FIRST, 8),
    ]
}

/// 14 by a list: not of whole pairs; a window empty, unsorted or overlapping its neighbour; first hour plus length
/// above 8,784, where sums do not wrap at 65,536. Each in either list, beside an empty one and beside one that orders
/// hours of the day.
fn lists_not_as_laid_down() -> Vec<KnownCalendar> {
    let case = known_unit(2, &[10; 24]);
    let far: Vec<u16> = (0..800).flat_map(|hour| [hour, 1]).chain([8_000, 0]).collect();
    let lists: [(&str, &[u16]); 28] = [
        ("one number", &[1_000]),
        ("one number 0", &[0]),
        ("three numbers", &[900, 5, 950]),
        ("five numbers", &[900, 5, 950, 5, 960]),
        ("a window of no hour", &[1_000, 0]),
        ("two zeros", &[0, 0]),
        ("no hour before the day", &[900, 0]),
        ("no hour at the end of the year", &[8_784, 0]),
        ("no hour after a window", &[900, 5, 950, 0]),
        ("no hour right after a window", &[900, 5, 905, 0]),
        ("no hour before a window", &[900, 0, 900, 5]),
        ("no hour after 800 windows", &far),
        ("unsorted", &[950, 5, 900, 5]),
        ("unsorted, touching", &[905, 5, 900, 5]),
        ("unsorted about the day", &[1_010, 5, 1_000, 5]),
        ("the last is unsorted", &[100, 5, 950, 5, 900, 5]),
        ("overlapping by one hour", &[900, 51, 950, 5]),
        ("overlapping by one hour of the day", &[1_000, 6, 1_005, 5]),
        ("the last overlaps by one hour", &[100, 5, 900, 51, 950, 5]),
        ("the same window twice", &[900, 5, 900, 5]),
        ("a window within another", &[900, 100, 910, 5]),
        ("past the year by one", &[8_783, 2]),
        ("the hour after the year", &[8_784, 1]),
        ("longer than the year by one", &[0, 8_785]),
        ("65,535 and 1", &[65_535, 1]),
        ("1 and 65,535", &[1, 65_535]),
        ("65,535 twice", &[65_535, 65_535]),
        ("60,000 and 6,000 after a window", &[900, 5, 60_000, 6_000]),
    ];
    let rows = |(name, list)| {
        let beside: &[u16] = &[1_020, 2];
        let lists: [Lists; 4] = [(list, &[]), (&[], list), (list, beside), (beside, list)];
        lists.map(|lists| refused(name, case, lists, FIRST, 14))
    };
    lists.into_iter().flat_map(rows).collect()
}

/// 14 by the day: a length other than 23, 24 and 25, or first hour plus length above 8,784.
fn days_not_as_laid_down() -> Vec<KnownCalendar> {
    let days = [
        ("22 hours", FIRST, 22),
        ("26 hours", FIRST, 26),
        ("0 hours", FIRST, 0),
        ("1 hour", FIRST, 1),
        ("48 hours", FIRST, 48),
        ("279 hours", FIRST, 256 + 23),
        ("65,535 hours", FIRST, 65_535),
        ("22 hours to the end of the year", 8_762, 22),
        ("23 hours past the year by one", 8_762, 23),
        ("24 hours past the year by one", 8_761, 24),
        ("25 hours past the year by one", 8_760, 25),
        ("24 hours after the year", 8_784, 24),
        ("24 hours from 65,512", 65_512, 24),
        ("24 hours from 65,535", 65_535, 24),
    ];
    let rows = |(name, first, hours): (&'static str, u16, u16)| {
        let case = Case { t: hours.into(), ..known_unit(2, &[10; 24]) };
        refused(name, case, (&[], &[]), first, 14)
    };
    days.map(rows).to_vec()
}

/// 15: an hour of the day in both lists, right after 14.
fn in_both_lists() -> Vec<KnownCalendar> {
    let of = |name, hours: usize, lists: Lists, number| {
        refused(name, known_unit(2, &vec![10; hours]), lists, FIRST, number)
    };
    vec![
        of("one hour in both", 24, (&[1_005, 1], &[1_005, 1]), 15),
        of("hour 1 in both", 24, (&[990, 11], &[1_000, 5]), 15),
        of("hour 23 of 23 in both", 23, (&[1_022, 1], &[1_022, 9]), 15),
        of("hour 24 of 24 in both", 24, (&[1_023, 9], &[1_023, 1]), 15),
        of("hour 25 of 25 in both", 25, (&[1_024, 1], &[1_020, 5]), 15),
        of("a window across the other", 24, (&[900, 200], &[1_010, 5]), 15),
        of("the year in both", 24, (&[0, 8_784], &[0, 8_784]), 15),
        of("the second of both", 24, (&[10, 5, 1_003, 2], &[500, 5, 1_004, 2]), 15),
        of("both, and a window of no hour on-line", 24, (&[1_005, 1, 1_007, 0], &[1_005, 1]), 14),
        of("both, and a window of no hour off-line", 24, (&[1_005, 1], &[1_005, 1, 1_007, 0]), 14),
        of("both, and an odd number on-line", 24, (&[1_005, 1, 1_007], &[1_005, 1]), 14),
        of("both, and an odd number off-line", 24, (&[1_005, 1], &[1_005, 1, 1_007]), 14),
        of("both, and a day of 22 hours", 22, (&[1_005, 1], &[1_005, 1]), 14),
        of("both, and a day of 26 hours", 26, (&[1_005, 1], &[1_005, 1]), 14),
    ]
}

/// A T that is not the day's number of hours gets 2, before 3 to 8 and 13; T is a number of 64 bits.
fn other_hours() -> Vec<KnownCalendar> {
    let case = known_unit(2, &[10; 24]);
    let of = |name, case: Case, hours: u16| refused_day(name, case, (&[], &[]), (FIRST, hours), 2);
    let counts = [
        ("T 22", 22, 23),
        ("T 22 of 24", 22, 24),
        ("T 23 of 24", 23, 24),
        ("T 23 of 25", 23, 25),
        ("T 24 of 23", 24, 23),
        ("T 24 of 25", 24, 25),
        ("T 25 of 23", 25, 23),
        ("T 25 of 24", 25, 24),
        ("T 26", 26, 25),
        ("T 1", 1, 24),
        ("T 48", 48, 24),
        ("T 0", 0, 23),
        ("T 24 more than 2^16", (1 << 16) + 24, 24),
        ("T 24 more than 2^32", (1 << 32) + 24, 24),
        ("T 2^64 - 1", usize::MAX, 24),
    ];
    let by_t = counts.map(|(name, t, hours)| of(name, with_t(case, t), hours));
    let by_count = [
        of("UD 0", Case { ud: 0, ..case }, 24),
        of("UD 9", Case { ud: 9, ..case }, 24),
        of("DD 0", Case { dd: 0, ..case }, 24),
        of("DD 9", Case { dd: 9, ..case }, 24),
    ];
    let first =
        refused_cases(case).into_iter().flat_map(|(name, case, _)| [of(name, case, 23), of(name, case, 25)]);
    let minimum_0 = of("minimum 0", Case { minimum: 0, ..case }, 23);
    by_t.into_iter().chain(by_count).chain(first).chain([minimum_0]).collect()
}

/// 14 and 15 come before any case, whatever memory is lent.
fn before_the_case() -> Vec<KnownCalendar> {
    let case = known_unit(2, &[10; 24]);
    let other = ("T 23", with_t(case, 23), 2);
    let cases = refused_cases(case).into_iter().chain([other]);
    let rows = |(name, case, _)| {
        let both: Lists = (&[1_005, 1], &[1_005, 1]);
        let calendars =
            [((&[1_005, 0][..], &[][..]), 24, 14), ((&[], &[1_005]), 24, 14), (both, 26, 14), (both, 24, 15)];
        calendars.map(|(lists, hours, number)| {
            let row = refused_day(name, case, lists, (FIRST, hours), number);
            [with_memory(row.clone(), 0, 0), row]
        })
    };
    cases.flat_map(rows).flatten().collect()
}

/// The other numbers of a record, where T is the day's number of hours; 10 comes after them.
fn refused_records() -> Vec<KnownCalendar> {
    let cases = refused_cases(known_unit(2, &[10; 24]));
    let rows = |(name, case, number)| {
        let row = refused_day(name, case, (&[1_020, 9], &[1_003, 1]), (FIRST, 24), number);
        [with_memory(row.clone(), 0, 0), row]
    };
    cases.into_iter().flat_map(rows).collect()
}

/// 10 is given for fewer than 8,192 working numbers and for fewer than T outputs, also where no list keeps every rule;
/// more of both are left as they were.
fn short_memory() -> Vec<KnownCalendar> {
    let on = known_unit(2, &[10; 24]);
    let (free, none): (Lists, Lists) = ((&[], &[]), (&[], &[1_000, 1]));
    let short =
        |name, lists, numbers, outputs| with_memory(refused(name, on, lists, FIRST, 10), numbers, outputs);
    let all: Lists = (&[0, 8_784], &[]);
    let day_23 = found("23 outputs for 23 hours", known_unit(2, &[10; 23]), all, kept_on_line(23), -46);
    let long = found("more than enough", on, all, kept_on_line(24), -48);
    vec![
        short("8,191 numbers", free, 8_191, 24),
        short("no numbers", free, 0, 24),
        short("23 outputs", free, 8_192, 23),
        short("no outputs", free, 8_192, 0),
        short("no memory", free, 0, 0),
        short("8,191 numbers and no list", none, 8_191, 24),
        short("23 outputs and no list", none, 8_192, 23),
        with_memory(refused_day("T 24 of 23, no memory", on, free, (FIRST, 23), 2), 0, 0),
        with_memory(day_23, 8_192, 23),
        with_memory(long, 8_200, 48),
        with_memory(refused("no list, more than enough", on, none, FIRST, 11), 8_200, 48),
    ]
}

/// Days inside a sequence (request F-5), of the known unit at price 10. From PU(1) hour 1 is at 2 and hour 2 at 1,
/// which costs 2 + 2 + 4; ordered on-line at hour 3 it is at 2, 2, 1, 0, which costs 3 * 2 + 4 = 10; off-line at hour 1
/// it cannot be. From PD(2) hour 1 is off-line, which costs 4, and cannot be ordered on-line. Ordered on-line at the
/// last hour from 2 MW, a day of 24 hours starts up there, 1, 0 .. 0, 1, for 2 + 4 + 2 + 6 = 14. A stage that is not in
/// order is 7, after 14 and 15 and after 2.
fn inside_a_sequence() -> Vec<KnownCalendar> {
    let on = known_unit(2, &[10; 24]);
    let opened = |p0, h, up_stage, down_stage| Opening { p0, h, up_stage, down_stage }.set(&on);
    let (rising, falling, both) = (opened(1, 1, 1, 0), opened(1, 3, 0, 2), opened(1, 1, 1, 2));
    let first_off: Lists = (&[], &[1_000, 1]);
    let [start, end] = [[2, 1].as_slice(), &[1]].map(|outputs| at(1, outputs));
    let restarted = [&end[..23], &[1]].concat();
    vec![
        found("a start goes on", rising, (&[], &[]), start, -8),
        found("a start goes on, on-line at hour 3", rising, (&[1_002, 1], &[]), at(1, &[2, 2, 1]), -10),
        refused("a start goes on, off-line at hour 1", rising, first_off, FIRST, 11),
        found("a stop goes on", falling, first_off, at(1, &[]), -4),
        refused("a stop goes on, on-line at hour 1", falling, (&[1_000, 1], &[]), FIRST, 11),
        found("on-line at the last hour", on, (&[1_023, 1], &[]), restarted, -14),
        refused("both stages", both, (&[], &[]), FIRST, 7),
        refused("both stages, an hour in both lists", both, (&[1_000, 1], &[1_000, 1]), FIRST, 15),
        refused_day("both stages, T 24 of 23", both, (&[], &[]), (FIRST, 23), 2),
    ]
}

/// A week and long minimum times (request F-6). A day keeps its 23 to 25 hours: of 168 hours it is 14, and T
/// 168 of 24 hours is 2. A minimum time of 9 asks for 32,768 working numbers, also where there is no list; 25
/// is 4. With a minimum up time of 20 a start at hour 2, as ordered, stops at hour 22, for
/// 20 * 2 + 6 + 4 = 50, and with one of 24 it stays on-line to hour 24, at 2, for 23 * 2 + 6 = 52; ordered
/// off-line at hour 21 there is no list for 20.
fn long_minimum_times() -> Vec<KnownCalendar> {
    let (off, on) = (known_unit(0, &[10; 24]), known_unit(2, &[10; 24]));
    let up = |time: u16, case: Case| Case { min_up: time, ..case };
    let (nine, eight) = (up(9, off), up(8, off));
    let (free, none): (Lists, Lists) = ((&[], &[]), (&[], &[1_000, 1]));
    let idle = |name, case, numbers| with_memory(found(name, case, free, vec![0; 24], 0), numbers, 24);
    let short = |name, case, lists, numbers| with_memory(refused(name, case, lists, FIRST, 10), numbers, 24);
    let start: Lists = (&[1_001, 1], &[1_000, 1]);
    let run = [&[0, 1][..], &[2; 18], &[1, 0, 0, 0]].concat();
    let kept = [&[0, 1][..], &[2; 22]].concat();
    let large = |row: KnownCalendar| with_memory(row, MOST_WORKING_NUMBERS, 24);
    let late: Lists = (&[1_001, 1], &[1_000, 1, 1_020, 1]);
    vec![
        refused("a day of 168 hours", known_unit(0, &[10; 168]), free, FIRST, 14),
        refused_day("T 168 of 24", known_unit(0, &[10; 168]), free, (FIRST, 24), 2),
        refused_day("T 169 of 24", with_t(off, 169), free, (FIRST, 24), 2),
        refused("minimum up time 25", up(25, off), free, FIRST, 4),
        refused("minimum down time 25", Case { min_down: 25, ..off }, free, FIRST, 4),
        idle("minimum up time 8, 8,192 numbers", eight, 8_192),
        idle("minimum up time 8, 32,769 numbers", eight, 32_769),
        short("minimum up time 8, 8,191 numbers", eight, free, 8_191),
        short("minimum up time 9, 8,192 numbers", nine, free, 8_192),
        short("minimum up time 9, 32,767 numbers", nine, free, 32_767),
        idle("minimum up time 9, 32,768 numbers", nine, 32_768),
        idle("minimum up time 9, 32,769 numbers", nine, 32_769),
        short("minimum down time 9, 32,767 numbers", Case { min_down: 9, ..off }, free, 32_767),
        short("minimum up time 9, 32,767 numbers and no list", up(9, on), none, 32_767),
        large(refused("minimum up time 9 and no list", up(9, on), none, FIRST, 11)),
        large(found("20 hours of a minimum of 20", up(20, off), start, run, -50)),
        large(found("the rest of the day of a minimum of 24", up(24, off), start, kept, -52)),
        large(refused("off-line after 19 hours", up(20, off), late, FIRST, 11)),
        with_memory(refused("minimum up time 25, no memory", up(25, off), free, FIRST, 4), 0, 0),
    ]
}

/// A unit of 1 MW that can start and stop at any hour: at price 10 an on-line hour costs 2 A = 2 half-mills, and the
/// best list is on-line where it is ordered to be, and nowhere else.
fn idle_unit(hours: u16) -> Case {
    let mut case =
        Case { capacity: 1, minimum: 1, ud: 1, dd: 1, b: 0, c: 0, ..known_unit(0, &vec![10; hours.into()]) };
    (case.pu, case.pd) = ([0; 8], [0; 8]);
    (case.pu[0], case.pd[0]) = (1, 1);
    case
}

/// The same unit at price 11, where an on-line hour costs nothing: the best list is off-line where it is ordered to be,
/// and nowhere else.
fn eager_unit(hours: u16) -> Case {
    let mut case = Case { a: 0, ..idle_unit(hours) };
    case.prices[..case.t].fill(11);
    case
}

/// Two rows that show which hours of the day are ordered on-line and which off-line. An on-line hour of the idle unit
/// earns -2; a megawatt at the end of an hour of the other unit earns 1 in that hour and, unless it is the last, 1 in
/// the next.
fn shown(
    name: &'static str,
    lists: Lists,
    first: u16,
    hours: u16,
    on: Hours,
    off: Hours,
) -> Vec<KnownCalendar> {
    let count = usize::from(hours);
    let list = |other: u16, ordered: Hours| -> Vec<u16> {
        let is_ordered = |k| ordered.iter().any(|hours| hours.contains(&k));
        (1..=count).map(|k| if is_ordered(k) { 1 - other } else { other }).collect()
    };
    let (idle, eager) = (list(0, on), list(1, off));
    let costs = -2 * sum(&idle);
    let earns = 2 * sum(&eager) - i64::from(eager[count - 1]);
    let row = |case, list, profit| {
        let answer = Schedule { number: 0, profit, list };
        KnownCalendar { first, ..row(name, case, lists, answer) }
    };
    vec![row(idle_unit(hours), idle, costs), row(eager_unit(hours), eager, earns)]
}

/// The case with another count of hours, and nothing past it.
fn with_t(case: Case, t: usize) -> Case {
    Case { t, ..case }.zeroed_past_counts()
}

/// A list of 24 outputs that has these from hour k on, and is off-line before and after.
fn at(k: usize, outputs: &[u16]) -> Vec<u16> {
    let mut list = vec![0; 24];
    list[k - 1..k - 1 + outputs.len()].copy_from_slice(outputs);
    list
}

/// So many hours of the known unit at the minimum output, the last on PD(2) = 1.
fn kept_on_line(hours: usize) -> Vec<u16> {
    let mut list = vec![2; hours];
    list[hours - 1] = 1;
    list
}

/// The sum of a list.
fn sum(list: &[u16]) -> i64 {
    list.iter().map(|&output| i64::from(output)).sum()
}

/// A row whose list is found.
fn found(name: &'static str, case: Case, lists: Lists, list: Vec<u16>, profit: i64) -> KnownCalendar {
    row(name, case, lists, Schedule { number: 0, profit, list })
}

/// A row that is refused, of a day that has T hours.
fn refused(name: &'static str, case: Case, lists: Lists, first: u16, number: u32) -> KnownCalendar {
    refused_day(name, case, lists, (first, case.t as u16), number)
}

/// A row that is refused, of a day with any first hour and number of hours, with outputs for every day.
fn refused_day(
    name: &'static str,
    case: Case,
    lists: Lists,
    (first, hours): (u16, u16),
    number: u32,
) -> KnownCalendar {
    let answer = Schedule { number, profit: 0, list: Vec::new() };
    KnownCalendar { first, hours, outputs: MOST_HOURS, ..row(name, case, lists, answer) }
}

/// The same row with so many numbers and outputs lent.
fn with_memory(row: KnownCalendar, numbers: usize, outputs: usize) -> KnownCalendar {
    KnownCalendar { numbers, outputs, ..row }
}

/// A row of a day that has T hours, in just enough memory.
fn row(name: &'static str, case: Case, (on, off): Lists, answer: Schedule) -> KnownCalendar {
    KnownCalendar {
        name,
        case,
        on: on.to_vec(),
        off: off.to_vec(),
        first: FIRST,
        hours: case.t as u16,
        numbers: WORKING_NUMBERS,
        outputs: case.t,
        answer,
    }
}
