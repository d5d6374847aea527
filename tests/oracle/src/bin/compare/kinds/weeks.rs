//! The kinds of weeks that are searched (request F-6), by their hours, their size and the runs of the best
//! list.

use super::locks::Met;
use super::{kind, Kind};
use oracle::case::MOST_HOURS;
use oracle::refusals::LONGEST_TIME;

/// All kinds.
pub const KINDS: [Kind<Met>; 29] = [
    kind("49 to 96 hours", |met| met.is_of(49, 96)),
    kind("97 to 167 hours", |met| met.is_of(97, 167)),
    kind("168 hours", |met| met.is_of(168, 168)),
    kind("168 hours, both minimum times at most 8", |met| met.is_of(168, 168) && met.locks(false, false)),
    kind("168 hours, the minimum up time alone above 8", |met| met.is_of(168, 168) && met.locks(true, false)),
    kind("the minimum down time alone", |met| met.is_of(168, 168) && met.locks(false, true)),
    kind("both", |met| met.is_of(168, 168) && met.locks(true, true)),
    kind("the largest", |met| met.is_largest()),
    kind("the largest, ramps of 1", |met| {
        met.is_largest() && met.case.ramp_up == 1 && met.case.ramp_down == 1
    }),
    kind("the largest, ramps of 400", |met| {
        met.is_largest() && met.case.ramp_up == 400 && met.case.ramp_down == 400
    }),
    kind("on-line for just 9 hours", |met| met.runs_for(9)),
    kind("20 hours", |met| met.runs_for(20)),
    kind("24 hours", |met| met.runs_for(24)),
    kind("off-line for just 9 hours", |met| met.rests_for(9)),
    kind("20 hours off-line", |met| met.rests_for(20)),
    kind("24 hours off-line", |met| met.rests_for(24)),
    kind("three starts", |met| met.starts() >= 3),
    kind("three starts, both minimum times above 8", |met| met.starts() >= 3 && met.locks(true, true)),
    kind("a start past hour 48", |met| met.some_change(|change| change.is_start && change.hour > 48)),
    kind("a stop past hour 48", |met| met.some_change(|change| !change.is_start && change.hour > 48)),
    kind("a start at hour 168", |met| met.some_change(|change| change.is_start && change.hour == 168)),
    kind("a stop at hour 168", |met| met.some_change(|change| !change.is_start && change.hour == 168)),
    kind("a stop after hour 168", |met| met.some_change(|change| change.hour > 168)),
    kind("from a start", |met| met.is_of(49, 168) && met.case.up_stage > 0),
    kind("from a stop", |met| met.is_of(49, 168) && met.case.down_stage > 0),
    kind("on-line below zero past hour 48", |met| met.some_hour(|price, output| price < 0 && output > 0)),
    kind("on-line above 65,535 past hour 48", |met| {
        met.some_hour(|price, output| price > 65_535 && output > 0)
    }),
    kind("an order at hour 168", |met| met.is_of(168, 168) && met.case.orders[MOST_HOURS - 1] > 0),
    kind("11 of 168 hours", |met| met.answer.number == 11 && met.case.t == MOST_HOURS),
];

impl Met {
    /// Whether a list was found, of so many hours.
    fn is_of(&self, least: usize, most: usize) -> bool {
        self.is_found() && (least..=most).contains(&self.case.t)
    }

    /// Whether it is a whole week of nearly all outputs, with the longest minimum times.
    fn is_largest(&self) -> bool {
        let case = &self.case;
        let longest = case.min_up == LONGEST_TIME && case.min_down == LONGEST_TIME;
        self.is_of(168, 168) && longest && case.capacity == 400 && case.minimum <= 8
    }

    /// Whether a start and the next stop are this minimum up time apart, or a stop and the next start this
    /// minimum down time.
    fn runs_for(&self, time: u16) -> bool {
        let is_such = |stop| self.is_just_in_time(stop) && stop.after_change && !stop.is_start;
        self.case.min_up == time && self.changes.iter().any(is_such)
    }
    fn rests_for(&self, time: u16) -> bool {
        let is_such = |start| self.is_just_in_time(start) && start.after_change && start.is_start;
        self.case.min_down == time && self.changes.iter().any(is_such)
    }

    /// How often the best list starts.
    fn starts(&self) -> usize {
        self.changes.iter().filter(|change| change.is_start).count()
    }

    /// Whether a start or a stop of the best list is such.
    fn some_change(&self, test: fn(&super::locks::Change) -> bool) -> bool {
        self.changes.iter().any(test)
    }

    /// Whether an hour of the best list past hour 48 is such, by its price and its output.
    fn some_hour(&self, test: fn(i32, u16) -> bool) -> bool {
        self.case.prices.iter().zip(&self.answer.list).skip(48).any(|(&price, &output)| test(price, output))
    }
}
