//! The kinds of lists that are checked, by minimum times above 8 hours (request F-6): an hour early, just in
//! time.

use super::locks::{changes, Change};
use super::{kind, Kind};
use oracle::answers::Verdict;
use oracle::case::Case;

/// A list that was checked, its verdict, and its starts and stops.
pub struct Met {
    case: Case,
    verdict: Verdict,
    changes: Vec<Change>,
}

/// All kinds.
pub const KINDS: [Kind<Met>; 42] = [
    kind("passes, on-line for just 9 hours", |met| met.passes_stop(9)),
    kind("10", |met| met.passes_stop(10)),
    kind("15", |met| met.passes_stop(15)),
    kind("16", |met| met.passes_stop(16)),
    kind("17", |met| met.passes_stop(17)),
    kind("20", |met| met.passes_stop(20)),
    kind("23", |met| met.passes_stop(23)),
    kind("24", |met| met.passes_stop(24)),
    kind("passes, off-line for just 9 hours", |met| met.passes_start(9)),
    kind("10 off-line", |met| met.passes_start(10)),
    kind("15 off-line", |met| met.passes_start(15)),
    kind("16 off-line", |met| met.passes_start(16)),
    kind("17 off-line", |met| met.passes_start(17)),
    kind("20 off-line", |met| met.passes_start(20)),
    kind("23 off-line", |met| met.passes_start(23)),
    kind("24 off-line", |met| met.passes_start(24)),
    kind("21 an hour early of 9", |met| met.breaks_21(9)),
    kind("21 of 10", |met| met.breaks_21(10)),
    kind("21 of 15", |met| met.breaks_21(15)),
    kind("21 of 16", |met| met.breaks_21(16)),
    kind("21 of 17", |met| met.breaks_21(17)),
    kind("21 of 20", |met| met.breaks_21(20)),
    kind("21 of 23", |met| met.breaks_21(23)),
    kind("21 of 24", |met| met.breaks_21(24)),
    kind("22 an hour early of 9", |met| met.breaks_22(9)),
    kind("22 of 10", |met| met.breaks_22(10)),
    kind("22 of 15", |met| met.breaks_22(15)),
    kind("22 of 16", |met| met.breaks_22(16)),
    kind("22 of 17", |met| met.breaks_22(17)),
    kind("22 of 20", |met| met.breaks_22(20)),
    kind("22 of 23", |met| met.breaks_22(23)),
    kind("22 of 24", |met| met.breaks_22(24)),
    kind("21 by a start of the day", |met| met.some_early(21, |_, change| change.after_change)),
    kind("21 by h", |met| met.some_early(21, |case, change| !change.after_change && case.up_stage == 0)),
    kind("21 by a start before the day", |met| {
        met.some_early(21, |case, change| !change.after_change && case.up_stage > 0)
    }),
    kind("21 after T", |met| met.some_early(21, |case, change| change.hour > case.t)),
    kind("21 past hour 48", |met| met.some_early(21, |_, change| change.hour > 48)),
    kind("22 by a stop of the day", |met| met.some_early(22, |_, change| change.after_change)),
    kind("22 by h", |met| met.some_early(22, |_, change| !change.after_change)),
    kind("22 past hour 48", |met| met.some_early(22, |_, change| change.hour > 48)),
    kind("passes, 168 hours", |met| met.verdict.rule == 0 && met.case.t == 168),
    kind("breaks at hour 168", |met| met.verdict.rule > 0 && met.verdict.hour == 168),
];

impl Met {
    /// A list of T outputs of a case within the limits, with its verdict.
    pub fn new(case: &Case, list: &[u16], verdict: &Verdict) -> Met {
        Met { case: *case, verdict: *verdict, changes: changes(case, list) }
    }

    /// Whether the list passes, and a stop comes just at this minimum up time, or a start at this minimum
    /// down time.
    fn passes_stop(&self, time: u16) -> bool {
        let is_such = |change: &Change| !change.is_start && change.hours == usize::from(time);
        self.verdict.rule == 0 && self.case.min_up == time && self.changes.iter().any(is_such)
    }
    fn passes_start(&self, time: u16) -> bool {
        let is_such = |change: &Change| change.is_start && change.hours == usize::from(time);
        self.verdict.rule == 0 && self.case.min_down == time && self.changes.iter().any(is_such)
    }

    /// Whether the list breaks this rule, and the change at the hour of the breach is such.
    fn some_early(&self, rule: u32, test: fn(&Case, &Change) -> bool) -> bool {
        let at_breach = |change: &&Change| change.hour == self.verdict.hour as usize;
        self.verdict.rule == rule
            && self.changes.iter().find(at_breach).is_some_and(|change| test(&self.case, change))
    }

    /// Whether it breaks 21 an hour before this minimum up time is over, or 22 before this minimum down time
    /// is.
    fn breaks_21(&self, time: u16) -> bool {
        self.case.min_up == time
            && self.some_early(21, |case, change| change.hours + 1 == usize::from(case.min_up))
    }
    fn breaks_22(&self, time: u16) -> bool {
        self.case.min_down == time
            && self.some_early(22, |case, change| change.hours + 1 == usize::from(case.min_down))
    }
}
